#!/usr/bin/env python3
"""Counts, point by point, the places in src/ that are written in a form for which the language has a better one.

    python3 tools/forms.py [TOP] [-v]

TOP is the top of a checkout (default: this one); -v lists the places. Twins are counted by the names that reading found, as far as
these still stand. A number that stands in the conversion of an enum is no place. Point 8 counts files and lines of proofs."""
import re
import sys
from pathlib import Path

args = [a for a in sys.argv[1:] if a != '-v']
verbose = '-v' in sys.argv
top = Path(args[0]) if args else Path(__file__).resolve().parent.parent
tests = {'frames_tests', 'link_tests', 'pool_tests', 'terminal_tests', 'switch_tests'}

twins = (
    r'fn (in_line|in_frame|in_link|in_terminal|in_switch|in_making)\(|struct (Octets|Kept|Letter)\b|struct (Ring|Line)\b'
    r'|fn (request_type|answer_type|request_with_type|answer_with_type|invoke_cause|retrieve_cause)\('
    r'|fn (set_own|set_other|first_among|second_among|end|end_for)\(&?|fn (ask_word|operation_word)\('
    r'|fn (find_call|find_leg|has_call|has_leg|renewed_call|renewed_mark|renew_calls|renew_marks|renew_call|renew_mark|put_call|put_mark'
    r'|ended_call|freed_mark|end_calls|free_marks|end_call|free_call|count_held|count_legs|count_missed|count_wrong)\('
    r'|^fn (opened|connected|requested|received|served|notified|cleared)\(|fn (a_switch|make_switch)\('
)
numbered = r'^\s*(for \w+ in [\w.]+\.\.=?[\w.]+|for \(\w+, .*\) in .*enumerate|while )'
conversions = (
    r'fn (of|of_body|number|with_number|\w+_number|\w+_with_(number|type)|request_type|answer_type|exchange_bit\(exchange|one|rank'
    r'|operation_of|octet)\b'
)


def sources(with_tests):
    for path in sorted((top / 'crates').glob('*/src/**/*.rt')):
        crate = path.relative_to(top / 'crates').parts[0]
        if 'out' not in path.parts and (with_tests or (crate not in tests and path.name != 'tests.rt')):
            yield path.relative_to(top), path.read_text().splitlines()


def lines(pattern, with_tests=False):
    return [
        (f'{path}:{number}', code.strip())
        for path, text in sources(with_tests)
        for number, code in enumerate((line.split('//')[0] for line in text), 1)
        if re.search(pattern, code)
    ]


def without(pattern, places):
    return [place for place in places if not re.search(pattern, place[1])]


def by_index():
    """Loops whose variable, or what a `while` counts, is an index."""
    found = []
    for path, text in sources(True):
        for number, line in enumerate(text, 1):
            body = '\n'.join(text[number : number + 16])
            m = re.match(r'\s*for (\w+) in [\w.]+\.\.', line)
            if m and (m[1] == 'i' or re.search(rf'\w\[[^\]]*\b{m[1]}\b[^\]]*\]', body)):
                found.append((f'{path}:{number}', line.strip()))
            elif re.match(r'\s*for \(\w+, .*enumerate', line) or re.match(r'\s*while ', line) and re.search(r'\w+ \+= 1;', body):
                found.append((f'{path}:{number}', line.strip()))
    return found


def clauses():
    """Facts that stand in the contracts of three or more functions of one crate."""
    seen = {}
    for path, text in sources(False):
        for number, line in enumerate(text, 1):
            m = re.match(r'\s*(requires|ensures)\*?(?: \w+)? \{ (.*) \}\s*$', line.split('//')[0])
            if m:
                seen.setdefault((path.parts[1], m[1], m[2]), []).append(f'{path}:{number}')
    return [(at, f'{kind} {{ {fact} }}') for (_, kind, fact), places in seen.items() if len(places) >= 3 for at in places]


def buffers():
    """A buffer with its length in the next field."""
    return [
        (f'{path}:{number + 1}', line.strip())
        for path, text in sources(False)
        for number, line in enumerate(text[:-1])
        if re.match(r'\s*(pub )?(\w+): (\[u8; \w+\]|Vec<u8>),', line) and re.match(r'\s*(pub )?(len|size|used): u', text[number + 1])
    ]


points = [
    ('1 refusals by number', without('=> Fault', lines(r'Fault::in_\w+\(\s*\d+')) + without('=>', lines(r'Fault::(new|at)\([\w:]+, \d'))),
    ('1 an index that is the length where there is none', lines(r'fn (\w+_place|place_of)\(.*-> usize')),
    ('1 enums of the shape of Option or Result', lines(r'enum Step')),
    ('2 twins', lines(twins)),
    ('3 loops that count an index', by_index()),
    ('3 other loops over items, of which some search, test, count or add', without(numbered, lines(r'^\s*for '))),
    ('4 comparisons of the number within', lines(r'\.0 (==|<|>|<=|>=|!=) ', True)),
    ('4 equality and order by functions', lines(r'\.(same|before|is)\(|fn (same|before|is)\(', True)),
    ('4 conversions by functions', lines(conversions)),
    ('4 printing by functions', [p for p in lines(r'fn \w+_(text|word)\(|^fn (opened|connected|requested|received|served|notified|cleared)\(') if '/text/' not in p[0]]),
    ('5 facts in three contracts or more of a crate', clauses()),
    ('6 buffers with a length beside', buffers()),
]
for name, found in points:
    print(f'{len(found):6}  {name}')
    for at, code in found if verbose else []:
        print(f'          {at}: {code}')
proofs = [p for p in (top / 'crates').glob('*/proofs/**/*.antt') if 'out' not in p.parts]
print(f'{len(proofs):6}  8 files of proofs')
print(f'{sum(len(p.read_text().splitlines()) for p in proofs):6}  8 lines of proofs')
