#!/bin/sh
# Measures the deepest stack that the calls of both ends need, with gdb: sh bench/stack.sh
# Wants the proved program of crates/stack_probe (rt run in its folder), gdb with Python, and nm. For each function of that program which the
# compiler left as one: the free stack is filled at its entry, each time that it is called, and the most that was touched at its return counts,
# in bytes, the return address included. `main` is the whole program, its printing included.
set -eu
cd "$(dirname "$0")/.."
program=$PWD/crates/stack_probe/out/stack_probe
(cd crates/stack_probe && rt run) >/dev/null 2>&1
{ echo main; nm "$program" | sed -n 's/^[0-9a-f]* t \(stack_probe::[a-z_]*\).*/\1/p' | sort -u; } | while read -r name; do
    gdb -q -batch -ex "set \$wanted = \"$name\"" -x bench/stack.py "$program" 2>/dev/null </dev/null | sed -n 's/^depth //p' | grep . || echo "$name: no figure"
done
