#!/bin/sh
# Measures requests served and answered a second, beside the same rules written plainly in Rust: sh bench/ends.sh
# Wants the proved program of crates/ends_bench (rt run in its folder) and rustc. Each figure is the best of seven runs, taken in turn.
set -eu
cd "$(dirname "$0")/.."
requests=200000
(cd crates/ends_bench && rt run) >/dev/null 2>&1
work=$(mktemp -d)
trap 'rm -rf "$work"' EXIT
rustc -O -o "$work/plain" bench/plain_ends.rs
for run in 1 2 3 4 5 6 7; do
    crates/ends_bench/out/ends_bench >"$work/proved.out" 2>>"$work/proved"
    "$work/plain" >"$work/plain.out" 2>>"$work/plain.times"
    cmp "$work/proved.out" "$work/plain.out"
done
best() { awk -v what="$2" '$1 == what && (!least || $2 < least) { least = $2 } END { print least }' "$1"; }
for what in small-exchanges small-notices full-exchanges full-notices; do
    awk -v what="$what" -v requests="$requests" -v proved="$(best "$work/proved" "$what")" -v plain="$(best "$work/plain.times" "$what")" 'BEGIN {
        printf "%s: proved %.2f million requests a second, plain %.2f, ratio %.2f\n", what, requests / proved * 1000, requests / plain * 1000, plain / proved
    }'
done
