#!/bin/sh
# Measures frames a second through a ring and a line link, beside the same written plainly in Rust: sh bench/links.sh
# Wants the proved program of crates/link_bench (rt run in its folder) and rustc. Each figure is the best of seven runs, taken in turn.
set -eu
cd "$(dirname "$0")/.."
frames=2000000
(cd crates/link_bench && rt run) >/dev/null 2>&1
work=$(mktemp -d)
trap 'rm -rf "$work"' EXIT
rustc -O -o "$work/plain" bench/plain_links.rs
for run in 1 2 3 4 5 6 7; do
    crates/link_bench/out/link_bench >"$work/proved.out" 2>>"$work/proved"
    "$work/plain" >"$work/plain.out" 2>>"$work/plain.times"
    cmp "$work/proved.out" "$work/plain.out"
done
best() { awk -v link="$2" '$1 == link && (!least || $2 < least) { least = $2 } END { print least }' "$1"; }
for link in ring line; do
    awk -v link="$link" -v frames="$frames" -v proved="$(best "$work/proved" "$link")" -v plain="$(best "$work/plain.times" "$link")" 'BEGIN {
        printf "%s: proved %.1f million frames a second, plain %.1f, ratio %.2f\n", link, frames / proved * 1000, frames / plain * 1000, plain / proved
    }'
done
