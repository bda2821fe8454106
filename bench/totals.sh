#!/bin/sh
# Compares total over 1,048,576 figures: a plain loop in C at -O3, a flat store and tree stores of several fan-outs.
# One run on this machine, printed as ratios. It is no test: what it prints depends on the machine and its load.
set -e
cd "$(dirname "$0")/.."
(cd crates/bench_totals && rt lib) > /dev/null
out=$(mktemp -d)
trap 'rm -rf "$out"' EXIT
"${CC:-cc}" -O3 -o "$out/totals" bench/totals.c crates/bench_totals/out/libbench_totals.a
"$out/totals"
