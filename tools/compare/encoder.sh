#!/bin/sh
# Compares whole writing and making with the unchanged Rust on random cases: the oracle makes a
# list of them with the Rust's answers, and the proved program `vectors` replays it, each case with
# an output exactly long enough, longer and too short, or none and some where it is refused.
# Usage: tools/compare/encoder.sh [SEED [CASES]], CASES of each kind, by default 1 and 100,000.
# Ends with 0 only if every answer and every byte is the same.
set -eu
cd "$(dirname "$0")/../.."
seed=${1:-1}
cases=${2:-100000}
out=target/compare
mkdir -p "$out"
tools/oracle/build.sh
tools/program.sh vectors >"$out/check.log" || { tail -n 3 "$out/check.log"; exit 1; }
target/oracle/generate "$out/encoder.list" "$out/encoder.counts" "$seed" "$cases"
target/bin/vectors <"$out/encoder.list" >"$out/encoder.out"
if ! cmp -s "$out/encoder.out" "$out/encoder.counts"; then
    diff "$out/encoder.counts" "$out/encoder.out" | head -n 20
    echo "encoder: seed $seed: different, see $out/encoder.list"
    exit 1
fi
rm "$out/encoder.list"
sed -n "/^wrong /!s/^/comparisons of /p" "$out/encoder.out"
echo "encoder: seed $seed: $cases cases of each kind, all the same"
