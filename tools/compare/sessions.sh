#!/bin/sh
# Compares both sessions with document 01's plain machine over the unchanged Rust: the oracle makes
# lists of calls with the answers, outputs and extension buffers that the machine gives, and the
# proved program `vectors` replays them. First come all cuts in two of short files and scans, then
# random lists of both sessions and cards: made in pieces, read in pieces, shown dot for dot.
# Usage: tools/compare/sessions.sh [SEED [LISTS]], LISTS of each session and a tenth as many cards,
# by default 1 and 100,000. Ends with 0 only if everything is the same.
set -eu
cd "$(dirname "$0")/../.."
seed=${1:-1}
lists=${2:-100000}
out=target/compare
mkdir -p "$out"
tools/oracle/build.sh
tools/program.sh vectors >"$out/check.log" || { tail -n 3 "$out/check.log"; exit 1; }
: >"$out/sessions.out"

# part SEED LISTS CARDS: so many lists of each session and cards; without any, the cuts.
part() {
    target/oracle/generate "$out/sessions.list" "$out/sessions.counts" "$1" "$2" "$3"
    target/bin/vectors <"$out/sessions.list" >"$out/sessions.part"
    if ! cmp -s "$out/sessions.part" "$out/sessions.counts"; then
        diff "$out/sessions.counts" "$out/sessions.part" | head -n 20
        echo "sessions: seed $1, $2 lists, $3 cards: different, see $out/sessions.list"
        exit 1
    fi
    grep -v '^wrong ' "$out/sessions.part" >>"$out/sessions.out"
    rm "$out/sessions.list"
}

part 0 0 0
done=0
while [ "$done" -lt "$lists" ]; do
    size=$((lists - done))
    [ "$size" -le 10000 ] || size=10000
    part "$((seed * 1000003 + done))" "$size" "$((size / 10))"
    done=$((done + size))
done
awk '{ n = $NF; $NF = ""; if (!($0 in sum)) { names[++count] = $0 } sum[$0] += n }
    END { for (i = 1; i <= count; i++) print "comparisons of " names[i] sum[names[i]] }' \
    "$out/sessions.out"
echo "sessions: seed $seed: $lists lists of each session, $((lists / 10)) cards and all cuts, all the same"
