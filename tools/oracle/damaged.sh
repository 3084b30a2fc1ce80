#!/bin/bash
# Shows that the replay of a list with one count too large says so and ends soon: the counts of the sweep of
# `from_byte` and of a list's stages are made larger by four bytes FF in front, each in its own copy.
# Run after `tools/program.sh vectors`; ends with 0 only if every damage is reported within ten seconds.
set -eu
cd "$(dirname "$0")/../.."
program=target/bin/vectors
list=crates/vectors/stdin
copy=$(mktemp)
trap 'rm -f "$copy" "$copy.out"' EXIT

# damage WHAT PATTERN INDEX: makes the number at INDEX of the list's first match of PATTERN larger; the block keeps its length.
damage() {
    local at end told
    at=$(LC_ALL=C grep -obUaP "$2" "$list" | head -n 1 | cut -d : -f 1)
    [ -n "$at" ] || { echo "$1: not in the list"; return 1; }
    at=$((at + $3))
    end=$(((at / 65536 + 1) * 65536))
    {
        head -c "$at" "$list"
        printf '\xFF\xFF\xFF\xFF'
        tail -c +$((at + 1)) "$list" | head -c $((end - 4 - at))
        tail -c +$((end + 1)) "$list"
    } >"$copy"
    timeout 10 "$program" <"$copy" >"$copy.out" || { echo "$1: not at its end after ten seconds"; return 1; }
    told=$(grep '^WRONG' "$copy.out" | grep -vxFf crates/vectors/stdout | head -n 1 || true)
    [ -n "$told" ] || { echo "$1: not reported"; return 1; }
    echo "$1: ${told:0:100}"
}

# Behind the operation's number of from_byte: its only part has one sweep, of 256 cases.
sweep='\x01\x01\x01\x01\x01\x00\x00\x01\x00\x82\x00\x01\x01\x04\x00\x00\x00\x01'
damage "sweeps of a part" "$sweep" 1
damage "parts of a text" "$sweep" 2
damage "repetitions of a part" "$sweep" 3
damage "bytes of a part" "$sweep" 4
damage "digits" "$sweep" 7
damage "letters" "$sweep" 8
damage "cases" "$sweep" 9
damage "cases of an answer" "$sweep" 11
damage "answers accepted" "$sweep" 12
damage "numbers of an answer" "$sweep" 13
# The header 00 00 09 01 of a making, and the number of its stages, whose first has no call.
damage "stages of a list" '\x04\x00\x00\x09\x01\x02\x00\x00\x00\x00' 5
