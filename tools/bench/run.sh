#!/bin/sh
# Builds the Rust, libcapi.a and libbench.a, links the program four times, the archives' code 0, 16, 32 and 48 bytes
# behind a multiple of 64, and times the Rust and this codec: all lines, or those whose call starts with the argument.
# WBMP_RUST names the folder of the Rust files (see tools/oracle/build.sh).
set -eu
cd "$(dirname "$0")/../.."
tools/oracle/build.sh
tools/staticlib.sh capi >/dev/null
tools/staticlib.sh bench >/dev/null
asked=$(nm -u target/staticlib/libcapi.a | sed -n 's/^ *U //p' | sort -u | tr '\n' ' ')
echo "libcapi.a, undefined symbols: ${asked:-none}"
out=target/tools
mkdir -p "$out"

# Where a function starts in the code of a program, from a multiple of 64 on.
place_of() {
    start=$(nm "$2" | sed -n "s/ T $1\$//p")
    echo $((0x$start % 64))
}

echo 'SECTIONS { .text : { *(.text.padding) *(.text .text.*) } }' >"$out/padded.ld"
for place in 0 16 32 48; do
    {
        printf '.section .text.padding, "ax"\n.balign 64\n.skip 64 + %s, 0x90\n' "$place"
        printf '.section .note.GNU-stack, ""\n'
    } | as -o "$out/padding.o" -
    ld -r -T "$out/padded.ld" -o "$out/padded.o" "$out/padding.o" \
        --whole-archive target/staticlib/libcapi.a target/staticlib/libbench.a
    rustc --edition 2024 -O -D warnings --crate-name bench --extern oracle=target/oracle/liboracle.rlib \
        -C link-arg="$out/padded.o" tools/bench/main.rs -o "$out/bench-$place"
done
for name in wbmp_read bench_dither; do
    places=$(for place in 0 16 32 48; do place_of "$name" "$out/bench-$place"; done)
    if [ "$(echo "$places" | sort -u | wc -l)" != 4 ]; then
        echo "$name does not stand at four places: $places" >&2
        exit 1
    fi
done
"$out/bench-0" "$@"
