#!/bin/sh
# Builds the static library of the crate NAME, which the crate NAME_c exports under C names: target/staticlib/libNAME.a.
# Usage: tools/staticlib.sh NAME..
set -eu
cd "$(dirname "$0")/.."
mkdir -p target/staticlib
for name in "$@"; do
    (cd "crates/${name}_c" && rt lib)
    cp "crates/${name}_c/out/lib${name}_c.a" "target/staticlib/lib$name.a"
done
