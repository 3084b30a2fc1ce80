#!/bin/sh
# Builds the oracle into target/oracle/ with plain rustc: the unchanged Rust files as a
# library with our own lib.rs around them, and the generator over it.
# WBMP_RUST names the folder of the Rust files. They are copied below target/, which is never committed: a formatter that
# follows lib.rs to its modules would alter them through a link.
set -eu
cd "$(dirname "$0")/../.."
rust=${WBMP_RUST:-../shared/docs/src/src}
if [ ! -f "$rust/mbi.rs" ]; then
    echo "$rust does not hold the Rust: set WBMP_RUST to the folder of oxideav-wbmp's mbi.rs and the other files" >&2
    exit 1
fi
rust=$(cd "$rust" && pwd)
out=target/oracle
mkdir -p "$out"
rm -rf "$out/rust"
mkdir "$out/rust"
cp "$rust"/*.rs "$out/rust/"
rustc --edition 2024 -O --crate-type rlib --crate-name oracle \
    tools/oracle/src/lib.rs -o "$out/liboracle.rlib"
rustc --edition 2024 -O --crate-name generate \
    --extern oracle="$out/liboracle.rlib" tools/oracle/src/main.rs -o "$out/generate"
