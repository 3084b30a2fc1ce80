#!/bin/sh
# Builds the Rust and libcapi.a and compares them on millions of inputs.
# Usage: tools/compare/capi.sh [SEED]. Ends with 0 only if there is no difference.
# WBMP_RUST names the folder of the Rust files (see tools/oracle/build.sh).
set -eu
cd "$(dirname "$0")/../.."
tools/oracle/build.sh
tools/staticlib.sh capi >/dev/null
mkdir -p target/tools
rustc --edition 2024 -O -D warnings --crate-name compare_capi \
    --extern oracle=target/oracle/liboracle.rlib -L native=target/staticlib -l static=capi \
    tools/compare/capi/main.rs -o target/tools/compare_capi
target/tools/compare_capi "$@"
