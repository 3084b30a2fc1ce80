#!/bin/sh
# Proves and builds the program NAME, runs it once on no input, and leaves it as target/bin/NAME.
# Usage: tools/program.sh NAME
set -eu
cd "$(dirname "$0")/.."
mkdir -p target/bin
(cd "crates/$1" && rt run </dev/null)
cp "crates/$1/out/$1" "target/bin/$1"
