#!/bin/sh
# Builds the oracle and makes the list that crates/vectors replays, and its counts.
set -eu
cd "$(dirname "$0")/../.."
tools/oracle/build.sh
target/oracle/generate crates/vectors/stdin crates/vectors/stdout
wc -c crates/vectors/stdin
tail -n 1 crates/vectors/stdout
