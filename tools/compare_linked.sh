#!/bin/sh
# compare_linked.sh [OPTIONS]: compares the static archive (tools/build.sh) with the original Rust in one process.
# The options are compare's: [--seed N] [--cases N] [--short BYTES] [--references N] [--tail BYTES] [--kind KIND].
# Exit status 1 if there is a difference that docs/DIFFERENCES.md does not list.
set -eu
cd "$(dirname "$0")/.."
export CARGO_TARGET_DIR="$PWD/target/oracle"
(cd oracle && cargo build --release --offline -q -p linked)
exec target/oracle/release/compare "$@"
