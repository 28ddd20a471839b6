#!/bin/sh
# bench.sh: how long the static archive (tools/build.sh) and the original Rust take on the same inputs, as a table in
# markdown. Short is paths of 2 components of a few bytes, limit of 20 components and 600 bytes; numbers have no size.
set -eu
cd "$(dirname "$0")/.."
export CARGO_TARGET_DIR="$PWD/target/oracle"
(cd oracle && cargo build --release --offline -q -p linked)
exec target/oracle/release/bench
