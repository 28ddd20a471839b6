#!/bin/sh
# test_library.sh: builds the static archive and tests it from outside: the Rust bindings, the C example, and a comparison with
# the original Rust in one process (some 50 million cases). Ends at the first failure.
set -eu
cd "$(dirname "$0")/.."
# The original is compiled while the archive is made: that takes one processor.
(cd oracle && CARGO_TARGET_DIR=../target/oracle cargo build --release --offline -q -p oracle) &
original=$!
sh tools/build.sh jakepuro
wait $original
(cd bindings/rust && cargo test --offline -q)
sh examples/c/run.sh
sh tools/compare_linked.sh --cases 100000 --short 2
# Longer messages by their first bytes.
sh tools/compare_linked.sh --cases 0 --short 2 --tail 80
