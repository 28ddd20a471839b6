#!/bin/sh
# fuzz.sh [SECONDS_PER_KIND [KIND..]]: libFuzzer, guided by the original Rust, on messages that the original and the static
# archive (tools/build.sh) both read; compared as compare_linked.sh does. What it finds interesting is kept in
# target/fuzz/corpus. Exit status 1 at the first difference or crash, whose input is left in target/fuzz.
set -eu
seconds=${1:-120}
[ $# -eq 0 ] || shift
kinds=${*:-number standalone path path_path path_extends area_area entry_area entry_entry range3d_range3d}

cd "$(dirname "$0")/.."
runtime=$(ls -v /usr/lib/llvm-*/lib/clang/*/lib/linux/libclang_rt.fuzzer-"$(uname -m)".a 2> /dev/null | tail -n 1)
[ -n "$runtime" ] || { echo "fuzz.sh needs libFuzzer's runtime: in Debian the package libclang-rt-14-dev, or a newer one"; exit 2; }
host=$(rustc -vV | sed -n 's/^host: //p')
coverage="-C passes=sancov-module -C llvm-args=-sanitizer-coverage-level=4 -C llvm-args=-sanitizer-coverage-inline-8bit-counters
    -C llvm-args=-sanitizer-coverage-pc-table -C llvm-args=-sanitizer-coverage-trace-compares"
export CARGO_TARGET_DIR="$PWD/target/fuzz"
# A target is named so that build scripts are left as they are.
(cd oracle && RUSTFLAGS="$coverage -C codegen-units=1 -C link-arg=$runtime -C link-arg=-lstdc++" \
    cargo build --release --offline -q -p fuzz --target "$host")

log=target/fuzz/log
for kind in $kinds; do
    mkdir -p target/fuzz/corpus/$kind
    FUZZ_KIND=$kind target/fuzz/$host/release/fuzz -max_total_time=$seconds -max_len=1024 -use_value_profile=1 -print_final_stats=1 \
        -artifact_prefix=target/fuzz/$kind- target/fuzz/corpus/$kind > $log 2>&1 || { grep -a -A 2 DIFFERENCE $log || tail -n 20 $log; exit 1; }
    executions=$(sed -n 's/^stat::number_of_executed_units: *//p' $log)
    echo "$kind: $executions executions, $(grep -a -o 'cov: [0-9]* ft: [0-9]* corp: [0-9]*' $log | tail -n 1), no difference"
done
