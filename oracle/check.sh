#!/bin/sh
# check.sh [FIRST_SEED LAST_SEED COUNT]: builds, runs the cases in cases/, then compares the oracle with
# its model and with tools/model.py on generated cases of every kind.
cd "$(dirname "$0")" || exit 1
export CARGO_TARGET_DIR="$PWD/../target/oracle"
cargo build --release --offline -q || exit 1
bin=$CARGO_TARGET_DIR/release
tmp=$CARGO_TARGET_DIR/check
mkdir -p "$tmp"
bad=0
for c in examples edge; do
    "$bin/oracle" < cases/$c.cases | cmp - cases/$c.expected || bad=1
done
for seed in $(seq "${1:-1}" "${2:-2}"); do
    "$bin/gen" "$seed" "${3:-300000}" > "$tmp/cases"
    "$bin/oracle" --check < "$tmp/cases" > "$tmp/rust" 2> "$tmp/err"
    panics=$(grep -c '^panic' "$tmp/rust")
    ourfault=$(grep -c 'ourfault' "$tmp/rust")
    reports=$(grep -vc '^writing panics, length does not: path_extends' "$tmp/err")
    echo "seed $seed: reader panics $panics, ourfault $ourfault, reports $reports"
    [ "$panics$ourfault$reports" = 000 ] || bad=1
    for model in "$bin/model" ../tools/model.py; do
        "$model" < "$tmp/cases" | paste "$tmp/cases" - > "$tmp/model"
        paste "$tmp/cases" "$tmp/rust" | diff - "$tmp/model" | grep '^>' > "$tmp/differences"
        # The length of an extension whose reference is no prefix: docs/DIFFERENCES.md.
        differ=$(grep -vc '^> path_extends	n	.*	no	3$' "$tmp/differences")
        listed=$(grep -c '^> path_extends	n	.*	no	3$' "$tmp/differences")
        echo "seed $seed: $(wc -l < "$tmp/model") lines, ${model##*/}: differences $differ, listed $listed"
        [ "$differ" = 0 ] || bad=1
    done
done
exit $bad
