#!/bin/sh
# compare.sh [--model] N SEED [KIND]: compares target/bin/case_lines with the oracle, or with tools/model.py,
# on N generated case lines, of KIND, or spread evenly over the kinds that case_lines answers.
# Exit status 1 if there is a difference that docs/DIFFERENCES.md does not list.
set -eu
theirs=oracle
[ "${1-}" != --model ] || { theirs=model.py; shift; }
[ $# -ge 2 ] || { sed -n '2,4s/^# //p' "$0"; exit 2; }
n=$1
seed=$2
kinds=${3:-number standalone path path_path path_extends area_area entry_area entry_entry range3d_range3d}
chunk=200000

cd "$(dirname "$0")/.."
export CARGO_TARGET_DIR="$PWD/target/oracle"
(cd oracle && cargo build --release --offline -q)
sh tools/build.sh case_lines
bin=target/oracle/release
tmp=target/compare
mkdir -p $tmp
: > $tmp/counts
: > $tmp/differences

answer_theirs() {
    case $theirs in
        oracle) $bin/oracle ;;
        *) python3 tools/$theirs ;;
    esac
}

# Reads the three files side by side, prints counts and appends differences.
compare() {
    awk -v cases=$tmp/cases -v theirs=$tmp/$theirs -v ours=$tmp/case_lines -v name=$theirs -v differences=$tmp/differences '
    # The slash also keeps awk from comparing digits as numbers.
    function is_prefix(p, q) { return p == "-" || index(q "/", p "/") == 1 }
    function next_of(file, answer) { return (getline answer < file) > 0 ? answer : "(no line)" }
    function differ(line, a, b) {
        print line "\n    " substr(name "          ", 1, 10) "  " a "\n    case_lines  " b >> differences
    }
    BEGIN {
        while ((getline line < cases) > 0) {
            a = next_of(theirs)
            b = next_of(ours)
            split(line, f, "\t")
            split(b, o, "\t")
            count[f[1] "\t" f[2] "\t" (o[1] == "no" ? "no " o[2] : o[1])]++
            # The Rust measures an extension without testing that the reference is a prefix.
            listed = f[1] == "path_extends" && f[2] == "n" && !is_prefix(f[3], f[4])
            if (b != (listed ? "no\t3" : a)) differ(line, a, b)
            else if (a != b) count["listed difference\t\t"]++
        }
        if ((b = next_of(ours)) != "(no line)") differ("(no line)", "(no line)", b)
        for (k in count) print k "\t" count[k]
    }' >> $tmp/counts
}

bad=0
set -- $kinds
kinds_left=$#
for kind in $kinds; do
    left=$((n / kinds_left))
    n=$((n - left))
    kinds_left=$((kinds_left - 1))
    chunk_seed=$seed
    while [ $left -gt 0 ]; do
        lines=$((left < chunk ? left : chunk))
        $bin/gen $chunk_seed $lines $kind > $tmp/cases
        answer_theirs < $tmp/cases > $tmp/$theirs
        target/bin/case_lines < $tmp/cases > $tmp/case_lines || { echo "case_lines: exit status $?"; bad=1; }
        compare
        left=$((left - lines))
        chunk_seed=$((chunk_seed + 4294967296))
    done
done

awk -F '\t' '{ sum[$1 FS $2 FS $3] += $4 } END { for (k in sum) print k FS sum[k] }' $tmp/counts | sort
differing=$(grep -c '^    case_lines' $tmp/differences || true)
echo "differences not listed: $differing"
[ "$differing" = 0 ] && exit $bad
head -n 60 $tmp/differences
[ "$differing" -le 20 ] || echo "the rest: $tmp/differences"
exit 1
