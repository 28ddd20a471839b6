#!/bin/sh
# drill.sh [NAME..]: what a new edition costs. Applies each drill of tools/drills, or those named, to a copy of the repository, proves there what rests on
# it, up to the theorems, and prints the table of docs/EDITIONS.md: the lines that are other than before in src, specs and proofs, and the processor time of
# the check. A drill is a text: what it is; `prove: CRATE ..`; then `file:`, `old:` and `new:`, as in a must-fail edit, where \n is a new line. Exit
# status 1 if one is not proved. What the checks say is left in target/drill.
set -eu
cd "$(dirname "$0")/.."
drills=$PWD/tools/drills
logs=$PWD/target/drill
[ $# -gt 0 ] || set -- $(cd "$drills" && ls | sed 's/\.drill$//')

apply() {
    python3 - "$1" <<'PY'
import sys

for line in open(sys.argv[1], encoding="utf8"):
    key, _, text = line.rstrip("\n").partition(": ")
    text = text.replace("\\n", "\n")
    if key == "file":
        path = text
    elif key == "old":
        old = text
    elif key == "new":
        whole = open(path, encoding="utf8").read()
        if whole.count(old) != 1:
            sys.exit(f"{path}: {whole.count(old)} times: {old}")
        open(path, "w", encoding="utf8").write(whole.replace(old, text))
PY
}

# How many lines of the crates' folders of that name are other than before.
lines() {
    for folder in crates/*/"$1"; do
        diff -rN "$work/before/$folder" "$folder" || true
    done | grep -c '^>' || true
}

# Checks the crates named, one after another, each with the libraries beneath it, and says into a file what processor time that took.
check() {
    bash -c 'check() { for crate; do (cd "crates/$crate" && rt check) || return 1; done; }; TIMEFORMAT="%U %S"; time check "$@" >> "$0" 2>&1' "$@" 2> "$work/time"
}

# The copy lies outside: a repository has no sources but its own.
work=$(mktemp -d)
trap 'rm -rf "$work"' EXIT
mkdir -p "$logs" "$work/before"
git ls-files -z crates crates.txt | xargs -0 cp --parents -t "$work/before"
cp -r "$work/before" "$work/after"
cd "$work/after"

bad=0
echo "| drill | src | specs | proofs | proved | seconds |"
echo "|---|---|---|---|---|---|"
for name; do
    drill=$drills/$name.drill
    log=$logs/$name.log
    crates=$(sed -n 's/^prove: //p' "$drill")
    : > "$log"
    # What is proved without the drill is not proved again with it.
    check "$log" $crates || { tail "$log" >&2; exit 1; }
    apply "$drill"
    proved=yes
    check "$log" $crates || { proved=no; bad=1; }
    echo "| $(sed -n 1p "$drill") | $(lines src) | $(lines specs) | $(lines proofs) | $proved | $(awk '{ printf "%d", $1 + $2 }' "$work/time") |"
    for file in $(sed -n 's/^file: //p' "$drill"); do
        cp "$work/before/$file" "$file"
    done
done
exit $bad
