#!/bin/sh
# build.sh [jakepuro] [case_lines] [area_listing]: proves and builds the static library and the two programs, or those named, and leaves them as
# target/staticlib/libjakepuro.a, target/bin/case_lines and target/bin/area_listing. What a check has proved and nobody changed is not proved again.
# What rt prints goes to target/build.log.
set -eu
cd "$(dirname "$0")/.."
[ $# -gt 0 ] || set -- jakepuro case_lines area_listing
mkdir -p target/staticlib target/bin
log=$PWD/target/build.log
: > "$log"
for name; do
    case $name in
        jakepuro) to=staticlib/libjakepuro.a make=lib ;;
        *) to=bin/$name make=run ;;
    esac
    (cd "crates/$name" && rt $make < /dev/null) >> "$log" 2>&1 || { tail "$log"; exit 1; }
    cp "crates/$name/out/${to#*/}" "target/$to"
done
