#!/bin/sh
# run.sh: compiles area.c against the static archive (tools/build.sh), runs it and compares what it prints; then the same with
# a header of another version, which has to be told so.
set -eu
cd "$(dirname "$0")/../.."
mkdir -p target/examples/other
compile() {
    cc -std=c99 -Wall -Wextra -Werror -I"$1" examples/c/area.c target/staticlib/libjakepuro.a -o "$2"
}
compile include target/examples/area
target/examples/area > target/examples/area.out
diff examples/c/area.expected target/examples/area.out
echo "examples/c/area: as expected"

sed 's/^#define JAKEPURO_VERSION .*/#define JAKEPURO_VERSION 0/' include/jakepuro.h > target/examples/other/jakepuro.h
compile target/examples/other target/examples/other/area
if target/examples/other/area > target/examples/other/area.out; then
    echo "a header of another version is not told so"
    exit 1
fi
grep -q '^the archive is of version [1-9][0-9]*, the header of 0$' target/examples/other/area.out
echo "examples/c/area: a header of another version is told so"
