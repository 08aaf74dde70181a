#!/usr/bin/env bash
# Builds the proved program of a crate, `sherlog` where none is named, if it is missing or older than what it is
# made of. Every crate below it is proved first: from nothing that takes about an hour on four processors.
#
#     tools/build.sh [NAME]
set -u
top=$(cd "$(dirname "$0")/.." && pwd) || exit 2
name=${1:-sherlog}
"$top/tools/proved.sh" "$name" && exit 0
program=$top/crates/$name/out/$name
log=$program.log
mkdir -p "$(dirname "$program")" && cd "$top/crates/$name" || exit 1
echo "$name: building the program, which proves its crates first" >&2
rm -f "$program"
rt run </dev/null >"$log" 2>&1
if [ ! -x "$program" ]; then
    cat "$log" >&2
    echo "$name: the program could not be built" >&2
    exit 1
fi
echo "$program"
