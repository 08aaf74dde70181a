#!/usr/bin/env bash
# Prints the path of a crate's proved program, where it is built and no file that it is made of is newer, and builds
# nothing.
#
#     tools/proved.sh NAME
set -u
top=$(cd "$(dirname "$0")/.." && pwd) || exit 2
program=$top/crates/$1/out/$1
[ -x "$program" ] || exit 1
folders=()
for name in $("$top/tools/crates_of.sh" "$1"); do
    for part in src specs proofs; do
        [ -d "$top/crates/$name/$part" ] && folders+=("$top/crates/$name/$part")
    done
done
[ -z "$(find "$top/crates.txt" "${folders[@]}" -newer "$program" -print -quit)" ] || exit 1
echo "$program"
