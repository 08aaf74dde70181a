#!/usr/bin/env bash
# Prints the path of a crate's built program. It is built first where it is missing or older than a source.
#
#     tools/program.sh NAME
set -u
cd "$(dirname "$0")/.." || exit 2
program=$PWD/crates/$1/out/$1
if [ ! -x "$program" ] || [ -n "$(find crates/*/src -newer "$program" -name '*.rt' -print -quit)" ]; then
    words=()
    [ ! -f "crates/$1/args" ] || mapfile -t words <"crates/$1/args"
    if ! (cd "crates/$1" && rt run -- "${words[@]}" <stdin >/dev/null 2>&1); then
        echo "$1: the program can't be built or run" >&2
        exit 1
    fi
fi
echo "$program"
