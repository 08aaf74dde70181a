#!/usr/bin/env bash
# Makes each allocation of one `diagnose` fail in turn, in a run of its own. Each run must end with status 12,
# nothing on standard output and the whole line on standard error, or as a run without a failure does.
# Usage: tools/fail_each_allocation.sh SOURCE LOG
set -u
top=$(cd "$(dirname "$0")/.." && pwd) || exit 2
work=$(mktemp -d) || exit 2
trap 'rm -rf "$work"' EXIT
program=$("$top/tools/build.sh") || exit 2
cc -shared -fPIC -O1 -o "$work/fail.so" "$top/tools/fail_allocation.c" -ldl || exit 2

"$program" diagnose "$1" "$2" >"$work/usual.out" 2>"$work/usual.err"
usual=$?
printf 'sherlog: 12 memory\n' >"$work/memory.err"

number=0
refused=0
while :; do
    number=$((number + 1))
    rm -f "$work/mark"
    LD_PRELOAD=$work/fail.so FAIL_ALLOCATION=$number FAIL_MARK=$work/mark \
        "$program" diagnose "$1" "$2" >"$work/out" 2>"$work/err"
    status=$?
    [ -e "$work/mark" ] || break
    if [ "$status" -eq 12 ] && [ ! -s "$work/out" ] && cmp -s "$work/err" "$work/memory.err"; then
        refused=$((refused + 1))
    elif [ "$status" -ne "$usual" ] || ! cmp -s "$work/out" "$work/usual.out" ||
        ! cmp -s "$work/err" "$work/usual.err"; then
        echo "$1 $2: allocation $number fails: status $status"
        exit 1
    fi
done
echo "$1 $2: usual status $usual; of $((number - 1)) allocations, $refused ended with status 12 where they failed"
