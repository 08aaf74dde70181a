#!/usr/bin/env bash
# Prints the path of the trial program of `sherlog`: the same source, compiled by `rt try` in some three minutes,
# without proof and with checks of its memory at run time. It is built where it is missing or older than a source.
#
#     tools/trial.sh [--built]      with --built nothing is built: the script fails where no current program is there
set -u
top=$(cd "$(dirname "$0")/.." && pwd) || exit 2
program=$top/out/trial/sherlog

is_current() {
    local name folders=()
    [ -x "$program" ] || return 1
    for name in $("$top/tools/crates_of.sh" sherlog); do
        [ -d "$top/crates/$name/src" ] && folders+=("$top/crates/$name/src")
    done
    [ -z "$(find "$top/crates.txt" "${folders[@]}" -newer "$program" -print -quit)" ]
}

# `rt try` runs what it compiled in a folder that it removes. So the program is given a pipe as its source, at which it
# waits until its file is copied; what it then says of an empty source is of no use.
build() {
    local try copy
    mkfifo "$room/source" || exit 1
    touch "$room/begun"
    cd "$top/crates/sherlog" || exit 1
    TMPDIR=$room rt try -- diagnose "$room/source" "$room/source" </dev/null >"$room/log" 2>&1 &
    try=$!
    (
        exec 3>"$room/source"
        find "$room" -type f -name program -perm -u+x -exec cp {} "$room/copied" \;
    ) &
    copy=$!
    wait "$try"
    kill "$copy" 2>/dev/null
    wait "$copy"
    if [ ! -x "$room/copied" ]; then
        cat "$room/log" >&2
        echo "sherlog: the trial program could not be built" >&2
        exit 1
    fi
    chmod 755 "$room/copied"
    # A source that was edited meanwhile is newer.
    touch -r "$room/begun" "$room/copied"
    mv "$room/copied" "$program"
}

if ! is_current; then
    [ "${1:-}" != --built ] || exit 1
    mkdir -p "$top/out/trial" && room=$(mktemp -d "$top/out/trial/build.XXXXXX") || exit 1
    trap 'kill $(jobs -p) 2>/dev/null; rm -rf "$room"' EXIT
    build
fi
echo "$program"
