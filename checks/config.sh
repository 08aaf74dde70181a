#!/usr/bin/env bash
# Checks what `sherlog` says of command lines and of configurations: rows that were worked out by hand, the commands of
# docs/CONFIGURATION.md, the order of refusals, and random texts beside Python's JSON and a table of the form.
#
#     checks/config.sh [PROGRAM]      without PROGRAM the proved program, or the trial program where that isn't built
#
# The first lines of checks/config_rows.txt say what a row is.
set -u
cd "$(dirname "$0")/.." || exit 2
top=$PWD
if ! program=$(readlink -f "${1:-$(tools/proved.sh sherlog || tools/trial.sh --built)}"); then
    echo "config: skipped, the program is not built"
    exit 0
fi
room=$(mktemp -d) || exit 2
trap 'rm -rf "$room"' EXIT
cd "$room" || exit 2
failed=0
told=$room/told
mkdir "$told"

# repeated TEXT: the text with `<3*ab>` written out, in $text
repeated() {
    local many
    text=$1
    while [[ $text =~ \<([0-9]+)\*([^\>]*)\> ]]; do
        printf -v many '%*s' "${BASH_REMATCH[1]}" ''
        text=${text/"${BASH_REMATCH[0]}"/"${many// /"${BASH_REMATCH[2]}"}"}
    done
}

# answers NAME STATUS PRINTED LINE WORDS..: the program prints and tells this over these words
answers() {
    local name=$1 status=$2 found
    printf '%b' "$3" >"$told/out"
    printf '%b\n' "$4" >"$told/err"
    "$program" "${@:5}" </dev/null >"$told/found.out" 2>"$told/found.err"
    found=$?
    count=$((count + 1))
    if [ "$found" -ne "$status" ] || ! cmp -s "$told/out" "$told/found.out" || ! cmp -s "$told/err" "$told/found.err"; then
        echo "config: $name: status $found, and $status is right; what differs:"
        diff "$told/out" "$told/found.out" | head -n 4
        diff "$told/err" "$told/found.err" | head -n 4
        failed=1
    fi
}

# row NUMBER STATUS PRINTED LINE ROW: a command line, or a configuration of the program that is in turn
row() {
    local name="row $1: ${5:0:80}" status=$2 printed=$3 line=$4
    repeated "$5"
    if [ -z "$of" ]; then
        eval "set -- $text"
    else
        printf '%b' "$text" >row.json
        set -- replay "$of.c" "$of.w" --config row.json
    fi
    answers "$name" "$status" "$printed" "$line" "$@"
}

# rows FILE
rows() {
    local line rest number=0 file='' of='' text printed status values value
    while IFS= read -r line; do
        number=$((number + 1))
        rest=${line#* }
        if [ -n "$file" ]; then
            [ -n "$line" ] && printf '%s\n' "$line" >>"$file" || file=
            continue
        fi
        case $line in
        '' | '#'*) ;;
        'file '*) file=$room/$rest; : >"$file" ;;
        'same '*) cp "$room/${rest#* }" "$room/${rest%% *}" ;;
        'spaces '*) printf '%*s' "${rest#* }" '' >"$room/${rest%% *}" ;;
        words) of= ;;
        'config '*) of=$rest ;;
        'told '*)
            [[ $rest == *' |' ]] && rest+=' '
            row "$number" "${rest%% *}" '' "sherlog: ${rest%% | *}" "${rest#* | }" ;;
        'prints '*)
            rest=${line#prints}
            repeated "${rest%% | *}"
            printed=${text# } rest=${rest#* | }
            row "$number" 0 "$printed" "${rest%% | *}" "${rest#* | }" ;;
        'each '*)
            read -ra values <<<"${rest%% | *}"
            rest=${rest#* | } status=${rest%% | *} rest=${rest#* | }
            for value in "${values[@]}"; do
                row "$number" "${status%% *}" '' "sherlog: ${status//@/"$value"}" "${rest//@/"$value"}"
            done ;;
        *) echo "config: $1:$number: no row has this line"; failed=1 ;;
        esac
    done <"$1"
}

# page FILE: a block behind a line that ends with a file's name is that file; else it is of commands, which begin with `$ `,
# and of what they print.
page() {
    local line name='' block=text
    sherlog() { "$program" "$@"; }
    while IFS= read -r line; do
        case $block:$line in
        text:'```') [ -n "$name" ] && block=file || block=commands ;;
        *:'```') block=text name='' ;;
        text:*'`:') name=${line%'`:'} name=${name##*'`'} ;;
        text:?*) name='' ;;
        file:*) printf '%s\n' "$line" >>"$name" ;;
        commands:'$ '*)
            commands=$((commands + 1))
            printf '%s\n' "$line" | tee -a wanted >>found
            eval "${line#'$ '}" >>found 2>&1 </dev/null ;;
        commands:*) printf '%s\n' "$line" >>wanted ;;
        esac
    done <"$1"
}

count=0
rows "$top/checks/config_rows.txt"
echo "config: $count command lines and configurations were run"

mkdir page && cd page || exit 2
commands=0
page "$top/docs/CONFIGURATION.md"
if [ "$commands" -gt 0 ] && cmp -s wanted found; then
    echo "config: the $commands commands of docs/CONFIGURATION.md print what it says"
else
    echo "config: docs/CONFIGURATION.md, and what its commands print:"
    diff wanted found
    failed=1
fi

if command -v python3 >/dev/null; then
    python3 "$top/checks/configs.py" "$program" 600 1 || failed=1
else
    echo "config: the random configurations are skipped, there is no python3"
fi
exit "$failed"
