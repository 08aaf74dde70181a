#!/usr/bin/env bash
# Runs the commands of examples/README.md, and compares what they print and then tell with what stands below them.
#
#     checks/examples.sh [PROGRAM]      without PROGRAM the proved program, or the trial program where that isn't built
set -u
cd "$(dirname "$0")/.." || exit 2
if ! program=$(readlink -f "${1:-$(tools/proved.sh sherlog || tools/trial.sh --built)}"); then
    echo "examples: skipped, the program is not built"
    exit 0
fi
cd examples || exit 2
failed=0
count=0
wanted=''
words=''

# Runs the command that was read, and compares.
run_command() {
    local found
    [ -n "$words" ] || return
    # The words have no quotes.
    # shellcheck disable=SC2086
    found=$("$program" $words 2>&1 </dev/null)
    count=$((count + 1))
    if [ "$found" != "${wanted%$'\n'}" ]; then
        printf 'examples: %s:\n%s\n' "$words" "$(diff <(printf '%s' "$wanted") <(echo "$found"))"
        failed=1
    fi
    words=''
    wanted=''
}

while IFS= read -r line; do
    case $line in
    '    $ sherlog '*) run_command; words=${line#*sherlog } ;;
    '    '*) wanted+=${line#    }$'\n' ;;
    *) run_command ;;
    esac
done <README.md
run_command
[ "$failed" -eq 0 ] && echo "examples: $count commands agree"
exit "$failed"
