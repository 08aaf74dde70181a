#!/usr/bin/env bash
# Compares the syntax trees of the examples and of random sources with those of pycparser, and tries the greatest height.
set -eu
cd "$(dirname "$0")/.."
if ! python3 -c 'import pycparser' 2>/dev/null; then
    echo "trees: skipped, there is no pycparser"
    exit 0
fi
program=$(tools/program.sh rows) || exit 1
folder=$(mktemp -d)
trap 'rm -rf "$folder"' EXIT
python3 checks/tree_sources.py "$folder" 300
python3 checks/trees.py "$program" examples/*.c "$folder"/*.c

# A source of one function whose body is N blocks in one another.
blocks() {
    printf 'void f(void) '
    printf '{%.0s' $(seq "$1")
    printf '}%.0s' $(seq "$1")
}

# A declaration whose initializer is a name in N pairs of parentheses.
parentheses() {
    printf 'int v = '
    printf '(%.0s' $(seq "$1")
    printf a
    printf ')%.0s' $(seq "$1")
    printf ';'
}

# expect WORD ARGUMENT..: the answer to what the arguments print holds the word.
expect() {
    local word=$1
    shift
    if ! "$@" | "$program" tree | grep -qF "$word"; then
        echo "trees: $* isn't answered by $word"
        exit 1
    fi
}
expect '(block (block))' blocks 256
expect '(unread)' blocks 257
expect '(parenthesized (identifier a))' parentheses 254
expect 'fault ' parentheses 255
echo "trees: $(ls examples/*.c "$folder"/*.c | wc -l) sources agree"
