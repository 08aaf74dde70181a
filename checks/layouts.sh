#!/usr/bin/env bash
# Compares sizes, alignments, offsets and the values of constant expressions in random declarations with what `cc`
# makes of the same text; and refuses constant expressions of which a part has no value, as `cc` does where it divides
# by zero.
set -eu
cd "$(dirname "$0")/.."
for tool in cc python3; do
    if ! command -v "$tool" >/dev/null; then
        echo "layouts: skipped, there is no $tool"
        exit 0
    fi
done
program=$(tools/program.sh rows) || exit 1
folder=$(mktemp -d)
trap 'rm -rf "$folder"' EXIT
sources=15
python3 checks/layouts.py "$folder" "$sources"
compared=0
refused=0
for number in $(seq 0 $((sources - 1))); do
    source="$folder/$number"
    cc -std=gnu99 -w -o "$source.run" "$source.cc.c"
    "$source.run" | sort >"$source.want"
    "$program" layouts <"$source.c" | sort >"$source.got"
    if ! diff "$source.want" "$source.got"; then
        echo "layouts: source $number of checks/layouts.py differs from cc"
        exit 1
    fi
    compared=$((compared + $(wc -l <"$source.want")))
    while read -r kind expression; do
        echo "enum { bad = $expression };" >"$source.c"
        if ! "$program" layouts <"$source.c" | grep -q '^fault [0-9]* NotConstant$'; then
            echo "layouts: taken as a constant: $expression"
            exit 1
        fi
        if [ "$kind" = zero ] && cc -std=c99 -pedantic-errors -w -fsyntax-only "$source.c" 2>/dev/null; then
            echo "layouts: cc takes $expression"
            exit 1
        fi
        refused=$((refused + 1))
    done <"$source.bad"
done
echo "layouts: $compared lines agree with cc, $refused expressions without a value are refused"
