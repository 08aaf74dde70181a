#!/usr/bin/env bash
# Compares the splits of random formats with the texts that the C library's printf makes of arguments, row by row.
set -eu
cd "$(dirname "$0")/.."
if ! command -v cc >/dev/null; then
    echo "splits: skipped, there is no cc"
    exit 0
fi
program=$(tools/program.sh rows) || exit 1
folder=$(mktemp -d)
trap 'rm -rf "$folder"' EXIT
cc -std=gnu99 -O1 -w -o "$folder/rows_of_c" checks/split_rows.c
"$folder/rows_of_c" "$folder/rows" "$folder/expected"
"$program" splits <"$folder/rows" >"$folder/answers"
if ! cmp -s "$folder/expected" "$folder/answers"; then
    echo "splits: the first rows that differ (row, expected, answered):"
    paste -d '|' "$folder/rows" "$folder/expected" "$folder/answers" | awk -F '|' '$2 != $3' | head -n 5
    exit 1
fi
echo "splits: $(wc -l <"$folder/rows") rows agree"
