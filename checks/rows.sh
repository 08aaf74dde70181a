#!/usr/bin/env bash
# Compares words and printf texts with C's own arithmetic and the C library's printf, row by row.
set -eu
cd "$(dirname "$0")/.."
if ! command -v cc >/dev/null; then
    echo "rows: skipped, there is no cc"
    exit 0
fi
program=$(tools/program.sh rows) || exit 1
folder=$(mktemp -d)
trap 'rm -rf "$folder"' EXIT
for table in words printf; do
    word=$table
    [ "$table" = words ] || word=texts
    cc -std=gnu99 -O1 -w -fwrapv -o "$folder/$table" "checks/${table}_rows.c"
    "$folder/$table" "$folder/rows" "$folder/expected"
    "$program" "$word" <"$folder/rows" >"$folder/answers"
    if ! cmp -s "$folder/expected" "$folder/answers"; then
        echo "rows: $table: the first rows that differ (row, expected, answered):"
        paste -d '|' "$folder/rows" "$folder/expected" "$folder/answers" | awk -F '|' '$2 != $3' | head -n 5
        exit 1
    fi
    echo "rows: $table: $(wc -l <"$folder/rows") rows agree"
done
