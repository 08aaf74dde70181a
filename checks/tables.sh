#!/usr/bin/env bash
# Compares the answers to the tables of checks/rows with those that stand in them. A folder's name says what its rows
# are. In a table the lines of a row begin with `>`, and its answer follows: `crates/text_rows/src/tables.rt` says more.
# The answers are not the programs' own: they were worked out by hand.
set -u
cd "$(dirname "$0")/.." || exit 2
program=$(tools/program.sh rows) || exit 1

# Prints the answer to a source, where there is one.
answer_source() {
    [ -z "$2" ] || printf '%s' "$2" | "$program" "$1"
}

# Prints a table with its answers as they are now, where each row is a source.
answer_sources() {
    local line source=
    while IFS= read -r line; do
        case $line in
        '>'*)
            printf '%s\n' "$line"
            line=${line#>}
            source+=${line# }$'\n'
            ;;
        *)
            answer_source "$1" "$source"
            source=
            case $line in '' | '#'*) printf '%s\n' "$line" ;; esac
            ;;
        esac
    done
    answer_source "$1" "$source"
}

# Prints the table in a file with its answers as they are now.
answer_table() {
    local word
    word=$(basename "$(dirname "$1")")
    case $word in
    types | layouts) answer_sources "$word" <"$1" ;;
    *) "$program" table "$word" <"$1" ;;
    esac
}

failed=0
rows=0
for table in checks/rows/*/*.txt; do
    if ! answer_table "$table" | diff "$table" - >/dev/null; then
        echo "tables: $table: the first lines that differ (<, expected; >, answered):"
        answer_table "$table" | diff "$table" - | head -n 6
        failed=1
    fi
    rows=$((rows + $(grep -B 1 '^>' "$table" | grep -vc '^>\|^--')))
done
[ "$failed" -eq 0 ] && echo "tables: $rows rows agree"
exit "$failed"
