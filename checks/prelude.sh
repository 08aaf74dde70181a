#!/usr/bin/env bash
# Compares the trees of the prelude's functions, as the definitions have them, with those that lexer and parser give for
# the text that stands there: offsets too, each less 2^31.
set -eu
cd "$(dirname "$0")/.."
if ! command -v python3 >/dev/null; then
    echo "prelude: skipped, there is no python3"
    exit 0
fi
program=$(tools/program.sh rows) || exit 1
table=$(mktemp)
trap 'rm -f "$table"' EXIT
python3 checks/prelude.py crates/c_means/specs/Prelude.antt >"$table"
if ! "$program" table placed <"$table" | diff "$table" - >/dev/null; then
    echo "prelude: the first lines that differ (<, definitions; >, answered):"
    "$program" table placed <"$table" | diff "$table" - | head -n 6
    exit 1
fi
echo "prelude: $(grep -c '^>' "$table") functions agree"
