#!/usr/bin/env bash
# Compares tables of ends, facts and log calls of programs with rows that were worked out by hand.
#
#     checks/programs.sh [PROGRAM]
set -u
cd "$(dirname "$0")/.." || exit 2
if ! command -v python3 >/dev/null; then
    echo "programs: skipped, there is no python3"
    exit 0
fi
program=${1:-$(tools/program.sh rows)} || exit 1
exec python3 checks/program_rows.py "$program" checks/program_rows.txt
