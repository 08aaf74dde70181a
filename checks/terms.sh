#!/usr/bin/env bash
# Asks what terms are worth, by their clauses and the solver, and compares that with Python's integers (terms.py); then
# the clauses of adders and multipliers with those of the circuits of solver_instances.c, which are made by hand.
#
#     checks/terms.sh [PROGRAM [SHARE]]      one row in SHARE is asked, all where none is given: a trial program takes
#                                            long for these
set -u
cd "$(dirname "$0")/.." || exit 2
if ! command -v cc >/dev/null || ! command -v python3 >/dev/null; then
    echo "terms: skipped, there is no cc or no python3"
    exit 0
fi
program=${1:-$(tools/program.sh rows)} || exit 1
folder=$(mktemp -d)
trap 'rm -rf "$folder"' EXIT
failed=0
python3 checks/terms.py "$program" "${2:-1}" || failed=1

# The circuits by hand, of which each has its number of clauses in the head of its file.
cc -std=gnu99 -O1 -w -o "$folder/instances" checks/solver_instances.c || exit 1
"$folder/instances" "$folder" "$folder/list" || exit 1
python3 checks/terms.py sizes >"$folder/circuits"
cut -d ' ' -f 2- "$folder/circuits" | "$program" sizes >"$folder/sizes" || exit 1
# One clause more says that the circuits differ.
while read -r name clauses; do
    known=$(awk 'NR == 1 { print $4 }' "$folder/$name.cnf")
    echo "terms: $name: $((clauses + 1)) clauses, by hand $known"
    [ "$((clauses + 1))" -le "$known" ] || failed=1
done < <(paste -d ' ' <(cut -d ' ' -f 1 "$folder/circuits") <(cut -d ' ' -f 1 "$folder/sizes"))
exit "$failed"
