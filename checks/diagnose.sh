#!/usr/bin/env bash
# Diagnoses random programs of integers along logs that one of their own runs prints, and replays the worlds of the
# reports (checks/diagnoses.py); then such programs with arrays and pointers. Where `cbmc` is installed, it is asked for
# verdicts of its own on some programs (checks/second_opinion.py).
#
#     checks/diagnose.sh [PROGRAM [COUNT [SEED]]]      without PROGRAM the proved program, or the trial program where that
#                                                      isn't built, which takes some 4 s a program; where no COUNT is
#                                                      given, 300 programs, 40 by the trial program, and a third as many
#                                                      with arrays
set -u
cd "$(dirname "$0")/.." || exit 2
if ! command -v python3 >/dev/null; then
    echo "diagnose: skipped, there is no python3"
    exit 0
fi
count=300
program=${1:-$(tools/proved.sh sherlog)}
if [ -z "$program" ]; then
    count=40
    program=$(tools/trial.sh --built)
fi
if ! program=$(readlink -f "$program"); then
    echo "diagnose: skipped, the program is not built"
    exit 0
fi
count=${2:-$count}
failed=0
python3 checks/diagnoses.py "$program" "$count" "${3:-1}" || failed=1
python3 checks/diagnoses.py "$program" "$((count / 3))" "${3:-1}" arrays || failed=1
if command -v cbmc >/dev/null; then
    python3 checks/second_opinion.py "$program" "$((count / 15))" "${3:-1}" || failed=1
else
    echo "diagnose: cbmc is not installed, so no verdict is compared with its own"
fi
exit "$failed"
