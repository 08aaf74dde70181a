#!/usr/bin/env bash
# Checks which sources are refused: rows that were worked out by hand, sources with one broken rule each beside what a C
# compiler refuses, and random programs without a fault, which both take.
#
#     checks/refusals.sh [PROGRAM]      without PROGRAM the proved program, or the trial program where that isn't built
set -u
cd "$(dirname "$0")/.." || exit 2
if ! command -v gcc >/dev/null || ! command -v python3 >/dev/null; then
    echo "refusals: skipped, there is no gcc or no python3"
    exit 0
fi
if ! program=$(readlink -f "${1:-$(tools/proved.sh sherlog || tools/trial.sh --built)}"); then
    echo "refusals: skipped, the program is not built"
    exit 0
fi
failed=0
python3 checks/replay_rows.py "$program" checks/refusal_rows.txt both || failed=1
folder=$(mktemp -d) || exit 2
trap 'rm -rf "$folder"' EXIT

# told NAME: the status of `replay` over the source of this name in the world of nothing, and the line that it tells.
told() {
    local status
    "$program" replay "$1.c" empty >/dev/null 2>"$1.told" </dev/null
    status=$?
    echo "$status $(head -n 1 "$1.told")"
}

# taken NAME: whether the compiler takes the source as C99.
taken() {
    gcc -fsyntax-only -std=c99 -pedantic-errors "$1.c" 2>"$1.errors"
}

# A source that is accepted is run, or too large to be.
is_accepted() {
    [ "${1%% *}" -eq 0 ] || [ "${1%% *}" -eq 8 ]
}

# refused NAME WHO PLACE RULE: whether the source is refused by whom it must be, with this rule in this line.
refused() {
    local said file
    said=$(told "$1")
    file=${3/#F:/$1.c:}
    case $2 in
    cc) is_accepted "$said" ;;
    *) [[ $said == "3 sherlog: 3 $4 $file:"* ]] ;;
    esac || echo "refusals: $1.c ($2 $4): told '$said', and $file is right"
    if taken "$1"; then [ "$2" = sherlog ]; else [ "$2" != sherlog ]; fi ||
        echo "refusals: $1.c ($2 $4): the compiler says $(head -n 1 "$1.errors")"
}
export -f told taken is_accepted refused
export program

mkdir "$folder/faults" "$folder/random"
printf 'sherlog world 1\nend\n' | tee "$folder/faults/empty" >"$folder/random/empty"
python3 checks/refusals.py "$folder/faults" 1 || exit 1
(cd "$folder/faults" && xargs -P 2 -L 1 bash -c 'refused "$1" "$2" "$3" "${*:4}"' refused <faults >differ)
sort -u "$folder/faults/differ"
count=$(wc -l <"$folder/faults/faults")
differ=$(cut -d ' ' -f 2 "$folder/faults/differ" | sort -u | wc -l)
echo "refusals: $((count - differ)) of $count sources with one broken rule agree"
[ "$differ" -eq 0 ] || failed=1

# accepted NUMBER: whether both take this source.
accepted() {
    taken "$1" || echo "refusals: $1.c of replay_sources.py: the compiler says $(head -n 1 "$1.errors")"
    gcc -std=c99 -E -U_FORTIFY_SOURCE -o "$1.i" "$1.c" && mv "$1.i" "$1.c"
    is_accepted "$(told "$1")" || echo "refusals: $1.c of replay_sources.py: $(head -n 1 "$1.told")"
}
export -f accepted
python3 checks/replay_sources.py "$folder/random" 300 23 || exit 1
(cd "$folder/random" && seq 0 299 | xargs -P 2 -n 1 bash -c 'accepted "$1"' accepted >differ)
cat "$folder/random/differ"
differ=$(cut -d ' ' -f 2 "$folder/random/differ" | sort -u | wc -l)
echo "refusals: $((300 - differ)) of 300 random programs are taken by both"
[ "$differ" -eq 0 ] || failed=1
exit "$failed"
