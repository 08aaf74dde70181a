#!/usr/bin/env bash
# Compares what `sherlog replay` says of programs over worlds: rows that were worked out by hand from C99 and
# docs/MEANING.md; and, with what the compiled programs print and how they end, a program for each construct over three
# worlds and random programs, those of csmith too where it is installed.
#
#     checks/replay.sh [PROGRAM]      without PROGRAM the proved program, or the trial program where that isn't built
set -u
cd "$(dirname "$0")/.." || exit 2
compiler=$(command -v gcc || command -v clang)
if [ -z "$compiler" ] || ! command -v python3 >/dev/null; then
    echo "replay: skipped, there is no C compiler or no python3"
    exit 0
fi
if ! program=$(readlink -f "${1:-$(tools/proved.sh sherlog || tools/trial.sh --built)}"); then
    echo "replay: skipped, the program is not built"
    exit 0
fi
failed=0
python3 checks/replay_rows.py "$program" checks/replay_rows.txt || failed=1
python3 checks/constructs.py "$program" "$compiler" || failed=1
folder=$(mktemp -d) || exit 2
trap 'rm -rf "$folder"' EXIT
printf 'sherlog world 1\nend\n' >"$folder/empty.world"

# compared NAME FILE.c TURNS..: whether `replay` over the empty world prints what the compiled program prints, and tells
# its status, with the first of these bounds with which the program isn't too large. Where a loop takes more turns, or
# the program is too large with all of them, nothing is compared; but random programs must be within the bounds.
compared() {
    local name=${2%.c} wanted told turns
    "$compiler" -std=c99 -w -I "$(dirname "$2")" -o "$name.compiled" "$2" || return 2
    "$compiler" -std=c99 -E -U_FORTIFY_SOURCE -I "$(dirname "$2")" "$2" >"$name.i" || return 2
    timeout 20 "$name.compiled" >"$name.wanted"
    wanted=$?
    rm -f "$name.compiled"
    for turns in "${@:3}"; do
        timeout 120 "$program" replay "$name.i" "$folder/empty.world" --turns "$turns" >"$name.got" 2>"$name.end"
        grep -q '^sherlog: 8 measure$' "$name.end" || break
    done
    if grep -q '^end left \|^sherlog: 8 measure$' "$name.end" && [ "$1" != random ]; then
        touch "$name.beyond"
        return
    fi
    told=$(sed -n 's/^end \(return\|exit\) //p' "$name.end")
    if [ -z "$told" ] || [ "$((told & 255))" != "$wanted" ] || ! cmp -s "$name.wanted" "$name.got"; then
        echo "replay: $1 $(basename "$2"): status $wanted, but told: $(head -n 1 "$name.end")"
    else
        touch "$name.agrees"
    fi
}
export -f compared
export compiler program folder

# agree NAME TURNS..: how many of the sources in the folder of this name agree; two at a time.
agree() {
    local count agreed beyond
    find "$folder/$1" -name '*.c' -print0 | sort -z |
        xargs -0 -P 2 -I FILE bash -c 'compared "$1" FILE "${@:2}"' compared "$@"
    count=$(find "$folder/$1" -name '*.c' | wc -l)
    beyond=$(find "$folder/$1" -name '*.beyond' | wc -l)
    agreed=$(find "$folder/$1" -name '*.agrees' | wc -l)
    echo "replay: $agreed of $((count - beyond)) $1 programs agree, $beyond more are beyond the bounds"
    [ "$count" -gt 0 ] && [ "$((agreed + beyond))" -eq "$count" ] || failed=1
}

# Writes the header that csmith's programs include: its functions on integers, as they are installed, and macros that
# print each variable in place of a sum over them.
csmith_header() {
    sed '/^STATIC float/,$d' "$1/safe_math.h" >"$2/integers.h"
    for ((k = $(grep -c '^ *# *if' "$2/integers.h") - $(grep -c '^ *# *endif' "$2/integers.h"); k > 0; k--)); do
        echo '#endif'
    done >>"$2/integers.h"
    cat >"$2/csmith.h" <<'END'
#include <stdint.h>
#include <limits.h>
int printf(const char *, ...);
#define STATIC static
#define UNDEFINED(value) (value)
#define LOG_INDEX
#define LOG_EXEC
#define FUNC_NAME(name) safe_##name
#include "integers.h"
#define platform_main_begin()
#define platform_main_end(value, flag)
#define crc32_gentab()
#define transparent_crc(value, name, flag) printf("%s %ld\n", name, (long)(value))
static uint32_t crc32_context;
END
}

# Programs of csmith, of small size and within the language; where it gives one up, there is none of this number.
csmith_programs() {
    local seed
    for ((seed = 1; seed <= $2; seed++)); do
        csmith --seed "$seed" --output "$1/$seed.c" --no-argc --no-bitfields --no-jumps --no-packed-struct \
            --no-return-structs --no-arg-structs --no-return-unions --no-arg-unions --max-funcs 3 --max-array-dim 2 \
            --max-array-len-per-dim 4 --max-block-depth 2 --max-block-size 3 --max-expr-complexity 4 >/dev/null 2>&1 &&
            grep -q '^int main' "$1/$seed.c" || rm -f "$1/$seed.c"
    done
}

mkdir "$folder/random"
python3 checks/replay_sources.py "$folder/random" 150 7 || exit 1
agree random 8
mkdir "$folder/csmith"
header=$(dirname "$(find /usr/include /usr/local/include -name safe_math.h -path '*csmith*' 2>/dev/null | head -n 1)")
if command -v csmith >/dev/null && [ -f "$header/safe_math.h" ]; then
    csmith_header "$header" "$folder/csmith"
    csmith_programs "$folder/csmith" 75 2>/dev/null
    agree csmith 64 25 10
else
    echo "replay: csmith's programs are skipped, it isn't installed with its header"
fi
exit "$failed"
