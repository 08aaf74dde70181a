#!/usr/bin/env bash
# The standard headers of the machine's C library, preprocessed by each compiler that is installed, as they are and as
# a release build has them, and the sources of examples/ are accepted: each is run in the world of nothing, which only a
# source that breaks no rule is. So nothing that a header declares and a program doesn't need is a reason
# to refuse it. A last line says how long the source of all headers takes, beside the compiler's own checks. Skipped
# where there is no C compiler.
set -u
cd "$(dirname "$0")/.." || exit 2
if ! command -v cc > /dev/null; then
    echo "headers: skipped, there is no cc"
    exit 0
fi
if ! program=$(tools/proved.sh sherlog || tools/trial.sh --built); then
    echo "headers: skipped, the program is not built"
    exit 0
fi
folder=$(mktemp -d)
trap 'rm -rf "$folder"' EXIT
headers="assert.h ctype.h errno.h fenv.h float.h inttypes.h iso646.h limits.h locale.h setjmp.h signal.h
stdarg.h stdbool.h stddef.h stdint.h stdio.h stdlib.h string.h time.h wchar.h wctype.h math.h complex.h tgmath.h
dirent.h fcntl.h netinet/in.h poll.h pthread.h sched.h semaphore.h sys/mman.h sys/select.h sys/socket.h sys/stat.h
sys/time.h sys/types.h sys/wait.h termios.h unistd.h"
printf 'sherlog world 1\nend\n' > "$folder/world"
failed=0
accepted=0

# Whether a source is accepted: it is run, or too large to be.
accepts() {
    local said status
    said=$("$program" replay "$1" "$folder/world" 2>&1 > /dev/null)
    status=$?
    if [ "$status" -ne 0 ] && [ "$status" -ne 8 ]; then
        echo "headers: $2: status $status: $said"
        return 1
    fi
}

# Preprocesses a source of these headers by a compiler with its flags, and has it read.
preprocessed() {
    local name=$1
    shift
    "$@" -E -I "$folder" -o "$folder/one.i" "$folder/one.c" 2> /dev/null || return 0
    if accepts "$folder/one.i" "$name ($*)"; then accepted=$((accepted + 1)); else failed=1; fi
}

# Each header by itself, four that most sources have together, and all that the compiler has; but clang's tgmath.h has
# functions whose only parameter is `...`, which C99 does not derive.
headers_by() {
    local header
    : > "$folder/all.h"
    for header in $headers; do
        [ "$1 $header" != 'clang tgmath.h' ] || continue
        printf '#include <%s>\nint main(void) { return 0; }\n' "$header" > "$folder/one.c"
        "$@" -E -o /dev/null "$folder/one.c" 2> /dev/null || continue
        printf '#include <%s>\n' "$header" >> "$folder/all.h"
        preprocessed "$header" "$@"
    done
    printf '#include <%s>\n' stdio.h stdlib.h math.h wchar.h > "$folder/one.c"
    echo 'int main(void) { return 0; }' >> "$folder/one.c"
    preprocessed 'four headers' "$@"
    printf '#include "all.h"\nint main(void) { return 0; }\n' > "$folder/one.c"
    preprocessed 'all headers' "$@"
    [ "$*" != cc ] || cp "$folder/one.i" "$folder/all.i"
}

for compiler in cc clang; do
    if ! command -v "$compiler" > /dev/null; then
        echo "headers: skipped, there is no $compiler"
        continue
    fi
    headers_by "$compiler"
    headers_by "$compiler" -O2 -D_FORTIFY_SOURCE=2
done
for source in examples/*.c; do
    if accepts "$source" "$source"; then accepted=$((accepted + 1)); else failed=1; fi
done

# How many milliseconds a command takes, at least: the best of three times.
milliseconds() {
    local from least='' took
    for _ in 1 2 3; do
        from=$(date +%s%N)
        "$@" > /dev/null 2>&1
        took=$((($(date +%s%N) - from) / 1000000))
        [ -n "$least" ] && [ "$least" -le "$took" ] || least=$took
    done
    echo "$least"
}

echo "headers: $accepted sources accepted; all headers of cc, $(wc -l < "$folder/all.i") lines:" \
    "$(milliseconds "$program" replay "$folder/all.i" "$folder/world") ms, and cc -fsyntax-only" \
    "$(milliseconds cc -fsyntax-only "$folder/all.i") ms"
exit "$failed"
