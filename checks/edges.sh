#!/usr/bin/env bash
# Runs the program over what no contract can speak of: the files and streams of the system. Each case has its status,
# its line on standard error, and nothing on standard output, or the whole report.
#
#     checks/edges.sh [PROGRAM]      without PROGRAM the proved program, or the trial program where that isn't built
set -u
cd "$(dirname "$0")/.." || exit 2
program=$(readlink -f "${1:-$(tools/proved.sh sherlog || tools/trial.sh)}") || exit 1
room=$(mktemp -d) || exit 2
trap 'rm -rf "$room"' EXIT
here=$PWD
cd "$room" || exit 2
cases=0
failed=0

# Who can't read everything needs the program and the folder in reach.
cp "$program" program
chmod 755 . program

printf 'int printf(const char *, ...);\nint main(void) {\nprintf("hi\\n"); return 0;\n}\n' >p.c
printf 'hi\n' >p.log
: >nothing
printf 'sherlog: 2 usage\n' >usage
printf 'sherlog: 3 NoMain\n' >no_main
printf 'sherlog: 4 lines 1001\n' >many_lines
printf 'sherlog: 6 fault\n' >fault
printf 'sherlog: 7 %s\n' long.c >long_source
printf 'sherlog: 7 %s\n' long.log >long_log

# report NAME: the report on that source with the usual log
report() {
    cat <<END
sherlog report 1
bounds turns 8 depth 8 heap 256 outside 64 texts 32 arguments 2 conflicts 20000
log lines 1 bytes 3
execution found
fact 1 must call $1:3:1
fact 2 must print $1:3:1 line 1
fact 3 must return
total must 3 mustnot 0 may 0 unknown 0 values must 0 may 0 unknown 0
world 1
end
END
}
report p.c >found
cat >none <<END
sherlog report 1
bounds turns 8 depth 8 heap 256 outside 64 texts 32 arguments 2 conflicts 20000
log lines 1 bytes 65536
execution none within bounds
end
END

# expect CASE STATUS OUTPUT ERROR COMMAND..: runs the command, and compares its status and what its streams have.
expect() {
    local case=$1 status=$2 output=$3 error=$4 found
    shift 4
    "$@" </dev/null >found.out 2>found.err
    found=$?
    wait
    cases=$((cases + 1))
    if [ "$found" -ne "$status" ] || ! cmp -s "$output" found.out || ! cmp -s "$error" found.err; then
        echo "edges: $case: status $found, output of $(wc -c <found.out) bytes, told: $(head -n 1 found.err)"
        echo "edges: $case: right are status $status, $(wc -c <"$output") bytes, told: $(head -n 1 "$error")"
        failed=1
    fi
}

# Files that can't be read. A folder can be opened, and the read fails; so can the memory of a process.
mkdir folder
expect 'a folder as source' 6 nothing fault ./program diagnose folder p.log
expect 'a folder as log' 6 nothing fault ./program diagnose p.c folder
expect 'a missing source' 6 nothing fault ./program diagnose missing p.log
expect 'a missing log' 6 nothing fault ./program diagnose p.c missing
expect 'a missing folder' 6 nothing fault ./program diagnose missing/p.c p.log
expect 'a file as a folder' 6 nothing fault ./program diagnose p.c p.log/p.log
expect 'an empty source' 3 nothing no_main ./program diagnose nothing p.log
yes '' | head -n 1001 >lines.log
expect 'a log of 1,001 lines' 4 nothing many_lines ./program diagnose p.c lines.log
if [ -r /proc/self/mem ]; then
    expect 'a source whose first read fails' 6 nothing fault ./program diagnose /proc/self/mem p.log
    expect 'a log whose first read fails' 6 nothing fault ./program diagnose p.c /proc/self/mem
fi
cp p.c secret
chmod 000 secret
as_other=()
[ "$(id -u)" -ne 0 ] || as_other=(setpriv --reuid=65534 --regid=65534 --clear-groups)
if "${as_other[@]}" true 2>/dev/null; then
    expect 'a source that may not be read' 6 nothing fault "${as_other[@]}" ./program diagnose secret p.log
    expect 'a log that may not be read' 6 nothing fault "${as_other[@]}" ./program diagnose p.c secret
else
    echo 'edges: skipped, no other user: files that may not be read'
fi

# Files at their limits and one byte beyond.
padded() {
    head -c $(($3 - $(wc -c <"$1"))) /dev/zero | tr '\0' ' ' | cat "$1" - >"$2"
}
padded p.c long.c 8388608
report long.c >found_long
expect 'a source at its limit' 0 found_long nothing ./program diagnose long.c p.log
printf ' ' >>long.c
expect 'a source one byte beyond' 7 nothing long_source ./program diagnose long.c p.log
padded nothing long.log 65536
expect 'a log at its limit' 1 none nothing ./program diagnose p.c long.log
printf ' ' >>long.log
expect 'a log one byte beyond' 7 nothing long_log ./program diagnose p.c long.log

# Pipes that are fed slowly, and files that change once the program runs: it waits at the pipe until the source comes.
mkfifo pipe
report pipe >found_pipe
# Lets go of a feeder whose pipe nobody read.
let_go() {
    while kill -0 "$1" 2>/dev/null; do
        exec 5<>pipe
        exec 5<&-
        sleep 0.1
    done
}
slowly() {
    (
        exec >pipe
        head -c "$2" "$1"
        sleep 0.3
        tail -c "+$(($2 + 1))" "$1"
    ) 2>/dev/null &
    local feeder=$! status
    ./program diagnose "${@:3}"
    status=$?
    let_go "$feeder"
    return "$status"
}
changed() {
    (
        exec 3>pipe
        eval "$1"
        cat p.c >&3
    ) 2>/dev/null &
    local feeder=$! status
    ./program diagnose pipe "$2"
    status=$?
    let_go "$feeder"
    return "$status"
}
expect 'a source that comes slowly' 0 found_pipe nothing slowly p.c 20 pipe p.log
expect 'a log that comes slowly' 0 found nothing slowly p.log 1 p.c pipe
padded nothing long.log 65536
expect 'a log that comes slowly up to its limit' 1 none nothing slowly long.log 65535 p.c pipe
truncate -s 65535 long.log
expect 'a log that grows to its limit' 1 none nothing changed 'printf " " >>long.log' long.log
expect 'a log that grows beyond its limit' 7 nothing long_log changed 'printf " " >>long.log' long.log
expect 'a log that is cut at its limit' 1 none nothing changed 'truncate -s 65536 long.log' long.log
printf ' ' >>long.log
printf 'sherlog: 7 pipe\n' >long_pipe
expect 'a log that comes slowly beyond its limit' 7 nothing long_pipe slowly long.log 65536 p.c pipe

# Outputs that are full, closed, or without a reader.
full_output() { "$@" >/dev/full; }
closed_output() { "$@" >&-; }
closed_input() { "$@" <&-; }
closed_error() { "$@" 2>&-; }
full_error() { "$@" 2>/dev/full; }
closed_streams() { "$@" <&- >&- 2>&-; }
without_reader() {
    exec 3<>pipe 4>pipe
    exec 3<&-
    "$@" >&4
    local status=$?
    exec 4>&-
    return "$status"
}
expect 'a full output' 6 nothing fault full_output ./program diagnose p.c p.log
expect 'a closed output' 6 nothing fault closed_output ./program diagnose p.c p.log
expect 'an output without a reader' 6 nothing fault without_reader ./program diagnose p.c p.log
expect 'a closed input' 0 found nothing closed_input ./program diagnose p.c p.log
expect 'closed standard error' 0 found nothing closed_error ./program diagnose p.c p.log
expect 'closed standard error at a refusal' 2 nothing nothing closed_error ./program help
expect 'closed standard error at a missing file' 6 nothing nothing closed_error ./program diagnose p.c missing
expect 'full standard error at a missing file' 6 nothing nothing full_error ./program diagnose p.c missing
expect 'closed streams' 6 nothing nothing closed_streams ./program diagnose p.c p.log
cmp -s p.log <(printf 'hi\n') || { echo 'edges: a file was written to'; failed=1; }
expect 'a word that is no text' 2 nothing usage ./program diagnose p.c $'\xff'

# Reads that fail in the middle, and reads and writes of one byte each.
if command -v cc >/dev/null && cc -shared -fPIC -O1 -o faulty_io.so "$here/checks/faulty_io.c" -ldl; then
    padded p.c middle.c 10000
    report middle.c >found_middle
    with() { env LD_PRELOAD="$room/faulty_io.so" "$@"; }
    # The source takes four reads, of which the last gives nothing, and the log two.
    for number in 1 2 3 4 5 6; do
        expect "read $number fails" 6 nothing fault with FAIL_READ=$number ./program diagnose middle.c p.log
    done
    expect 'no read fails' 0 found_middle nothing with FAIL_READ=7 ./program diagnose middle.c p.log
    expect 'one byte at a time' 0 found_middle nothing with SHORT_IO=1 ./program diagnose middle.c p.log
    expect 'one byte of a line at a time' 6 nothing fault with SHORT_IO=1 ./program diagnose missing p.log
else
    echo 'edges: skipped, there is no cc: reads that fail in the middle'
fi

[ "$failed" -eq 0 ] && echo "edges: $cases cases agree"
exit "$failed"
