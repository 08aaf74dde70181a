#!/usr/bin/env bash
# Asks the solver instances made here. The program examines each answer's evidence itself: an assignment by
# `satisfies`, a refutation or a trail by `check`. The verdict is compared with what is known beforehand and, where
# they are installed, with minisat's and cadical's. At the end stand the times, reading and examining included. Small
# instances, those that take less than 200 ms, are asked again where the least open variable is decided in place of the
# most marked one.
set -u
cd "$(dirname "$0")/.." || exit 2
if ! command -v cc >/dev/null; then
    echo "solver: skipped, there is no cc"
    exit 0
fi
program=$(tools/program.sh rows) || exit 1
others=()
for tool in minisat cadical; do
    if command -v "$tool" >/dev/null; then
        others+=("$tool")
    else
        echo "solver: $tool is not installed, so its verdicts are not compared"
    fi
done
folder=$(mktemp -d)
trap 'rm -rf "$folder"' EXIT
cc -std=gnu99 -O1 -w -o "$folder/instances" checks/solver_instances.c || exit 1
"$folder/instances" "$folder" "$folder/list" || exit 1

# The instance with one question's assumptions as unit clauses, in $folder/question.cnf.
write_question() {
    awk -v line="$2" 'NR == 1 { v = $3; n = $4; next }
        NR <= n + 1 { clause[NR] = $0 }
        NR == n + 1 + line { for (i = 1; i < NF; i++) unit[++units] = $i " 0" }
        END { print "p cnf", v, n + units
              for (i = 2; i <= n + 1; i++) print clause[i]
              for (i = 1; i <= units; i++) print unit[i] }' "$1" >"$folder/question.cnf"
}

# The time of day in microseconds.
now() {
    echo "${EPOCHREALTIME/[.,]/}"
}

verdict_of() {
    case $1 in
    minisat) minisat -verb=0 "$folder/question.cnf" >/dev/null 2>&1 ;;
    cadical) cadical -q "$folder/question.cnf" >/dev/null 2>&1 ;;
    esac
    case $? in
    10) echo sat ;;
    20) echo unsat ;;
    *) echo "?" ;;
    esac
}

# Whether the verdicts of an instance in $folder/answers are the same where the least open variable is decided.
agrees_with_least() {
    timeout 300 "$program" solve_least 200000 <"$1" >"$folder/least" 2>"$folder/error" || return 1
    awk 'NR == FNR { verdict[FNR] = $1; count = FNR; next }
        $1 != verdict[FNR] && $1 != "spent" { differs = 1 }
        END { exit differs || FNR != count }' "$folder/answers" "$folder/least"
}

failed=0
asked=0
again=0
ours=0
declare -A theirs
while read -r name known; do
    file=$folder/$name.cnf
    start=$(now)
    if ! timeout 300 "$program" solve 200000 <"$file" >"$folder/answers" 2>"$folder/error"; then
        echo "solver: $name: no answer, or evidence that does not hold: $(head -n 1 "$folder/error")"
        failed=1
        continue
    fi
    took=$(($(now) - start))
    ours=$((ours + took))
    [ "$took" -lt 1000000 ] || echo "solver: $name: $((took / 1000)) ms"
    if [ "$took" -lt 200000 ]; then
        again=$((again + 1))
        if ! agrees_with_least "$file"; then
            echo "solver: $name: another answer where the least open variable is decided: $(head -n 1 "$folder/error")"
            failed=1
        fi
    fi
    question=0
    while read -r answer _; do
        question=$((question + 1))
        asked=$((asked + 1))
        if [ "$known" != "?" ] && [ "$answer" != "$known" ]; then
            echo "solver: $name: question $question: $answer, and known is $known"
            failed=1
        fi
        for tool in "${others[@]}"; do
            write_question "$file" "$question"
            start=$(now)
            verdict=$(verdict_of "$tool")
            theirs[$tool]=$((${theirs[$tool]:-0} + $(now) - start))
            if [ "$answer" != "$verdict" ]; then
                echo "solver: $name: question $question: $answer, and $tool says $verdict"
                failed=1
            fi
        done
    done <"$folder/answers"
    if [ "$question" -eq 0 ]; then
        echo "solver: $name: no answer"
        failed=1
    fi
done <"$folder/list"
for tool in "${others[@]}"; do
    echo "solver: $((ours / 1000)) ms; $tool: $((${theirs[$tool]:-0} / 1000)) ms"
done
[ "$failed" -eq 0 ] && echo "solver: $asked answers of $(wc -l <"$folder/list") instances hold, $again of them by either chooser"
exit "$failed"
