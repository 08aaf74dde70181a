#!/usr/bin/env bash
# Runs `rt` and prints a table in Markdown of the processor time that it took for each crate: its own proof, that of its
# tests, its must-fail edits (with the check that they begin with or end with), the first edit, which may be tried from
# nothing, and the slowest of the others. What `rt` says goes to standard error, the table to standard output, and the
# status is rt's.
#
#     tools/gate_times.sh                 the whole gate from nothing
#     tools/gate_times.sh ci NAME..       some crates and those below them, where the kit's rt takes names
#     tools/gate_times.sh must-fail NAME  the edits of a crate alone
#
# The `rt ci` of some kits takes what earlier runs proved, unless it is given `--anew`; that of others always proves all
# from nothing, and takes no such word. `rt help` tells which: the word is given where it stands there.
#
# The prover's processes are read from /proc four times a second, so a process's last quarter of a second may be missed.
# The sum is exact: it is what the system counted for rt and all that it ran.
set -u
cd "$(dirname "$0")/.." || exit 2
word=${1:-ci}
shift
anew=()
if rt help 2>&1 | grep -q -e '--anew'; then
    anew=(--anew)
fi
set -- "$word" ${anew[@]+"${anew[@]}"} "$@"
exec python3 - "$@" <<'PYTHON'
import glob
import os
import resource
import subprocess
import sys
import time

TICK = os.sysconf("SC_CLK_TCK")
KINDS = ("proof", "tests", "edits")


def processes():
    """The live processes: parent, time of the start, and seconds of processor with those of ended children."""
    found = {}
    for name in os.listdir("/proc"):
        if name.isdigit():
            try:
                with open(f"/proc/{name}/stat") as it:
                    fields = it.read().rpartition(")")[2].split()
            except OSError:
                continue
            found[int(name)] = int(fields[1]), fields[19], sum(map(int, fields[11:15])) / TICK
    return found


def prover(pid):
    """The crate, the kind and the folder of a prover's process; nothing of any other."""
    try:
        with open(f"/proc/{pid}/cmdline") as it:
            words = it.read().split("\0")
        folder = os.readlink(f"/proc/{pid}/cwd")
    except OSError:
        return None
    if os.path.basename(words[0]) != "rattle" or "--crate-name" not in words:
        return None
    is_edit = os.path.basename(folder).startswith("rt-edit-")
    kind = "edits" if is_edit else "tests" if "--test" in words else "proof"
    return words[words.index("--crate-name") + 1], kind, folder


def edit_in(crate, folder):
    """The name of the edit that was made to a copy of the crate."""
    for path in glob.glob(f"crates/{crate}/must-fail/*.edit"):
        file = old = new = None
        with open(path) as it:
            for line in it.read().split("\n"):
                word, _, text = line.partition(": ")
                file = text if word == "file" else file
                old = text if word == "old" else old
                new = text if word == "new" else new
        try:
            with open(f"{folder}/{file}") as it:
                edited = it.read()
        except (OSError, TypeError):
            continue
        if new in edited and (old not in edited or old in new):
            return os.path.basename(path).removesuffix(".edit")
    return "(unchanged)"


def sample(rt, runs):
    """Adds to `runs` what the provers below the process `rt` have taken so far."""
    live = processes()

    def root(pid):
        """The topmost prover above a process, or nothing where it isn't below rt."""
        top = None
        while pid in live and pid != rt:
            top = pid if prover(pid) else top
            pid = live[pid][0]
        return top if pid == rt else None

    taken = {}
    for pid, (_, _, seconds) in live.items():
        top = root(pid) if prover(pid) else None
        if top:
            taken[top] = taken.get(top, 0) + seconds
    for top, seconds in taken.items():
        key = top, live[top][1]
        if key not in runs and (what := prover(top)):
            crate, kind, folder = what
            runs[key] = [crate, kind, edit_in(crate, folder) if kind == "edits" else "", 0]
        if key in runs:
            runs[key][3] = max(runs[key][3], seconds)


def named(edit, seconds):
    return f"`{edit}` {seconds:.0f} s"


def table(runs, total):
    """Prints the table; the runs come in the order in which they were first seen, which is that of their starts."""
    crates, edits, first = {}, {}, {}
    for crate, kind, edit, seconds in runs.values():
        row = crates.setdefault(crate, dict.fromkeys(KINDS, 0))
        row[kind] += seconds
        if kind != "edits":
            continue
        if crate not in first:
            first[crate] = edit, seconds
        elif edit != "(unchanged)":
            edits[crate, edit] = edits.get((crate, edit), 0) + seconds
    print("| Crate | Proof | Tests | Edits | First edit | Slowest other |\n|---|---|---|---|---|---|")
    minutes = lambda seconds: f"{seconds / 60:.1f}"
    for crate, row in sorted(crates.items(), key=lambda it: -sum(it[1].values())):
        begun = named(*first[crate]) if crate in first else ""
        slowest = max(((s, e) for (c, e), s in edits.items() if c == crate), default=None)
        slow = named(slowest[1], slowest[0]) if slowest else ""
        print(f"| `{crate}` | {' | '.join(minutes(row[it]) for it in KINDS)} | {begun} | {slow} |")
    sums = [sum(row[it] for row in crates.values()) for it in KINDS]
    print(f"| All, in minutes of processor | {' | '.join(map(minutes, sums))} | | |")
    rest = minutes(total - sum(sums))
    print(f"\nSum: {minutes(total)} minutes, {rest} of them for the rest (`rt` itself, linking, running).")
    slow = sorted(((s, c, e) for (c, e), s in edits.items() if s > 30), reverse=True)
    print("\nEdits past 30 s:", ", ".join(f"{c}/{e} {s:.0f} s" for s, c, e in slow) or "none")


began = resource.getrusage(resource.RUSAGE_CHILDREN)
rt = subprocess.Popen(["rt", *sys.argv[1:]], stdout=2, stdin=subprocess.DEVNULL)
runs = {}
while rt.poll() is None:
    sample(rt.pid, runs)
    time.sleep(0.25)
ended = resource.getrusage(resource.RUSAGE_CHILDREN)
table(runs, ended.ru_utime + ended.ru_stime - began.ru_utime - began.ru_stime)
sys.exit(rt.returncode)
PYTHON
