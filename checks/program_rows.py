#!/usr/bin/env python3
"""Compares what `rows` answers of programs with rows that were worked out by hand.

    program_rows.py PROGRAM ROWS      the head of checks/program_rows.txt says what a row is
"""
import subprocess
import sys

PRELUDE = "int printf(const char *, ...);\nint ext(void);\nint main(void) {\n%s\n}\n"


def rows_of(path):
    """The rows of a file, each as its lines."""
    rows, row = [], []
    for line in [*open(path, encoding="utf-8").read().split("\n"), ""]:
        if line.startswith("#"):
            continue
        if line:
            row.append(line)
        elif row:
            rows.append(row)
            row = []
    return rows


def unescaped(text):
    return text.replace("\\\\", "\0").replace("\\n", "\n").replace("\0", "\\")


def repeated(text):
    """A log, `LOG` or `LOG*TIMES`."""
    once, star, times = text.rpartition("*")
    return once * int(times) if star and times.isdigit() else text


def each(line):
    """The lines that `.. FIRST..LAST` at a line's end stands for."""
    head, _, last = line.rpartition(" ")
    first, dots, end = last.partition("..")
    if not (dots and first.isdigit() and end.isdigit()):
        return [line]
    return [f"{head} {number}" for number in range(int(first), int(end) + 1)]


def parsed(row):
    """The words, the source, the log and the answer of a row."""
    said = {"log": ""}
    answer = []
    for line in row:
        name, colon, rest = line.partition(": ")
        if colon and name in ("ask", "source", "body", "log") and not answer:
            said[name] = rest
        else:
            answer += each(line)
    source = PRELUDE % said["body"] if "body" in said else unescaped(said["source"])
    return said["ask"].split(), source, repeated(unescaped(said["log"])), answer


def placed(line, source):
    """A line of an answer with LINE:COLUMN in the place of a token's offset."""
    words = line.split(" ")
    places = {"branch": [1], "call": [1], "print": [1], "undefined": [2], "watched": [2]}
    for place in places.get(words[0], [1, *range(3, len(words))] if words[0] == "site" else []):
        if place < len(words):
            before = source[: int(words[place])]
            words[place] = f"{before.count(chr(10)) + 1}:{len(before) - before.rfind(chr(10))}"
    return " ".join(words)


def is_answered(program, row):
    words, source, log, expected = parsed(row)
    told = subprocess.run([program, *words], input=f"{source}\0{log}".encode(), capture_output=True)
    answer = told.stdout.decode().splitlines()
    if words[0] != "ends":
        answer = [placed(line, source) for line in answer]
    if answer == expected:
        return True
    print(f"programs: {row[:3]}: {told.stderr.decode().strip()}")
    print("  expected:", *expected, sep="\n    ")
    print("  answered:", *answer, sep="\n    ")
    return False


def main():
    program, path = sys.argv[1:]
    rows = rows_of(path)
    failed = [row for row in rows if not is_answered(program, row)]
    if not failed:
        print(f"programs: {len(rows)} rows agree")
    return 1 if failed else 0


if __name__ == "__main__":
    sys.exit(main())
