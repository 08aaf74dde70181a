#!/usr/bin/env python3
"""Writes a source with 200 log calls of three formats, and a log of 65,535 bytes in 1,000 lines, of which a quarter each
is spelled by one of the formats and a quarter by none: what `match` and the facts along a log are measured on.

    tools/many_sites.py FOLDER      writes FOLDER/sites.c and FOLDER/sites.log
"""
import sys

FORMATS = [
    ('"%s: %s\\n", text(), text()', "worker{0}: request {0} done"),
    ('"[%s] %s: %d (%s)\\n", text(), text(), ext(), text()', "[queue] job {0}: {0} (retry {0})"),
    ('"conn %d from %s port %d\\n", ext(), text(), ext()', "conn {0} from host{0} port {0}"),
    (None, "no site prints line {0} of this log"),
]
SITES, LINES, BYTES = 200, 1000, 65535


def source():
    calls = [it for it, _ in FORMATS if it]
    text = "int printf(const char *, ...);\nint ext(void);\nchar *text(void);\nint main(void) {\n"
    for site in range(SITES):
        text += f"  if (ext()) printf({calls[site % len(calls)]});\n"
    return text + "  return 0;\n}\n"


def log():
    # Each line is filled with letters in front of its last byte's newline, so that the whole has BYTES bytes.
    lines = []
    for number in range(LINES):
        size = (BYTES * (number + 1)) // LINES - (BYTES * number) // LINES - 1
        line = FORMATS[number % len(FORMATS)][1].format(number)
        if line.startswith("["):
            line = line[:-1].ljust(size - 1, "x") + ")"
        elif line.startswith("conn"):
            head, port = line.split(" port ")
            line = head.ljust(size - len(port) - 6, "x") + " port " + port
        lines.append(line.ljust(size, "x"))
    return "\n".join(lines) + "\n"


def main():
    folder = sys.argv[1]
    with open(f"{folder}/sites.c", "w", encoding="ascii") as it:
        it.write(source())
    with open(f"{folder}/sites.log", "w", encoding="ascii") as it:
        it.write(log())


main()
