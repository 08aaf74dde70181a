#!/usr/bin/env python3
"""Brings the table of crates in docs/MEASURES.md up to date: the lines of src, specs and proofs, and how many must-fail
edits there are, those that the gate tries and those that are tried by hand. A crate that crates.txt has and the table
doesn't gets a row at the end; what `rt plant` said stays.

    tools/crate_table.py
"""

import glob
import os
import re

TABLE = 'docs/MEASURES.md'
# The first words behind the table.
BEHIND = '\n\n**The checker**'


def lines(crate, part, ending):
    """How many lines the files of a part of the crate have."""
    count = 0
    for folder, _, names in os.walk(f'crates/{crate}/{part}'):
        for name in names:
            if name.endswith(ending):
                with open(f'{folder}/{name}') as file:
                    count += sum(1 for _ in file)
    return count


def row(crate, planted=' '):
    sizes = ' / '.join(str(lines(crate, part, ending)) for part, ending in
                       (('src', '.rt'), ('specs', '.antt'), ('proofs', '.antt')))
    tried, kept = (len(glob.glob(f'crates/{crate}/{folder}/*.edit')) for folder in ('must-fail', 'edits'))
    edits = f'{tried} + {kept}' if kept else tried or ''
    return f'| `{crate}` | {sizes} |{planted}| {edits} |'


def main():
    os.chdir(os.path.dirname(os.path.dirname(os.path.abspath(__file__))))
    with open(TABLE) as file:
        table, behind, rest = file.read().partition(BEHIND)
    with open('crates.txt') as file:
        crates = re.findall(r'^(\w+)[^:#\n]*:', file.read(), re.MULTILINE)
    made, out = set(), []
    for line in table.split('\n'):
        found = re.match(r'\| `(\w+)` \|', line)
        if not found:
            out.append(line)
        elif found[1] in crates and found[1] not in made:
            made.add(found[1])
            out.append(row(found[1], line.split('|')[3]))
    out += [row(crate) for crate in crates if crate not in made]
    with open(TABLE, 'w') as file:
        file.write('\n'.join(out) + behind + rest)


main()
