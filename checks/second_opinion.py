#!/usr/bin/env python3
"""Compares verdicts with those of `cbmc`: `second_opinion.py PROGRAM COUNT [SEED]`.

Random programs of unsigned integers, whose runs have no undefined end, are diagnosed along a log that one of their runs
prints. Of some facts on branches and calls `cbmc` is then asked the same of the C source itself: each print is to be the
log's next line, the run is to end behind its last, and the fact holds on it, or fails. A must fact is one that `cbmc` finds
no such run without, a mustnot one that it finds none with, and of a may fact it finds both."""
import os
import random
import re
import subprocess
import sys
import tempfile

from diagnoses import FACT, PRINTED, Failure, Program, branch_part, closing, world_of

# How many facts of a program are asked for, and for how many seconds at most.
ASKED, PATIENCE = 4, 60
SIZES = dict(PRINTED, **{'unsigned short': '%hu'})
TYPES = {form: kind for kind, form in SIZES.items()}


class Plain(Program):
    """A program of unsigned integers, in which nothing overflows and no loop is long."""
    kinds, whole = ['unsigned', 'unsigned long', 'unsigned char'], 'unsigned'
    few = all = ['+', '-', '&', '|', '^']
    changes_counts = False


class Undecided(Exception):
    pass


# ---- the source as `cbmc` is asked of it

def place_of(source, line, column):
    return sum(len(row) + 1 for row in source.split('\n')[:line - 1]) + column - 1


def noted(source, fact):
    """The source, in which `seen` is set where the fact is met."""
    kind, line, column, side = re.match(r'(\w+) p\.c:(\d+):(\d+) ?(.*)$', fact).groups()
    at = place_of(source, int(line), int(column))
    if kind == 'branch':
        start, end, part = branch_part(source, at, side)
        return source[:start] + part.replace('1 / zero', 'seen = 1') + source[end:]
    start = source.index('(', at) + 1
    end = closing(source, start - 1)
    name, arguments = source[at:start - 1], source[start:end]
    if name == 'printf':
        return f'{source[:at]}{{ seen = 1; {source[at:end + 2]} }}{source[end + 2:]}'
    if not arguments:
        return f'{source[:at]}(seen = 1, {name}()){source[end + 1:]}'
    return f'{source[:start]}(kept = ({arguments}), seen = 1, kept){source[end:]}'


def value_in(form, text):
    """The number that a conversion prints so, or none."""
    if not re.fullmatch(r'[0-9a-f]+' if form == '%lx' else r'[0-9]+', text):
        return None
    number = int(text, 16 if form == '%lx' else 10)
    bits = {'%hhu': 8, '%hu': 16, '%u': 32}.get(form, 64)
    return number if number < 1 << bits and text == (f'{number:x}' if form == '%lx' else str(number)) else None


def table(kind, name, items):
    return f'static const {kind} {name}[] = {{ {", ".join(str(item) for item in items) or 0} }};\n'


def print_of(number, word, form, lines):
    """A function that takes a print of a word and a number for the log's next line."""
    values = [value_in(form, line[len(word) + 1:]) if line.startswith(word + ' ') else None for line in lines]
    kind = TYPES[form]
    return (table('char', f'is_{number}', [int(value is not None) for value in values])
            + table('unsigned long', f'value_{number}', [f'{value or 0}ul' for value in values])
            + f'static void say_{number}({kind} x) {{\n'
            f'  __CPROVER_assume(next < {len(lines)} && is_{number}[next] && x == value_{number}[next]);\n  next++;\n}}\n')


def asked(source, lines, wanted):
    """The program whose assertion fails where a run that prints exactly these lines has or lacks what is wanted."""
    forms, heads = {}, []

    def said(found):
        key = found[1], found[2]
        if key not in forms:
            forms[key] = len(forms)
            heads.append(print_of(forms[key], *key, lines))
        return f'say_{forms[key]}({found[3]});'
    text = re.sub(r'printf\("(\w+) (%\w+)\\n", (.+?)\);', said, source.split('\n', 2)[2])
    text = text.replace('printf("out\\n");', 'say_out();').replace('exit(', 'quit(').replace('int main(void)', 'static int program(void)')
    return ('static int seen;\nstatic unsigned next;\nstatic unsigned long kept;\n'
            f'static void finish(void) {{\n  __CPROVER_assume(next == {len(lines)});\n'
            f'  __CPROVER_assert({wanted}, "fact");\n}}\n'
            'static void quit(int status) {\n  finish();\n  __CPROVER_assume(0);\n}\n'
            + table('char', 'is_out', [int(line == 'out') for line in lines])
            + f'static void say_out(void) {{\n  __CPROVER_assume(next < {len(lines)} && is_out[next]);\n  next++;\n}}\n'
            + ''.join(heads) + text + 'int main(void) {\n  program();\n  finish();\n  return 0;\n}\n')


# ---- both answers

class Trial:
    def __init__(self, program, folder):
        self.program, self.folder = program, folder

    def write(self, name, text):
        with open(os.path.join(self.folder, name), 'wb') as file:
            file.write(text)

    def run(self, *words):
        return subprocess.run(words, cwd=self.folder, stdin=subprocess.DEVNULL, capture_output=True, timeout=PATIENCE)

    def is_so(self, source, lines, wanted):
        """Whether `cbmc` finds no run along the log on which what is wanted fails."""
        self.write('q.c', asked(source, lines, wanted).encode())
        try:
            told = self.run('cbmc', 'q.c', '--unwind', '5').stdout.decode(errors='replace')
        except subprocess.TimeoutExpired:
            raise Undecided
        if 'VERIFICATION SUCCESSFUL' in told:
            return True
        if 'VERIFICATION FAILED' in told:
            return False
        raise Undecided

    def check(self, seed):
        """How many verdicts on a random program are compared."""
        source = Plain(seed, False).text()
        self.write('p.c', source.encode())
        self.write('w.txt', world_of(seed).encode())
        ran = self.run(self.program, 'replay', 'p.c', 'w.txt', '--turns', '4')
        if ran.returncode != 0 or ran.stderr.startswith(b'end left'):
            return 0
        self.write('p.log', ran.stdout)
        report = self.run(self.program, 'diagnose', 'p.c', 'p.log', '--turns', '4').stdout.decode()
        facts = re.findall(FACT % r'(?:branch|call) p\.c:\d+:\d+(?: true| false| case \d+| default)?', report, re.M)
        lines = ran.stdout.decode().split('\n')[:-1]
        return sum(self.compare(source, lines, *fact)
                   for fact in random.Random(seed).sample(facts, min(ASKED, len(facts))))

    def compare(self, source, lines, number, verdict, fact):
        word = verdict.split()[0]
        if word == 'unknown':
            return 0
        text = noted(source, fact)
        try:
            told = (self.is_so(text, lines, 'seen'), self.is_so(text, lines, '!seen'))
        except Undecided:
            return 0
        if told != {'must': (True, False), 'mustnot': (False, True), 'may': (False, False)}[word]:
            raise Failure(f'fact {number} {verdict} {fact}: cbmc answers must {told[0]}, mustnot {told[1]}')
        return 1


def main():
    program, count, seed = os.path.abspath(sys.argv[1]), int(sys.argv[2]), int(sys.argv[3]) if len(sys.argv) > 3 else 1
    compared = failed = 0
    with tempfile.TemporaryDirectory() as folder:
        trial = Trial(program, folder)
        for number in range(seed, seed + count):
            try:
                compared += trial.check(number)
            except Failure as failure:
                failed += 1
                print(f'second opinion: program {number}: {failure}')
    print(f'second opinion: {compared} verdicts on {count} random programs are those of cbmc, {failed} differ')
    sys.exit(1 if failed else 0)


main()
