"""Runs one program for each construct of the language over three worlds, by `sherlog replay` and as compiled.

    constructs.py PROGRAM COMPILER

The programs are those of construct_rows.txt. A world gives the objects a, b and c, which the source declares and
doesn't define, their bytes; the compiled program has them set before it begins. A line is printed for each row that
differs, and the exit status is then 1.
"""

import os
import subprocess
import sys
import tempfile

HEAD = 'int printf(const char *, ...); extern int a, b, c;\n'
WORLDS = [(3, 5, 2), (-7, 2, 1), (100, 9, 6)]
# printf has place 1, so a, b and c have 2, 3 and 4: an object begins at its place times 2^32.
BEGINS = [place << 32 for place in (2, 3, 4)]
INPUTS = '''#include <stdlib.h>
int a, b, c;
__attribute__((constructor)) static void set(void) { a = atoi(getenv("A")); b = atoi(getenv("B")); c = atoi(getenv("C")); }
'''


def rows():
    """The names of the rows, and their programs."""
    with open(os.path.join(os.path.dirname(os.path.abspath(__file__)), 'construct_rows.txt')) as file:
        lines = [line for line in file.read().split('\n') if not line.startswith('#')]
    for row in '\n'.join(lines).split('row ')[1:]:
        name, text = row.split('\n', 1)
        text, _, words = text.partition('== words\n')
        text, _, behind = text.partition('== behind\n')
        before, found, body = text.partition('==\n')
        if not found:
            before, body = '', text
        yield name, f'{HEAD}{before}int main(void) {{\n{body}return 0; }}\n{behind}', words.split('\n')[:-1]


def world_of(values, words):
    """The text of the world in which a, b and c have these values, with these lines on words."""
    lines = ['sherlog world 1'] + words
    for begin, value in zip(BEGINS, values):
        lines += [f'b {begin + i} {byte}' for i, byte in enumerate(value.to_bytes(4, 'little', signed=True)) if byte]
    return '\n'.join(lines + ['end', ''])


def compiled(folder, values):
    """The status of the compiled program, and what it prints."""
    there = dict(zip('ABC', map(str, values)))
    ran = subprocess.run([f'{folder}/compiled'], env=there, capture_output=True, timeout=20)
    return ran.returncode, ran.stdout


def replayed(program, folder, values, words):
    """The same of `replay`; how the run ended, where that is no return."""
    with open(f'{folder}/world', 'w') as file:
        file.write(world_of(values, words))
    ran = subprocess.run([program, 'replay', 'p.c', 'world', '--turns', '64'], cwd=folder, capture_output=True,
                         timeout=60)
    told = ran.stderr.decode('latin-1').strip()
    for how in ('end return ', 'end exit '):
        if told.startswith(how):
            return int(told[len(how):]) & 255, ran.stdout
    return told, ran.stdout


def main():
    program, compiler = os.path.abspath(sys.argv[1]), sys.argv[2]
    count = agreed = 0
    with tempfile.TemporaryDirectory() as folder:
        with open(f'{folder}/inputs.c', 'w') as file:
            file.write(INPUTS)
        for name, source, words in rows():
            with open(f'{folder}/p.c', 'w') as file:
                file.write(source)
            subprocess.run([compiler, '-std=gnu99', '-w', '-O0', '-fwrapv', '-fno-builtin', '-o', f'{folder}/compiled',
                            f'{folder}/p.c', f'{folder}/inputs.c'], check=True)
            for values in WORLDS:
                count += 1
                wanted, got = compiled(folder, values), replayed(program, folder, values, words)
                agreed += wanted == got
                if wanted != got:
                    print(f'constructs: {name} with {values}: {got}, and the compiled program {wanted}')
    print(f'constructs: {agreed} of {count} runs agree')
    sys.exit(0 if count and agreed == count else 1)


main()
