#!/usr/bin/env python3
"""Runs the rows of a file by `sherlog replay`: `replay_rows.py PROGRAM ROWS`. The first lines of checks/replay_rows.txt
say what a row is. With a third word, `diagnose` is given each source too: it must refuse the same ones, in the same
words."""
import os
import subprocess
import sys
import tempfile

DECLARED = 'int printf(const char *, ...);\n'


def new_case():
    return {'options': '', 'config': None, 'world': [], 'prints': [], 'line': None}


def rows_of(text):
    """Each row's name and source, with its cases: options, configuration, world, what is printed, and the last line."""
    name, source, case, part = None, [], None, None
    for line in text.split('\n'):
        word, _, rest = line.partition(' ')
        if word == 'note' and part in ('source', 'ends'):
            continue
        if part in (None, 'ends') and word in ('row', 'bare', 'open'):
            name, source, part, case = rest, [] if word == 'bare' else [DECLARED], 'source', new_case()
            is_open = word == 'open'
        elif part in ('source', 'ends', 'world') and line == 'prints' or part in ('source', 'ends') and line == 'world':
            part = line
        elif part in ('source', 'ends') and word in ('options', 'config'):
            case[word] = rest
        elif part == 'prints' and word == 'ends' or part and word == 'told':
            case['line'], case['is_open'] = line, is_open
            yield name, ''.join(source), case
            case, part = new_case(), 'ends'
        elif part == 'source':
            source.append(line + '\n')
        elif part in ('world', 'prints'):
            case[part].append(line)
        elif line and not line.startswith('#'):
            sys.exit(f'{sys.argv[2]}: no row has the line {line!r}')


def place_of(source, mark):
    """The place behind a mark, as LINE:COL."""
    end = source.index(mark) + len(mark)
    return f'{source.count(chr(10), 0, end) + 1}:{end - source.rfind(chr(10), 0, end)}'


def wanted_line(source, line):
    """What is told at the end: `ends` with its place, or `told`."""
    word, _, rest = line.partition(' ')
    for digit in ('', '1', '2', '3', '4'):
        if rest.endswith(' @' + digit):
            rest = rest[:-1 - len(digit)] + 'p.c:' + place_of(source, f'/*@{digit}*/')
    if word == 'told':
        return int(rest.split()[0]), f'sherlog: {rest}\n'
    return 0, f'end {rest}\n'


def run(program, folder, source, case):
    """The status of `replay`, what it wrote and what it told."""
    files = {'p.c': source, 'w.txt': '\n'.join(['sherlog world 1'] + case['world'] + ['end', '']),
             'c.json': case['config'] or '{}'}
    for name, text in files.items():
        with open(os.path.join(folder, name), 'w') as file:
            file.write(text)
    words = ['--config', 'c.json'] if case['config'] else []
    ran = subprocess.run([program, 'replay', 'p.c', 'w.txt'] + words + case['options'].split(), cwd=folder,
                         stdin=subprocess.DEVNULL, capture_output=True, timeout=60)
    return ran.returncode, ran.stdout.decode('latin-1'), ran.stderr.decode('latin-1')


def diagnosed(program, folder, told):
    """What is wrong with what `diagnose` says of the source of a case: it refuses it alike, or reads it."""
    with open(os.path.join(folder, 'log'), 'w'):
        pass
    ran = subprocess.run([program, 'diagnose', 'p.c', 'log'], cwd=folder, stdin=subprocess.DEVNULL, capture_output=True,
                         timeout=60)
    got = ran.stderr.decode('latin-1')
    if told.startswith('sherlog: 3') and (ran.returncode, got) == (3, told) or not told.startswith('sherlog: 3') and (
            ran.returncode in (0, 1, 9) or got in ('sherlog: 3 NotYetRead\n', 'sherlog: 8 measure\n')):
        return None
    return ran.returncode, got


def main():
    program, path = os.path.abspath(sys.argv[1]), sys.argv[2]
    count = failed = still_open = 0
    with tempfile.TemporaryDirectory() as folder:
        for name, source, case in rows_of(open(path).read()):
            status, told = wanted_line(source, case['line'])
            wanted = (status, ''.join((line + '\n').replace('\\\n', '') for line in case['prints']), told)
            got = run(program, folder, source, case)
            if case['is_open'] and got != wanted:
                still_open += 1
                continue
            count += 1
            if case['is_open']:
                failed += 1
                print(f'{path}: {name}: it is answered right now, and is a row')
            elif got != wanted:
                failed += 1
                print(f'{path}: {name}: {got}, and {wanted} is right')
            elif len(sys.argv) > 3 and not case['config'] and (found := diagnosed(program, folder, told)):
                failed += 1
                print(f'{path}: {name}: diagnose says {found}, and {told!r} is right')
    print(f'{path}: {count - failed} of {count} cases agree, {still_open} more are known to differ')
    sys.exit(1 if failed else 0)


main()
