#!/usr/bin/env python3
"""Diagnoses random programs of integers along logs that one of their own runs prints: `diagnoses.py PROGRAM COUNT [SEED
[arrays]]`, with `arrays` programs of arrays and pointers too.

Each program has loops, calls, a `switch`, answers from outside and operators that may be undefined. A random world is
replayed, and what it prints is the log. The diagnosis must find a run. Each world that it lists is replayed in turn, and
must print exactly the log. What holds on these runs and on that of the random world must agree with the verdicts: no must
fails and no mustnot holds, and a may fact holds in its first world and not in its second. The facts of a run's end
(`return`, `undefined KIND` and where) are read off the end; sides of branches and calls are asked of a run that ends
there."""
import os
import random
import re
import subprocess
import sys
import tempfile

KINDS = ['int', 'unsigned', 'short', 'unsigned char', 'signed char', 'long', 'unsigned long']
PRINTED = {'int': '%d', 'unsigned': '%u', 'short': '%hd', 'unsigned char': '%hhu', 'signed char': '%hhd', 'long': '%ld',
           'unsigned long': '%lx'}
WORDS = [1, 2, 3, 5, 7, 128, 255, 65535, 2147483647, 2147483648, 4294967295, 4294967294, 18446744073709551615]


class Program:
    kinds, whole = KINDS, 'int'
    few, all = ['+', '-', '&', '^'], ['+', '-', '*', '&', '|', '^', '/', '%', '<<', '>>']
    changes_counts = True

    def __init__(self, seed, has_arrays):
        self.random = random.Random(seed)
        self.has_arrays = has_arrays
        self.names, self.lines, self.count, self.depth, self.is_main = [], [], 0, 0, False

    def pick(self, items):
        return self.random.choice(items)

    def value(self, height):
        kind = self.random.randrange(10) if height else self.random.randrange(4)
        if kind < 2 and self.names:
            return self.pick(self.names)[1]
        if kind == 2:
            return self.pick(['ext()', 'ask()'])
        if kind < 4:
            return str(self.pick([0, 1, 2, 3, 7, 100, 255]))
        left, right = self.value(height - 1), self.value(height - 1)
        if kind == 4:
            return f'({self.condition(height - 1)} ? {left} : {right})'
        if kind == 6 and self.is_main:
            return f'helper({left})'
        return f'({left} {self.pick(self.all if kind == 5 else self.few)} {right})'

    def condition(self, height):
        test = f"{self.value(height)} {self.pick(['<', '==', '!=', '>='])} {self.value(height)}"
        if height and self.random.random() < 0.3:
            return f"({test} {self.pick(['&&', '||'])} {self.value(0)})"
        return f'({test})'

    def put(self, text):
        self.lines.append('  ' * self.depth + text)

    def declare(self):
        kind = self.pick(self.kinds)
        self.count += 1
        name = f'v{self.count}'
        self.put(f'{kind} {name} = {self.value(1)};')
        self.names.append((kind, name))

    def declare_array(self):
        kind, size = self.pick(self.kinds), self.random.randrange(2, 5)
        self.count += 1
        name = f'a{self.count}'
        self.put(f'{kind} {name}[{size}] = {{ {self.value(0)}, {self.value(0)} }};')
        places = [f'{name}[{self.random.randrange(size)}]', f'*({name} + {size - 1})', f'{name}[{self.pick(["ask", "ext"])}() & 3]']
        self.names += [(kind, place) for place in places]

    def declare_pointer(self):
        kind, place = self.pick(self.names)
        self.count += 1
        self.put(f'{kind} *p{self.count} = &{place};')
        self.names.append((kind, f'*p{self.count}'))

    def print(self):
        kind, name = self.pick(self.names) if self.names else ('int', '1')
        self.put(f'printf("{self.pick(["at", "got", "is"])} {PRINTED[kind]}\\n", {name});')

    def block(self, height):
        names = list(self.names)
        self.depth += 1
        for _ in range(self.random.randrange(1, 4)):
            self.statement(height)
        self.depth -= 1
        self.names = names

    def statement(self, height):
        kind = self.random.randrange(12)
        if not self.names:
            self.declare()
        elif kind < 3:
            if self.has_arrays and self.random.random() < 0.5:
                self.pick([self.declare_array, self.declare_pointer])()
            else:
                self.declare()
        elif kind < 6:
            self.print()
        elif kind == 6:
            self.put(f"{self.pick(self.names)[1]} {self.pick(['=', '+=', '^=', '-='])} {self.value(2)};")
        elif kind == 7:
            then = self.pick(['return 3;', 'return 0;', 'printf("out\\n");', f'exit({self.value(1)});'])
            self.put(f'if ({self.condition(1)}) {then}')
        elif height == 0:
            self.print()
        elif kind < 10:
            self.put(f'if ({self.condition(1)}) {{')
            self.block(height - 1)
            if self.random.random() < 0.5:
                self.put('} else {')
                self.block(height - 1)
            self.put('}')
        elif kind == 10:
            self.count += 1
            name = f'v{self.count}'
            self.put(f'{self.whole} {name};')
            self.put(f'for ({name} = 0; {name} < {self.random.randrange(1, 4)}; {name}++) {{')
            if self.changes_counts:
                self.names.append((self.whole, name))
            self.block(height - 1)
            self.put('}')
        else:
            self.put(f'switch ({self.pick(self.names)[1]}) {{')
            for case in ('case 0', 'case 1', 'default'):
                self.put(f'{case}: {{')
                self.block(height - 1)
                self.put(self.pick(['} break;', '}']))
            self.put('}')

    def function(self, head, statements):
        self.names = [] if self.is_main else [(self.whole, 'n')]
        self.put(head + ' {')
        self.depth = 1
        for _ in range(statements):
            self.statement(2)
        self.put(f'return {self.value(1)};')
        self.depth = 0
        self.put('}')

    def text(self):
        self.put('int printf(const char *, ...);')
        self.put('void exit(int);')
        self.put(f'{self.whole} ext(void);')
        self.put('unsigned char ask(void);')
        self.function(f'static {self.whole} helper({self.whole} n)', 2)
        self.is_main = True
        self.function('int main(void)', 5)
        return '\n'.join(self.lines) + '\n'


def world_of(seed):
    chooser = random.Random(seed)
    lines = [f'w {place} {chooser.choice(WORDS)}' for place in range(1, 400) if chooser.random() < 0.6]
    return 'sherlog world 1\n' + ''.join(line + '\n' for line in lines) + 'end\n'


class Failure(Exception):
    pass


# How many sides and calls of a program are asked for.
ASKED = 3


def closing(text, at):
    """Where the group closes that opens there."""
    depth = 0
    for index in range(at, len(text)):
        depth += {'(': 1, ')': -1}.get(text[index], 0)
        if depth == 0:
            return index
    raise ValueError(text[at:])


def opening(text, at):
    """Where the innermost group opens in which this place stands."""
    depth = 0
    for index in range(at - 1, -1, -1):
        depth += {'(': -1, ')': 1}.get(text[index], 0)
        if depth < 0:
            return index
    raise ValueError(text[:at])


def ended_at(side, test):
    """A test behind which the run ends where it takes the side."""
    return f'(({test}) ? (1 / zero, 1) : 0)' if side == 'true' else f'(({test}) ? 1 : (1 / zero, 0))'


def branch_part(text, at, side):
    """What is put in the place of which part of the text, so that the run ends where the branch takes the side."""
    if text.startswith('switch', at):
        start = text.index('(', at) + 1
        end = closing(text, start - 1)
        name = text[start:end]
        met = ' && '.join(f'{name} != {value}' for value in (0, 1)) if side == 'default' else f'{name} == {side.split()[1]}'
        return start, end, f'{met} ? (1 / zero, {name}) : {name}'
    if text.startswith('if', at):
        start = text.index('(', at) + 1
        end = closing(text, start - 1)
    elif text.startswith('for', at):
        start = text.index(';', at) + 1
        end = text.index(';', start)
    elif text.startswith('?', at):
        end = text.rindex(')', 0, at)
        start = opening(text, end) + 1
    else:
        start, end = opening(text, at) + 1, at
    return start, end, ended_at(side, text[start:end].strip())


def call_part(text, at):
    """The same for a call behind its arguments."""
    start = text.index('(', at) + 1
    end = closing(text, start - 1)
    name, arguments = text[at:start - 1], text[start:end]
    if not arguments:
        return at, end + 1, f'(1 / zero, {name}())'
    if name == 'printf' and ',' not in arguments:
        return at, end + 2, f'{{ 1 / zero; {text[at:end + 2]} }}'
    last = arguments.rindex(',') + 1 if name == 'printf' else 0
    return start + last, end, f'(({arguments[last:].strip()}), 1 / zero)'


def probed(source, fact):
    """The source, whose run ends at a zero divisor where the fact is met, with the line of that end."""
    kind, line, column, side = re.match(r'(\w+) p\.c:(\d+):(\d+) ?(.*)$', fact).groups()
    at = sum(len(row) + 1 for row in source.split('\n')[:int(line) - 1]) + int(column) - 1
    start, end, part = branch_part(source, at, side) if kind == 'branch' else call_part(source, at)
    text = source[:start] + part + source[end:]
    divisor = start + part.index('1 / zero') + 2
    place = f'{text.count(chr(10), 0, divisor) + 1}:{divisor - text.rfind(chr(10), 0, divisor)}'
    return text.replace('\n', ' static int zero;\n', 1), f'end undefined divisor p.c:{place}\n'


def moved(world):
    """A world for a source with one more object of the file, whose places stand one higher."""
    return re.sub(r'^w (\d+)', lambda word: f'w {int(word[1]) + 1}', world, flags=re.M)


FACT = r'^fact (\d+) (must|mustnot|may \d+ \d+|unknown \w+) (%s)$'


def worlds_of(report):
    """The worlds of a report, each as a file for `replay`."""
    worlds = re.split(r'^world \d+\n', report.split('\nend\n')[0], flags=re.M)[1:]
    return ['sherlog world 1\n' + world.rstrip('\n') + ('\n' if world.strip() else '') + 'end\n' for world in worlds]


def agree(number, verdict, text, said, first):
    """Compares a verdict with whether the fact holds on the runs of the worlds that are listed, and of the random one."""
    word = verdict.split()
    if word[0] == 'must' and not all([first, *said]):
        raise Failure(f'fact {number}: must {text}, and a run lacks it')
    if word[0] == 'mustnot' and any([first, *said]):
        raise Failure(f'fact {number}: mustnot {text}, and a run has it')
    if word[0] == 'may' and not (said[int(word[1]) - 1] and not said[int(word[2]) - 1]):
        raise Failure(f'fact {number}: {verdict} {text}')


class Trial:
    def __init__(self, program, folder, has_arrays):
        self.program, self.folder, self.has_arrays = program, folder, has_arrays

    def write(self, name, text):
        with open(os.path.join(self.folder, name), 'wb') as file:
            file.write(text)

    def run(self, *words):
        return subprocess.run([self.program, *words], cwd=self.folder, stdin=subprocess.DEVNULL, capture_output=True,
                              timeout=300)

    def replay(self, world):
        self.write('w.txt', world.encode())
        ran = self.run('replay', 'p.c', 'w.txt', '--turns', '4')
        if ran.returncode == 8:
            return None
        if ran.returncode != 0:
            raise Failure(f'replay ends with {ran.returncode}: {ran.stderr}')
        return ran.stdout, ran.stderr.decode()

    def check(self, seed):
        source = Program(seed, self.has_arrays).text()
        self.write('p.c', source.encode())
        first = self.replay(world_of(seed))
        if first is None or first[1].startswith('end left'):
            return 'left'
        self.write('p.log', first[0])
        ran = self.run('diagnose', 'p.c', 'p.log', '--turns', '4', '--conflicts', '2000')
        if ran.returncode == 8:
            return 'left'
        if ran.returncode not in (0, 9):
            raise Failure(f'diagnose ends with {ran.returncode}: {ran.stderr}')
        report = ran.stdout.decode()
        worlds = worlds_of(report)
        self.judge(report, first, worlds)
        self.ask(report, seed, source, worlds)
        return 'unknown' if ran.returncode == 9 else 'decided'

    def ask(self, report, seed, source, worlds):
        """Compares the verdicts on some sides and calls with runs that end there."""
        facts = re.findall(FACT % r'(?:branch|call) p\.c:\d+:\d+(?: true| false| case \d+| default)?', report, re.M)
        for number, verdict, text in random.Random(seed).sample(facts, min(ASKED, len(facts))):
            probe, end = probed(source, text)
            self.write('p.c', probe.encode())
            said = []
            for world in [world_of(seed), *worlds]:
                ran = self.replay(moved(world))
                if ran is None:
                    break
                said.append(ran[1] == end)
            else:
                agree(number, verdict, text, said[1:], said[0])

    def judge(self, report, first, worlds):
        facts = re.findall(FACT % r'return|undefined \S+(?: \S+)?', report, re.M)
        ends = []
        for number, world in enumerate(worlds, 1):
            ran = self.replay(world)
            if ran[0] != first[0] or ran[1].startswith('end left'):
                raise Failure(f'world {number} prints {ran[0]!r}, {ran[1]!r}')
            ends.append(ran[1])
        for number, verdict, text in facts:
            agree(number, verdict, text, [self.holds(text, end) for end in ends], self.holds(text, first[1]))

    @staticmethod
    def holds(text, end):
        if text == 'return':
            return end.startswith('end return ')
        return end.startswith('end ' + text) and (end.rstrip('\n') == 'end ' + text or len(text.split()) == 2)


def main():
    program, count, seed = os.path.abspath(sys.argv[1]), int(sys.argv[2]), int(sys.argv[3]) if len(sys.argv) > 3 else 1
    told = {'decided': 0, 'unknown': 0, 'left': 0}
    failed = 0
    with tempfile.TemporaryDirectory() as folder:
        trial = Trial(program, folder, sys.argv[4:] == ['arrays'])
        for number in range(seed, seed + count):
            try:
                told[trial.check(number)] += 1
            except (Failure, subprocess.TimeoutExpired) as failure:
                failed += 1
                print(f'diagnoses: program {number}: {failure}')
    print(f"diagnoses: {told['decided']} random programs are decided, {told['unknown']} in part, {told['left']} leave the "
          f'bounds, {failed} differ')
    sys.exit(1 if failed else 0)


if __name__ == '__main__':
    main()
