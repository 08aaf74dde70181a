#!/usr/bin/env python3
"""Writes sources with one broken rule each, those of refusal_faults.txt: `refusals.py FOLDER [SEED]` writes FOLDER/N.c
and the table FOLDER/faults, with a line `N WHO PLACE RULE` for each. PLACE is the FILE:LINE of the fault by the line
markers; F stands for the source's own name."""
import os
import random
import sys

HEAD = '''int printf(const char *, ...); int outside(int); void nothing(int); void *some(void);
struct pair { int a; int t[3]; struct pair *next; }; union word { int n; char c[4]; }; struct open;
enum e { RED, GREEN };
struct bits { int low : 3; int rest; }; struct pair give(void); struct bits *of_bits(void); struct open *of_open(void);
struct pair pair = { 1, { 2, 3 }, 0 }; int table[4] = { 1, 2 }; const int fixed = 5; double real;
int with(int a, int b) { return a + b; } void shows(const char *s) { printf("%s\\n", s); } double floats(void);
int takes(struct pair p); int (*by_pointer)(int) = outside;
'''

# Statements that break no rule.
STATEMENTS = [
    'n = outside(n) + table[1];', 'p = &table[n & 3];', 's = "text" + (n & 1);', 'if (p) n = *p; else n++;', 'w.n = n;',
    'here = pair;', 'here.t[1] = here.a--;', 'for (n = 0; n < 3; n++) if (n == 2) break;', 'n = !v || p && s[0];',
    'printf("%d %s\\n", n, s);', 'switch (n) { case 1: n = 2; break; case GREEN + 5: ; default: n = -n; }',
    'v = some();', 'n = with(n, sizeof here);', 'while (n > 0) { n--; continue; }', 'do n /= 2; while (n);',
    '{ int k = fixed, *q = &k; n += q == &k; }', 'shows("shown");', 'n = n ? w.c[1] : (char)n;',
    'here.next = &pair; n = here.next->t[2];', 'nothing(n), n |= 4;']
BLOCKS = ['{', 'if (n) {', 'while (n) {', 'for (int k = 0; k < 2; k++) {', 'do {', 'if (p) ; else {']
# What is a fault outside of loops and switches alone.
OUTERMOST = ('break', 'continue', 'case', 'default', 'if (n) { break', 'switch (n) { case 1: continue')


class Source:
    """A source of accepted declarations and statements, in which one fault stands in a line of its own."""

    def __init__(self, seed):
        self.random = random.Random(seed)
        self.lines, self.file, self.number = [], 'F', 0
        self.place = None

    def put(self, text):
        for line in text.rstrip('\n').split('\n'):
            self.lines.append(line)
            self.number += 1

    def marker(self):
        if self.random.random() < 0.3:
            self.file, self.number = self.random.choice(['one.h', 'dir/two.h', 'main.c']), self.random.randrange(1, 900)
            self.lines.append(f'#line {self.number} "{self.file}"')
            self.number -= 1

    def fault(self, text):
        self.marker()
        self.put(text)
        self.place = f'{self.file}:{self.number}'

    def statements(self, most=3):
        for _ in range(self.random.randrange(most)):
            self.put('  ' + self.random.choice(STATEMENTS))

    def function(self, head, middle, fault, rule):
        """A function; where it is told, the fault stands somewhere in its blocks. A body that isn't read is refused at
        its brace."""
        self.put(head + ' {')
        opened = f'{self.file}:{self.number}'
        self.put('  int n = 1, *p = 0; char *s = "s"; void *v = 0; struct pair here = { 2 }; union word w = { 3 };')
        self.statements()
        open_blocks = []
        if fault and not fault.startswith(OUTERMOST):
            for _ in range(self.random.randrange(3)):
                block = self.random.choice(BLOCKS)
                self.put('  ' + block)
                open_blocks.append(' while (p);' if block == 'do {' else '')
                self.statements(2)
        if fault:
            self.fault('  ' + fault)
            if rule == 'UnreadBody':
                self.place = opened
        for tail in reversed(open_blocks):
            self.statements(2)
            self.put('  }' + tail)
        self.put('  ' + middle)
        self.used = f'{self.file}:{self.number}'
        self.statements()
        self.put('  return n;')
        self.put('}')

    def whole(self, rule, declarations, statement, is_in_use):
        fault = None if declarations else statement
        self.put(HEAD)
        if declarations:
            self.fault(declarations)
        where = self.random.randrange(3)
        self.marker()
        self.function('static int deep(void)', ';', fault if where == 0 else None, rule)
        self.function('int inner(int k)', 'n += deep();', fault if where == 1 else None, rule)
        self.marker()
        use = statement if declarations else ''
        self.function('int main(void)', f'n = inner(n); {use}', fault if where == 2 else None, rule)
        if is_in_use:
            self.place = self.used
        return '\n'.join(self.lines) + '\n'


def faults():
    """Each fault: who refuses it, its rule, its declarations, its statement, and whether it stands in the statement
    that needs these declarations."""
    who = rule = None
    with open(os.path.join(os.path.dirname(__file__), 'refusal_faults.txt')) as file:
        for line in file.read().splitlines():
            if line.startswith('# '):
                continue
            if line.startswith('== '):
                _, who, rule = line.split(' ', 2)
            elif ' ##' in line:
                declarations, _, use = line.partition(' ##')
                yield who, rule, declarations, use.lstrip('!').strip(), use.startswith('!')
            else:
                yield who, rule, None, line, False


def main():
    folder, seed = sys.argv[1], sys.argv[2] if len(sys.argv) > 2 else '1'
    with open(f'{folder}/faults', 'w') as table:
        for number, (who, rule, declarations, statement, is_in_use) in enumerate(faults()):
            source = Source(f'{seed} {number}')
            text = source.whole(rule, declarations, statement, is_in_use)
            with open(f'{folder}/{number}.c', 'w') as file:
                file.write(text)
            table.write(f'{number} {who} {source.place} {rule}\n')


main()
