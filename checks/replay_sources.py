#!/usr/bin/env python3
"""Writes random C99 programs without undefined behaviour, without a loop of more than eight turns and without calls
deeper than eight: `replay_sources.py FOLDER COUNT [SEED]` writes FOLDER/N.c for N below COUNT. Each prints what it works
out, so that two ways of running it can be compared byte by byte. The functions that it takes from the C library are
printf, exit, strlen, strcmp, strncmp, strchr, strcpy, strcat, memset, memcpy and atoi."""
import random
import sys

KINDS = ['signed char', 'unsigned char', 'short', 'unsigned short', 'int', 'unsigned int', 'long', 'unsigned long',
         'long long', 'unsigned long long', 'char']
CONVERSIONS = {
    'signed char': ['%hhd', '%d', '%4hhi', '%-5hhd|'], 'unsigned char': ['%hhu', '%u', '%hhx', '%#hho'],
    'short': ['%hd', '%+hd', '%6hd', '%-7hd|'], 'unsigned short': ['%hu', '%hx', '%#hX', '%06hu'],
    'int': ['%d', '%i', '%+d', '% d', '%08d', '%-9d|', '%.3d', '%12.5d'],
    'unsigned int': ['%u', '%x', '%X', '%#x', '%o', '%#o', '%010u', '%.7x', '%-12u|'],
    'long': ['%ld', '%+li', '%20ld', '%.10ld'], 'unsigned long': ['%lu', '%lx', '%#lX', '%lo'],
    'long long': ['%lld', '%+lld', '%025lld'], 'unsigned long long': ['%llu', '%llx', '%#llo'],
    'char': ['%hhd', '%d'], '_Bool': ['%d', '%u']}
EXTRAS = [(' %c', ", 'q'"), (' %s', ', "text"'), (' %5s|', ', "ab"'), (' %-4s|', ', "ab"'), (' %.2s', ', "abcdef"'),
          (' %%', ''), (' %*d', ', 7, 42'), (' %.*d', ', 4, 42'), (' %-*d|', ', -6, 5'), (' %3c|%-3c|', ", 'x', 66"),
          (' %c', ', 0'), (' %p|%8p|%-8p|', ', (void *)0, (char *)0, (void *)0'), (' %.*s|', ', -1, "all"'),
          (' %*.*s|', ', 6, 2, "abc"'), (' %jd %zu %td %zd %ji', ', -5l, 6ul, 7l, 8l, 9l'), (' %.0d|%.0x|%#.0o|', ', 0, 0, 0'),
          (' %+.4d|% 6.3d|%-+8i|', ', 12, -7, 3'), (' %#010x|%-#10X|%#8o|', ', 48879, 48879, 8'), (' %.s|', ', "none"'),
          (' %hho %hhX %ho %lo %llX', ', 200, 200, 40000, 8ul, 3735928559ull'), (' %s%s', ', "a\\0b", "\\x41\\102"')]
WIDE = ['unsigned int', 'unsigned long', 'unsigned long long']

HEADERS = ['#include <stdio.h>', '#include <string.h>', '#include <stdlib.h>']
DECLARATIONS = ['int printf(const char *, ...); void exit(int); unsigned long strlen(const char *); int atoi(const char *);',
                'int strcmp(const char *, const char *); int strncmp(const char *, const char *, unsigned long);',
                'char *strchr(const char *, int); char *strcpy(char *, const char *); char *strcat(char *, const char *);',
                'void *memset(void *, int, unsigned long); void *memcpy(void *, const void *, unsigned long);']


class Program:
    def __init__(self, seed):
        self.random = random.Random(seed)
        self.lines, self.indent, self.count = [], 0, 0
        self.functions, self.globals, self.arrays = [], [], []

    def pick(self, items):
        return self.random.choice(items)

    def below(self, limit, least=0):
        return self.random.randrange(least, limit)

    def chance(self, share):
        return self.random.random() < share

    def name(self, stem):
        self.count += 1
        return f'{stem}{self.count}'

    def put(self, line):
        self.lines.append('  ' * self.indent + line)

    # ---- expressions: of integer type, without side effects, of a value that is always defined

    def constant(self):
        return [lambda: str(self.below(10)), lambda: f'{self.below(1 << 31):#x}u',
                lambda: f"'{self.pick('abcXYZ019 +*')}'", lambda: f'0{self.below(512):o}',
                lambda: f'{self.below(1 << 62)}ull', lambda: f'(-{self.below(1 << 15)})', lambda: f'{self.below(1 << 40)}l',
                lambda: self.pick(['127', '128', '255', '256', '32767', '65535', '2147483647', '0x80000000', '4294967295'])
                ][self.below(8)]()

    def leaf(self, names):
        if names and self.chance(0.7):
            return self.pick(names)
        if self.arrays and self.chance(0.3):
            array, length = self.pick(self.arrays)
            return f'{array}[{self.below(length)}]'
        return self.constant()

    def expression(self, names, depth=3):
        if depth == 0 or self.chance(0.15):
            return self.leaf(names)
        a, b = self.expression(names, depth - 1), self.expression(names, depth - 1)
        form = self.below(20)
        if form < 5:
            wide = self.pick(WIDE)
            return f'(({wide})({a}) {self.pick("+-*&|^")} ({wide})({b}))'
        if form < 7:
            return f'((({a}) & {self.below(1 << 10)}) {self.pick("+-*")} (({b}) & {self.below(1 << 8)}))'
        if form < 9:
            return f'(({a}) {self.pick("/%")} ((({b}) & {self.pick(["7", "15", "0x7f"])}) + {self.below(9, 1)}))'
        if form == 9:
            return f'((unsigned long)({a}) << (({b}) & {self.pick(["7", "31", "63"])}))'
        if form == 10:
            return f'(({a}) >> (({b}) & {self.pick(["7", "15"])}))'
        if form == 11:
            return f'(({a}) {self.pick(["<", ">", "<=", ">=", "==", "!="])} ({b}))'
        if form == 12:
            return f'(({a}) {self.pick(["&&", "||"])} ({b}))'
        if form == 13:
            return f'(({a}) ? ({b}) : ({self.expression(names, depth - 1)}))'
        if form == 14:
            return f'(({self.pick(KINDS + ["_Bool"])})({a}))'
        if form == 15:
            return f'({self.pick("~!+")}({a}))'
        if form == 16:
            return f'(-(unsigned)({a}))'
        if form == 17:
            return f'(sizeof({a}) + sizeof({self.pick(KINDS)}))'
        if form == 18 and self.functions:
            name, parameters = self.pick(self.functions)
            return f'{name}({", ".join(self.expression(names, min(depth - 1, 1)) for _ in range(parameters))})'
        return f'((({a}) & 255) {self.pick("|^&")} (({b}) & 4095))'

    # ---- statements: `kinds` has the kind of each variable, `targets` those that may be written

    def show(self, kinds):
        chosen = [self.pick(sorted(kinds)) for _ in range(self.below(4, 1))]
        text = ' '.join(f'{n}={self.pick(CONVERSIONS[kinds[n]])}' for n in chosen)
        more, values = self.pick(EXTRAS) if self.chance(0.25) else ('', '')
        self.put(f'printf("{text}{more}\\n", {", ".join(chosen)}{values});')

    def assign(self, kinds, targets):
        target = self.pick(targets)
        names = sorted(kinds)
        form = self.below(6)
        if form < 3:
            self.put(f'{target} = {self.expression(names)};')
        elif form == 3 and kinds[target] in WIDE:
            self.put(f'{target} {self.pick("+-*&|^")}= {self.expression(names, 2)};')
        elif form == 4:
            self.put(f'{target} {self.pick("&|^")}= {self.expression(names, 2)};')
        elif kinds[target] in WIDE or kinds[target] == 'unsigned char':
            self.put(self.pick([f'{target}++;', f'--{target};', f'++{target};', f'{target}--;']))
        else:
            self.put(f'{target} {self.pick([">>", "/"])}= {self.below(6, 1)};')

    def block(self, kinds, targets, depth, in_loop):
        kinds, targets = dict(kinds), list(targets)
        for _ in range(self.below(5, 2)):
            self.statement(kinds, targets, depth, in_loop)

    def braced(self, head, kinds, targets, depth, in_loop, tail='', first=None):
        self.put(f'{head} {{'.strip())
        self.indent += 1
        if first:
            self.put(first)
        self.block(kinds, targets, depth - 1, in_loop)
        self.indent -= 1
        self.put('}' + tail)

    def statement(self, kinds, targets, depth, in_loop):
        form = self.below(29) if depth else self.below(7)
        if form < 2 or not kinds:
            kind, name = self.pick(KINDS + ['_Bool']), self.name('v')
            self.put(f'{kind} {name} = {self.expression(sorted(kinds))};')
            kinds[name] = kind
            targets.append(name)
        elif form < 5:
            if targets:
                self.assign(kinds, targets)
        elif form < 7:
            self.show(kinds)
        elif form < 10:
            self.braced(f'if ({self.expression(sorted(kinds))})', kinds, targets, depth, in_loop)
            if self.chance(0.5):
                self.braced('else', kinds, targets, depth, in_loop)
        elif form < 13:
            self.for_loop(kinds, targets, depth)
        elif form < 15:
            self.while_loop(kinds, targets, depth)
        elif form == 15:
            self.switch(kinds, targets)
        elif form == 16:
            if in_loop:
                self.put(f'if ({self.expression(sorted(kinds), 2)}) {self.pick(["break", "continue"])};')
        elif form == 17:
            label = self.name('out')
            self.put(f'if ({self.expression(sorted(kinds), 2)}) goto {label};')
            self.show(kinds)
            self.put(f'{label}: ;')
        elif form == 18:
            self.array(sorted(kinds))
        elif form == 19:
            self.structure(sorted(kinds))
        elif form == 20:
            self.text()
        elif form == 21:
            self.bytes_of(sorted(kinds))
        elif form == 22:
            self.matrix(sorted(kinds))
        elif form == 23:
            self.records(sorted(kinds))
        elif form == 24:
            self.pointers(sorted(kinds))
        elif form == 25:
            self.nest(sorted(kinds))
        elif form == 26:
            self.walk_of_text(sorted(kinds))
        elif form == 27:
            self.sequence(kinds, targets)
        else:
            self.braced('', kinds, targets, depth, in_loop)

    def for_loop(self, kinds, targets, depth):
        index, limit, step = self.name('i'), self.below(6, 1), self.below(3, 1)
        kind, head = self.pick([('int', f'for (int {index} = 0; {index} < {limit}; {index} += {step})'),
                                ('unsigned int', f'for (unsigned {index} = {limit}; {index}--;)'),
                                ('long', f'for (long {index} = {limit}; {index} > 0; {index} -= {step})')])
        self.braced(head, {**kinds, index: kind}, targets, depth, True)

    def while_loop(self, kinds, targets, depth):
        index = self.name('w')
        self.put(f'int {index} = {self.below(6)};')
        head, tail = self.pick([(f'while ({index} > 0)', ''), ('do', f' while ({index} > 0);')])
        self.braced(head, {**kinds, index: 'int'}, targets, depth, True, tail, f'{index}--;')

    def switch(self, kinds, targets):
        self.put(f'switch (({self.expression(sorted(kinds), 2)}) & 7) {{')
        labels = [f'case {case}' for case in self.random.sample(range(8), self.below(5, 1))]
        if self.chance(0.6):
            labels.insert(self.below(len(labels) + 1), 'default')
        for label in labels:
            self.put(f'{label}:')
            self.indent += 1
            self.put(f'printf("{label}\\n");')
            if targets and self.chance(0.6):
                self.assign(kinds, targets)
            if self.chance(0.6):
                self.put('break;')
            self.indent -= 1
        self.put('}')

    def array(self, names):
        kind, length, array = self.pick(KINDS), self.below(7, 2), self.name('a')
        values = [self.expression(names, 1) for _ in range(self.below(length + 1, 1))]
        if self.chance(0.4):
            place = self.below(length)
            values = [f'[{place}] = {self.expression(names, 1)}']
            values += [self.expression(names, 1)] if place + 1 < length else []
        pointer, index, sums = self.name('p'), self.name('k'), self.name('sum')
        self.put(f'{kind} {array}[{length}] = {{ {", ".join(values)} }};')
        self.put(f'{kind} *{pointer} = {array} + {self.below(length)};')
        self.put(f'*{pointer} = {self.expression(names, 2)};')
        self.put(f'unsigned long {sums} = 0;')
        self.put(f'for ({pointer} = {array}; {pointer} < {array} + {length}; {pointer}++) {sums} = {sums} * 31 + *{pointer};')
        self.put(f'for (int {index} = 0; {index} < {length}; {index}++) {sums} ^= (unsigned long){array}[{index}] << {index};')
        self.put(f'printf("{sums}=%lu %ld %zu\\n", {sums}, (long)({pointer} - {array}), sizeof {array});')

    def structure(self, names):
        keyword, tag = self.pick(['struct', 'struct', 'union']), self.name('s')
        fields = [(self.name('m'), self.pick(KINDS)) for _ in range(self.below(5, 2))]
        members = ' '.join(f'{kind} {name};' for name, kind in fields)
        self.put(f'{keyword} {tag} {{ {members} unsigned char bytes[3]; }};')
        one, two, pointer = self.name('x'), self.name('y'), self.name('q')
        first, last = fields[0], fields[-1]
        value = lambda: self.expression(names, 1)
        if keyword == 'union':
            self.pick(fields)
        # (a designator of a later member of a union isn't taken yet)
        named = first
        values = f'{value()}, .{last[0]} = {value()}, .bytes[1] = {value()}' if keyword == 'struct' else f'.{named[0]} = {value()}'
        self.put(f'{keyword} {tag} {one} = {{ {values} }};')
        self.put(f'{keyword} {tag} {two} = {one}, *{pointer} = &{two};')
        self.put(f'{pointer}->{first[0]} = {self.expression(names, 2)};')
        self.put(f'{one}.bytes[0] = {pointer}->bytes[{self.below(3)}];' if keyword == 'struct' else f'{one} = {two};')
        name, kind = self.pick(fields) if keyword == 'struct' else first
        if keyword == 'union':
            self.put(f'printf("%d\\n", {one}.bytes[0] == (unsigned char){one}.{name});')
        shown = f'{self.pick(CONVERSIONS[kind])} {self.pick(CONVERSIONS[kind])}'
        self.put(f'printf("{tag} {shown} %zu\\n", {one}.{name}, {pointer}->{name}, sizeof({keyword} {tag}));')

    def text(self):
        text, at = self.name('t'), self.name('c')
        self.put(f'char {text}[24] = "{self.pick(["alpha", "be", "", "gamma ray", "12x", " -77"])}";')
        self.put(self.pick([f'strcat({text}, "{self.pick(["!", "end", "zz"])}");', f'strcpy({text} + 1, "copy");',
                            f'memset({text}, {self.below(91, 65)}, {self.below(6)});',
                            f'memcpy({text} + 2, "copied", {self.below(7)});', ';']))
        self.put(f'printf("<%s> %lu %d %d %d\\n", {text}, (unsigned long)strlen({text}), strcmp({text}, "beta") < 0, '
                 f'strncmp({text}, "alp", 3) == 0, atoi({text}));')
        self.put(f"char *{at} = strchr({text}, '{self.pick('aeg1 ')}');")
        self.put(f'printf("%ld\\n", {at} ? (long)({at} - {text}) : -1l);')

    def bytes_of(self, names):
        """An integer's bytes, read and written by a pointer to another type."""
        kind, name, at = self.pick(KINDS), self.name('w'), self.name('b')
        self.put(f'{kind} {name} = {self.expression(names, 2)};')
        self.put(f'unsigned char *{at} = (unsigned char *)&{name};')
        self.put(f'{at}[sizeof {name} - 1] {self.pick(["^=", "+=", "="])} {self.expression(names, 1)};')
        self.put(f'printf("{name} {self.pick(CONVERSIONS[kind])} %d %d\\n", {name}, *{at}, {at} < (unsigned char *)(&{name} + 1));')

    def matrix(self, names):
        kind, rows, columns, table = self.pick(KINDS), self.below(4, 1), self.below(4, 2), self.name('m')
        i, j, line, total = self.name('i'), self.name('j'), self.name('l'), self.name('sum')
        row, column = self.below(rows), self.below(columns)
        value = lambda: self.expression(names, 1)
        begun = self.pick([f'{{ {value()} }}, ', f'{value()}, {value()}, ', ''])
        self.put(f'{kind} {table}[{rows}][{columns}] = {{ {begun}[{row}][{column}] = {value()} }}, (*{line})[{columns}];')
        self.put(f'{table}[{self.below(rows)}][{self.below(columns)}] = {value()};')
        self.put(f'unsigned long {total} = 0;')
        self.put(f'for ({line} = {table}; {line} != {table} + {rows}; ++{line}) for (int {j} = 0; {j} < {columns}; {j}++) '
                 f'{total} = {total} * 7 + (*{line})[{j}];')
        self.put(f'for (int {i} = 0; {i} < {rows} * {columns}; {i}++) {total} ^= (unsigned long)*(*{table} + {i}) + {i};'
                 if rows * columns <= 8 else ';')
        self.put(f'printf("{total} %lu %zu %zu %ld\\n", {total}, sizeof {table}, sizeof *{table}, (long)({line} - {table}));')

    def records(self, names):
        """An array of structures in which arrays, structures and unions stand, and a list of them by pointers."""
        tag, inner, array = self.name('r'), self.name('in'), self.name('a')
        kinds = [self.pick(KINDS) for _ in range(3)]
        value = lambda: self.expression(names, 1)
        self.put(f'struct {inner} {{ {kinds[0]} x; {kinds[1]} t[2]; }};')
        self.put(f'struct {tag} {{ struct {inner} in[2]; struct {tag} *next; union {{ {kinds[2]} v; char c[3]; }} u; const char *s; }};')
        self.put(f'struct {tag} {array}[3] = {{ {{ {{ {{ {value()}, {{ {value()} }} }}, {{ .t[1] = {value()} }} }}, 0, {{ {value()} }}, "one" }}, '
                 f'[2] = {{ .s = "two", .in[1].x = {value()}, {{ {value()} }}, .u.v = {value()} }} }}, *{array}_p = {array};')
        self.put(f'{array}[0].next = &{array}[{self.pick("12")}];')
        self.put(f'{array}[1] = {array}[{self.pick("02")}];')
        self.put(f'{array}[1].s = {array}->next->s ? {array}->next->s + 1 : "none";')
        self.put(f'{array}_p->in[1] = {array}_p->next->in[0];')
        self.put(f'for ({array}_p = {array}; {array}_p - {array} < 3; {array}_p++) printf("{tag} %ld %ld %ld %d %s\\n", '
                 f'(long){array}_p->in[0].x, (long){array}_p->in[1].t[1], (long){array}_p->u.v, !{array}_p->next, '
                 f'{array}_p->s ? {array}_p->s : "-");')
        self.put(f'printf("%zu %d\\n", sizeof(struct {tag}), (int)((char *){array}[1].in[1].t - (char *)({array} + 1)));')

    def pointers(self, names):
        """A pointer to a pointer, and objects that are changed by functions."""
        kind, one, two = self.pick(KINDS), self.name('o'), self.name('o')
        self.put(f'{kind} {one} = {self.expression(names, 1)}, {two} = {self.expression(names, 1)};')
        self.put(f'{kind} *{one}_p = &{one}, **{one}_q = &{one}_p;')
        self.put(f'**{one}_q {self.pick(["=", "&=", "^="])} {self.expression(names, 1)};')
        self.put(f'*{one}_q = {self.pick([f"&{two}", f"{one}_p == *{one}_q ? &{two} : 0"])};')
        self.put(f'*{one}_p = {self.expression(names, 1)};')
        self.put(f'{self.change[kind]}(*{one}_q, &{one});')
        shown = self.pick(CONVERSIONS[kind])
        self.put(f'printf("{one} {shown} {shown} %d %d\\n", {one}, {two}, {one}_p == &{one}, {one}_p != 0);')

    def nest(self, names):
        """Loops in one another, left by goto and by break, and gone on with by continue."""
        i, j, n, out = self.name('i'), self.name('j'), self.name('n'), self.name('out')
        self.put(f'int {i}, {j}, {n} = 0;')
        self.put(f'for ({i} = 0, {j} = {self.below(3)}; {i} < {self.below(6, 2)}; {i}++, {j}--) {{')
        self.put(f'  int k = {i};')
        self.put(f'  do {{ if (k == {self.below(4)}) continue; if ({self.expression(names, 1)}) {n} += k; '
                 f'if ({n} > {self.below(12)}) goto {out}; }} while (k-- > 0);')
        self.put(f'  while (1) {{ switch ({i} + {j}) {{ case {self.below(4)}: {n}++; break; case {self.below(5, 4)}: {n} += 3; '
                 f'default: {n} += 2; }} break; }}')
        self.put('}')
        self.put(f'{out}: printf("{n} %d %d %d\\n", {i}, {j}, {n});')

    def walk_of_text(self, names):
        """A literal or an array, read by a pointer to its end."""
        text, at, n = self.pick(['"a b"', '"x\\tq"', '"0123456"', '""', '"\\377\\1"']), self.name('s'), self.name('n')
        if self.chance(0.5):
            self.put(f'const char *{at} = {text};')
        else:
            self.put(f'char {at}_t[] = {text}, *{at} = {at}_t;')
        self.put(f'unsigned {n} = {self.below(100)};')
        self.put(self.pick([f'while (*{at}) {n} = {n} * 33 + *{at}++;', f'for (; *{at}; ++{at}) {n} ^= (unsigned char)*{at} << 1;',
                            f'do {n} += *{at}; while (*{at}++);', f'{n} += {at}[0] ? {at}[1] : -1;']))
        self.put(f'printf("{n} %u %zu\\n", {n}, sizeof {text});')

    def sequence(self, kinds, targets):
        """Side effects in the orders that C settles."""
        i, t = self.name('i'), self.name('t')
        names = sorted(kinds)
        self.put(f'enum {{ {i}_A = {self.below(9)}, {i}_B, {i}_C = {i}_B * 2 }}; typedef unsigned short {t};')
        self.put(f'{t} {i} = ({self.expression(names, 1)}, {i}_C);')
        self.put(f'{i}++ && ({i} += {self.expression(names, 1)}), {i} = {i} ? {i} - 1 : {i}_A;')
        self.put(f'if (({i} = {self.expression(names, 1)}) || --{i}) {i} |= {i}_B;')
        self.put(f'static {t} {t}_kept = {self.below(60000)}; {t}_kept = {t}_kept * 3 + {i};')
        self.put(f'printf("{i} %hu %hu %d\\n", {i}, {t}_kept, {i}_A < {i}_B);')

    # ---- functions

    def changes(self):
        """For each kind a function that changes objects by pointers."""
        self.change = {}
        for kind in KINDS:
            name = self.name('change')
            self.change[kind] = name
        for kind, name in self.change.items():
            if self.chance(0.3) or kind == 'int':
                self.put(f'static void {name}({kind} *to, {kind} *from) {{ {kind} kept = *to; *to = *from; *from = kept {self.pick("&|^")} 5; }}')
            else:
                self.put(f'static void {name}({kind} *to, const {kind} *from) {{ if (to != from) *to = (unsigned char)*from; }}')

    def function(self):
        name, result = self.name('f'), self.pick(KINDS)
        parameters = [(self.name('n'), self.pick(KINDS)) for _ in range(self.below(4, 1))]
        self.put(f'{self.pick(["", "static "])}{result} {name}({", ".join(f"{k} {n}" for n, k in parameters)}) {{')
        self.indent += 1
        names = [n for n, _ in parameters] + [g for g, _ in self.globals]
        self.put(f'{result} answer = {self.expression(names, 2)};')
        names.append('answer')
        for _ in range(self.below(3, 1)):
            self.put(f'if ({self.expression(names, 1)}) answer ^= {self.expression(names, 2)};')
        if self.chance(0.3):
            self.put(f'for (int i = 0; i < {self.below(7, 1)}; i++) answer = answer ^ (i * 3);')
        self.put(f'return {self.expression(names, 2)};')
        self.indent -= 1
        self.put('}')
        self.functions.append((name, len(parameters)))

    def recursion(self):
        name = self.name('r')
        for line in [f'unsigned {name}(unsigned n, int left) {{', '  static unsigned calls = 2;', '  calls++;',
                     '  if (left <= 0) return n + calls;', f'  printf("{name} %u %d\\n", n, left);',
                     f'  return {name}(n * 3 + 1, left - 1) ^ n;', '}']:
            self.put(line)
        return name

    def whole(self):
        for line in HEADERS if self.chance(0.3) else DECLARATIONS:
            self.put(line)
        for _ in range(self.below(4, 1)):
            name, kind = self.name('g'), self.pick(KINDS)
            self.put(f'{self.pick(["", "static "])}{kind} {name} = {self.below(128)};')
            self.globals.append((name, kind))
        if self.chance(0.6):
            name, kind, length = self.name('table'), self.pick(KINDS), self.below(6, 2)
            self.put(f'static {kind} {name}[{length}] = {{ {", ".join(str(self.below(100)) for _ in range(length))} }};')
            self.arrays.append((name, length))
        self.changes()
        for _ in range(self.below(4, 1)):
            self.function()
        recursive = self.recursion() if self.chance(0.4) else None
        self.put('int main(void) {')
        self.indent += 1
        kinds, targets = dict(self.globals), [g for g, _ in self.globals]
        for _ in range(self.below(10, 5)):
            self.statement(kinds, targets, 2, False)
        if recursive:
            self.put(f'printf("%u\\n", {recursive}({self.below(50)}, {self.below(6)}));')
        self.show(kinds)
        self.put(self.pick([f'exit({self.below(100)});', f'return ({self.expression(sorted(kinds), 2)}) & 127;',
                            f'return {self.below(100)};', ';']))
        self.indent -= 1
        self.put('}')
        return '\n'.join(self.lines) + '\n'


def main():
    folder, count = sys.argv[1], int(sys.argv[2])
    seed = int(sys.argv[3]) if len(sys.argv) > 3 else 1
    for number in range(count):
        with open(f'{folder}/{number}.c', 'w') as file:
            file.write(Program(seed * 100000 + number).whole())


main()
