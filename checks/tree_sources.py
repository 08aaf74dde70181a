"""Writes random C sources, each of the grammar that sherlog reads and of what pycparser reads alike.

    tree_sources.py FOLDER COUNT

The same COUNT gives the same sources. Names that are declared twice in one block, typedef names that an enumeration
constant or a label hides, and other things that pycparser reads otherwise than C99 says, are not written.
"""

import random
import sys

BINARY = "* / % + - << >> < > <= >= == != & ^ | && ||".split()
ASSIGNMENT = "= *= /= %= += -= <<= >>= &= ^= |=".split()
UNARY = "& * + - ~ ! ++ --".split()
TYPES = ["void", "char", "short", "int", "long", "float", "double", "signed", "unsigned", "_Bool", "unsigned char",
         "signed char", "unsigned short int", "long unsigned", "long long", "unsigned long long int", "long double",
         "short int", "struct s", "union u", "enum e", "T", "U"]
CONSTANTS = ["0", "1", "42", "017", "0x1f", "1u", "2L", "3ul", "4LL", "0xffffffff", "2147483648", "4294967295U",
             "0x8000000000000000", "1.5", ".5e3", "2.f", "'a'", "'\\n'", "'\\0'", "'\\377'", "'\\x41'", '"text"',
             '"a\\tb"', '"one" "two"', '""', "__func__"]


class Writer:
    """Writes one source; `depth` bounds how deep trees stand in one another."""

    def __init__(self, seed):
        self.random = random.Random(seed)
        self.count = 0
        self.names = ["a", "b", "c", "f", "g"]

    def pick(self, items):
        return self.random.choice(items)

    def maybe(self, text, chance=0.5):
        return text if self.random.random() < chance else ""

    def fresh(self):
        self.count += 1
        return f"n{self.count}"

    def some(self, write, least, most, between):
        return between.join(write() for _ in range(self.random.randint(least, most)))

    # ---- expressions, without any parentheses that their own form doesn't have

    def primary(self, depth):
        if depth > 0 and self.random.random() < 0.3:
            return "(" + self.expression(depth - 1) + ")"
        return self.pick(self.names) if self.random.random() < 0.7 else self.pick(CONSTANTS)

    def postfix(self, depth):
        if depth <= 0:
            return self.primary(0)
        before = self.postfix(depth - 2)
        return self.pick([
            lambda: self.primary(depth),
            lambda: f"{before}[{self.expression(depth - 1)}]",
            lambda: f"{before}({self.some(lambda: self.assign(depth - 2), 0, 3, ', ')})",
            lambda: f"{before} .m",
            lambda: f"{before}->T",
            lambda: f"{before}++",
            lambda: f"{before}--",
        ])()

    def unary(self, depth):
        if depth <= 0:
            return self.primary(0)
        return self.pick([
            lambda: self.postfix(depth),
            lambda: f"{self.pick(UNARY[:6])} {self.cast(depth - 1)}",
            lambda: f"{self.pick(UNARY[6:])} {self.unary(depth - 1)}",
            lambda: f"sizeof {self.unary(depth - 1)}",
            lambda: f"sizeof ({self.type_name(depth - 1)})",
        ])()

    def cast(self, depth):
        if depth > 0 and self.random.random() < 0.2:
            return f"({self.type_name(depth - 1)}){self.cast(depth - 1)}"
        return self.unary(depth)

    def binary(self, depth):
        out = self.cast(depth)
        for _ in range(self.random.randint(0, 4) if depth > 0 else 0):
            out += f" {self.pick(BINARY)} {self.cast(depth - 2)}"
        return out

    def conditional(self, depth):
        if depth > 0 and self.random.random() < 0.2:
            return f"{self.binary(depth - 1)} ? {self.expression(depth - 1)} : {self.conditional(depth - 1)}"
        return self.binary(depth)

    def assign(self, depth):
        if depth > 0 and self.random.random() < 0.3:
            return f"{self.unary(depth - 1)} {self.pick(ASSIGNMENT)} {self.assign(depth - 1)}"
        return self.conditional(depth)

    def expression(self, depth):
        return ", ".join(self.assign(depth) for _ in range(self.pick([1, 1, 1, 1, 2, 3])))

    # ---- declarators and specifiers

    def qualifiers(self):
        return self.maybe(self.pick(["const ", "volatile ", "const volatile "]), 0.2)

    def specifiers(self, depth):
        if depth > 2 and self.random.random() < 0.15:
            return self.qualifiers() + self.aggregate(depth - 1)
        if depth > 2 and self.random.random() < 0.1:
            return self.qualifiers() + self.enumeration(depth - 1)
        return self.qualifiers() + self.pick(TYPES) + self.maybe(" const", 0.1)

    def aggregate(self, depth):
        tag = self.maybe(" " + self.fresh())
        return f"{self.pick(['struct', 'union'])}{tag} {{ {self.some(lambda: self.member(depth), 1, 4, ' ')} }}"

    def member(self, depth):
        def field():
            if self.random.random() < 0.2:
                return f"{self.maybe(self.fresh(), 0.8)} : {self.conditional(depth - 2)}"
            return self.declarator(depth - 1, self.fresh())
        return f"{self.specifiers(depth - 1)} {self.some(field, 1, 3, ', ')};"

    def enumeration(self, depth):
        def enumerator():
            return self.fresh() + self.maybe(f" = {self.conditional(depth - 2)}")
        return f"enum {self.maybe(self.fresh())} {{ {self.some(enumerator, 1, 3, ', ')}{self.maybe(',')} }}"

    def declarator(self, depth, name):
        """A declarator of a name, or an abstract one of the empty name."""
        if depth <= 0:
            return name
        inner = self.declarator(depth - 1, name)
        return self.pick([
            lambda: name,
            lambda: f"*{self.maybe(self.pick([' const ', ' volatile ', ' const restrict ']), 0.3)}{inner}",
            lambda: self.grouped(inner) + f"[{self.length(depth, name)}]",
            lambda: self.grouped(inner) + f"({self.parameters(depth - 1)})",
        ])()

    def grouped(self, inner):
        if inner == "":
            return inner
        return inner if inner[0] not in "*(" and self.random.random() < 0.8 else f"({inner})"

    def length(self, depth, name):
        """An array's length: pycparser takes one that begins with `*` for `[*]`."""
        length = "" if name == "" and self.random.random() < 0.5 else self.assign(depth - 2)
        return f"({length})" if length.startswith("*") else length

    def parameters(self, depth):
        def parameter():
            return f"{self.specifiers(0)} {self.declarator(depth - 1, self.maybe(self.fresh(), 0.6))}".strip()
        shape = self.random.random()
        if shape < 0.2:
            return ""
        if shape < 0.4:
            return "void"
        return self.some(parameter, 1, 3, ", ") + self.maybe(", ...", 0.2)

    def type_name(self, depth):
        return f"{self.specifiers(0)} {self.declarator(depth - 1, '')}".strip()

    # ---- declarations

    def initializer(self, depth):
        if depth <= 0 or self.random.random() < 0.7:
            return self.assign(depth)
        def item():
            before = self.some(lambda: self.pick([".m", ".T", f"[{self.pick('0123')} + 1]"]), 1, 3, "")
            return self.maybe(before + " = ", 0.4) + self.initializer(depth - 1)
        return f"{{ {self.some(item, 1, 4, ', ')}{self.maybe(',', 0.3)} }}"

    def declaration(self, depth, storages):
        """A declaration; pycparser drops the initializer of a typedef name."""
        storage = self.maybe(self.pick(storages) + " ", 0.3)
        def declared():
            chance = 0 if storage == "typedef " else 0.4
            return self.declarator(depth, self.fresh()) + self.maybe(f" = {self.initializer(depth - 1)}", chance)
        return f"{storage}{self.specifiers(depth)} {self.some(declared, 1, 3, ', ')};"

    # ---- statements

    def simple(self, depth):
        return self.pick([
            lambda: self.expression(depth) + ";",
            lambda: self.expression(depth) + ";",
            lambda: ";",
            lambda: f"return{self.maybe(' ' + self.expression(depth))};",
            lambda: self.pick(["break;", "continue;", "goto end;"]),
        ])()

    def statement(self, depth):
        if depth <= 0:
            return self.simple(1)
        def inner():
            return self.statement(depth - 1)
        def e():
            return self.expression(depth - 1)
        return self.pick([
            lambda: self.simple(depth),
            lambda: self.block(depth - 1),
            lambda: f"if ({e()}) {inner()}",
            lambda: f"if ({e()}) {inner()} else {inner()}",
            lambda: f"switch ({e()}) {inner()}",
            lambda: f"switch ({e()}) {{ {self.cases(depth - 1)} }}",
            lambda: f"while ({e()}) {inner()}",
            lambda: f"do {inner()} while ({e()});",
            lambda: f"for ({self.maybe(e())}; {self.maybe(e())}; {self.maybe(e())}) {inner()}",
            lambda: f"for ({self.declaration(2, ['register'])} {self.maybe(e())}; {self.maybe(e())}) {inner()}",
            lambda: f"{self.fresh()}: {inner()}",
        ])()

    def cases(self, depth):
        def case():
            label = self.pick(["default:", f"case {self.conditional(1)}:", f"case 1: case {self.conditional(1)}:"])
            return f"{label} {self.some(lambda: self.statement(depth), 1, 3, ' ')}"
        return self.some(case, 1, 3, " ")

    def item(self, depth):
        if self.random.random() < 0.3:
            return self.declaration(3, ["static", "register", "auto", "extern"])
        return self.statement(depth)

    def hiding(self):
        """A block in which a typedef name is an object, and what follows it."""
        name = self.pick("TU")
        return f"{{ int {name}; {name} * {self.pick(self.names)}; {name} = 1; }} {name} * {self.fresh()};"

    def block(self, depth):
        return f"{{ {self.some(lambda: self.item(depth), 0, 4, ' ')} {self.maybe(self.hiding(), 0.2)} }}"

    def function(self, depth):
        head = f"{self.maybe('static ', 0.3)}{self.maybe('inline ', 0.1)}{self.specifiers(0)} {self.maybe('*', 0.3)}"
        return f"{head}{self.fresh()}({self.parameters(2)}) {self.block(depth)}"

    def source(self):
        parts = ["typedef int T; typedef struct s { int m; } U, *V;"]
        for _ in range(self.random.randint(2, 8)):
            parts.append(self.pick([
                lambda: self.declaration(5, ["extern", "static", "typedef"]),
                lambda: self.function(4),
            ])())
        return "\n".join(parts) + "\n"


def main():
    folder, count = sys.argv[1], int(sys.argv[2])
    for number in range(count):
        with open(f"{folder}/{number}.c", "w", encoding="ascii") as file:
            file.write(Writer(number).source())


if __name__ == "__main__":
    main()
