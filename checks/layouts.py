"""Writes random declarations and constant expressions of C, and programs that print what a C compiler makes of them.

    layouts.py FOLDER COUNT

For each of COUNT numbers N it writes `N.c`, the declarations alone; `N.cc.c`, the same with a `main` that prints for
each object its size and alignment, for each member of a structure or union its offset, for each initialized object
and each enumeration constant its value; and `N.bad`, lines `KIND EXPRESSION` of expressions of which a part has no
value: KIND is `zero` where a part that is evaluated divides by zero, else `other`. The same COUNT gives the same
files.
"""

import random
import sys

# name, bits, whether signed, rank
INTEGERS = {
    "_Bool": (1, False, 0),
    "char": (8, True, 1), "signed char": (8, True, 1), "unsigned char": (8, False, 1),
    "short": (16, True, 2), "unsigned short": (16, False, 2),
    "int": (32, True, 3), "unsigned": (32, False, 3),
    "long": (64, True, 4), "unsigned long": (64, False, 4),
    "long long": (64, True, 5), "unsigned long long": (64, False, 5),
}
SPELLINGS = {
    "short": ["short", "short int", "int short signed"], "unsigned short": ["unsigned short", "short unsigned int"],
    "int": ["int", "signed", "int signed"], "unsigned": ["unsigned", "unsigned int", "int unsigned"],
    "long": ["long", "long int", "signed long"], "unsigned long": ["unsigned long", "long unsigned int"],
    "long long": ["long long", "long int long"], "unsigned long long": ["unsigned long long", "long unsigned long"],
}
FLOATING = ["float", "double", "long double", "double _Complex", "float _Complex"]
SIZES = {"_Bool": 1, "char": 1, "signed char": 1, "unsigned char": 1, "short": 2, "unsigned short": 2, "int": 4,
         "unsigned": 4, "long": 8, "unsigned long": 8, "long long": 8, "unsigned long long": 8}


class NoValue(Exception):
    """A part of an expression has no value; `zero` tells of a division by zero."""

    def __init__(self, zero):
        super().__init__()
        self.zero = zero


def converted(kind, value):
    """A value converted to an integer type (C99 6.3.1.2, 6.3.1.3)."""
    bits, signed, _ = INTEGERS[kind]
    if kind == "_Bool":
        return int(value != 0)
    value %= 1 << bits
    return value - (1 << bits) if signed and value >= 1 << (bits - 1) else value


def promoted(kind):
    return "int" if INTEGERS[kind][2] < 3 else kind


def usual(left, right):
    """The usual arithmetic conversions of promoted types (C99 6.3.1.8)."""
    left, right = promoted(left), promoted(right)
    (_, ls, lr), (_, rs, rr) = INTEGERS[left], INTEGERS[right]
    if ls == rs:
        return left if lr >= rr else right
    unsigned, signed = (right, left) if ls else (left, right)
    if INTEGERS[unsigned][2] >= INTEGERS[signed][2]:
        return unsigned
    if INTEGERS[signed][0] > INTEGERS[unsigned][0]:
        return signed
    return "unsigned long" if signed == "long" else "unsigned long long"


def checked(kind, value):
    """A result of an operator in a type, which a signed type must have."""
    bits, signed, _ = INTEGERS[kind]
    if signed and not -(1 << (bits - 1)) <= value < 1 << (bits - 1):
        raise NoValue(False)
    return converted(kind, value)


def quotient(left, right):
    if right == 0:
        raise NoValue(True)
    sign = -1 if (left < 0) != (right < 0) else 1
    return sign * (abs(left) // abs(right))


COMPARISONS = ("<", ">", "<=", ">=", "==", "!=")


def kind_of(operator, left, right):
    """The type of a binary operator's result by those of its operands."""
    if operator in ("<<", ">>"):
        return promoted(left)
    return "int" if operator in COMPARISONS else usual(left, right)


def shifted(operator, kind, x, y):
    bits, signed, _ = INTEGERS[kind]
    if not 0 <= y < bits:
        raise NoValue(False)
    if operator == ">>":
        return x >> y
    if signed and x < 0:
        raise NoValue(False)
    return checked(kind, x << y)


def arithmetic(operator, left, x, right, y):
    """The value of a binary operator on values of two types."""
    kind = kind_of(operator, left, right)
    if operator in ("<<", ">>"):
        return shifted(operator, kind, x, y)
    common = usual(left, right)
    x, y = converted(common, x), converted(common, y)
    if operator in COMPARISONS:
        return int({"<": x < y, ">": x > y, "<=": x <= y, ">=": x >= y, "==": x == y, "!=": x != y}[operator])
    if operator in ("/", "%"):
        q = quotient(x, y)
        checked(kind, q)
        return checked(kind, q if operator == "/" else x - q * y)
    return checked(kind, {"+": x + y, "-": x - y, "*": x * y, "&": x & y, "|": x | y, "^": x ^ y}[operator])


class Source:
    """Writes one source of declarations."""

    def __init__(self, seed):
        self.random = random.Random(seed)
        self.count = 0
        self.declarations = []
        self.shown = []
        self.types = []  # typedef names and tags in force, with the sizes that their objects have at least
        self.constants = []

    def pick(self, items):
        return self.random.choice(items)

    def chance(self, p):
        return self.random.random() < p

    def fresh(self, letter):
        self.count += 1
        return f"{letter}{self.count}"

    # ---- constant expressions: the text, the type, and a function that gives the value

    def constant(self):
        base = self.pick(["", "0x", "0"])
        value = self.pick([0, 1, 2, 7, 8, 31, 63, 100, 127, 128, 255, 256, 32767, 65535, 65536, 2147483647, 2147483648,
                           4294967295, 4294967296, 9223372036854775807, self.random.getrandbits(16)])
        suffix = self.pick(["", "", "", "u", "l", "ul", "ll", "ull"])
        digits = {"": str(value), "0x": hex(value), "0": "0" + oct(value)[2:]}[base]
        kinds = ["int", "unsigned", "long", "unsigned long", "long long", "unsigned long long"]
        least = {"": 0, "l": 2, "ll": 4}[suffix.replace("u", "")]
        if "u" in suffix:
            kinds = [k for k in kinds[least:] if k.startswith("unsigned")]
        elif base == "":
            kinds = [k for k in kinds[least:] if not k.startswith("unsigned")]
        else:
            kinds = kinds[least:]
        kind = next(k for k in kinds if value < 1 << (INTEGERS[k][0] - INTEGERS[k][1]))
        return digits + suffix, kind, (lambda: value)

    def leaf(self):
        roll = self.random.random()
        if roll < 0.6:
            return self.constant()
        if roll < 0.75:
            text, value = self.pick([("'a'", 97), ("'\\n'", 10), ("'\\0'", 0), ("'\\377'", -1),
                                     ("'\\x7f'", 127)])
            return text, "int", (lambda: value)
        if roll < 0.85 and self.constants:
            name, value = self.pick(self.constants)
            return name, "int", (lambda: value)
        kind = self.pick(list(SIZES))
        return f"sizeof({self.pick(SPELLINGS.get(kind, [kind]))})", "unsigned long", (lambda: SIZES[kind])

    def expression(self, depth):
        if depth <= 0:
            return self.leaf()
        form = self.pick(["binary"] * 6 + ["unary"] * 2 + ["cast"] * 2 + ["choice", "logic", "sizeof", "leaf"])
        if form == "leaf":
            return self.leaf()
        text, left, x = self.expression(depth - 1)
        if form == "unary":
            return self.unary(text, left, x)
        if form == "cast":
            kind = self.pick(list(INTEGERS))
            spelled = self.pick(SPELLINGS.get(kind, [kind]))
            return f"({spelled})({text})", kind, (lambda: converted(kind, x()))
        if form == "sizeof":
            # the operand isn't evaluated, so it needs no value
            return f"sizeof({text})", "unsigned long", (lambda: SIZES[left])
        other, right, y = self.expression(depth - 1)
        if form == "binary":
            operator = self.pick("+ - * / % << >> & | ^ < > <= >= == !=".split())
            kind = kind_of(operator, left, right)
            return f"({text}) {operator} ({other})", kind, (lambda: arithmetic(operator, left, x(), right, y()))
        if form == "logic":
            operator = self.pick(["&&", "||"])
            return f"({text}) {operator} ({other})", "int", (lambda: self.logic(operator, x(), y()))
        third, last, z = self.expression(depth - 1)
        kind = usual(right, last)
        return f"({text}) ? ({other}) : ({third})", kind, (lambda: self.chosen(kind, x(), y(), z()))

    def unary(self, text, left, x):
        operator = self.pick(["-", "~", "!", "+"])
        if operator == "!":
            return f"!({text})", "int", (lambda: int(x() == 0))
        kind = promoted(left)
        results = {"-": lambda: checked(kind, -x()), "~": lambda: converted(kind, ~x()), "+": x}
        return f"{operator}({text})", kind, results[operator]

    @staticmethod
    def logic(operator, x, y):
        return int(bool(x) and bool(y) if operator == "&&" else bool(x) or bool(y))

    @staticmethod
    def chosen(kind, condition, positive, negative):
        return converted(kind, positive if condition else negative)

    def good(self, depth):
        """An expression of which each part has a value, operands of `sizeof` apart; with its type and value."""
        while True:
            text, kind, value = self.expression(depth)
            try:
                return text, kind, value()
            except NoValue:
                continue

    # ---- types: the text before the declared name, the text behind it, and what is printed of a member of the type

    def integer(self):
        kind = self.pick(list(INTEGERS))
        return self.pick(SPELLINGS.get(kind, [kind]))

    def length(self):
        n = self.random.randint(1, 4)
        return self.pick([str(n), f"{n}", f"({n + 1} - 1)", f"{2 * n} / 2", f"sizeof(char[{n}])"])

    def specifiers(self, depth):
        """The text of specifiers, and the members that the type has."""
        roll = self.random.random()
        qualifier = self.pick(["", "", "", "const ", "volatile "])
        if roll < 0.4 or depth <= 0 and roll < 0.8:
            return qualifier + self.integer(), []
        if roll < 0.5:
            return qualifier + self.pick(FLOATING), []
        if roll < 0.65 and self.types:
            text, members = self.pick(self.types)
            return qualifier + text, members
        if roll < 0.72:
            return self.enumeration(), []
        if depth <= 0:
            return self.integer(), []
        return self.aggregate(depth - 1)

    def enumeration(self):
        tag = self.fresh("e")
        items = []
        for _ in range(self.random.randint(1, 3)):
            name = self.fresh("k")
            if self.chance(0.5):
                text, kind, value = self.good(2)
                text, value = f"(int)({text})", converted("int", value)
                items.append(f"{name} = {text}")
                self.constants.append((name, value))
            else:
                items.append(name)
            self.shown.append(("constant", name))
        return f"enum {tag} {{ {', '.join(items)} }}"

    def declarator(self, name):
        """The text of a declarator, and what shows of the type: `same`, `elements` or `other`."""
        roll = self.random.random()
        if roll < 0.5:
            return name, "same"
        if roll < 0.62:
            return f"{name}[{self.length()}]", "other"
        if roll < 0.7:
            return f"{name}[{self.length()}][{self.length()}]", "other"
        if roll < 0.82:
            return f"*{self.pick(['', 'const ', 'volatile '])}{name}", "other"
        if roll < 0.88:
            return f"(*{name})(int, const char *, ...)", "other"
        if roll < 0.92:
            return f"(*{name}[{self.length()}])(void)", "other"
        if roll < 0.96:
            return f"*{name}[{self.length()}]", "other"
        return f"(*{name})[{self.length()}]", "other"

    def aggregate(self, depth):
        form = self.pick(["struct", "struct", "struct", "union"])
        tag = self.pick(["", self.fresh("s")])
        lines, members = [], []
        for _ in range(self.random.randint(1, 5)):
            text, inner = self.specifiers(depth)
            names = []
            for _ in range(self.pick([1, 1, 1, 2])):
                name = self.fresh("m")
                declarator, shows = self.declarator(name)
                names.append(declarator)
                members.append((name, inner if shows == "same" else [], True))
            lines.append(f"{text} {', '.join(names)};")
        if form == "struct" and tag and self.chance(0.3):
            name = self.fresh("m")
            lines.insert(0, f"struct {tag} *{name};")
            members.insert(0, (name, [], True))
        is_flexible = form == "struct" and self.chance(0.1)
        if is_flexible:
            name = self.fresh("m")
            lines.append(f"{self.integer()} {name}[];")
            members.append((name, [], False))
        text = f"{form} {tag} {{ {' '.join(lines)} }}"
        if tag and not is_flexible:
            self.types.append((f"{form} {tag}", members))
        self.flexible = is_flexible
        return text, members

    def show(self, name, members):
        self.shown.append(("object", name))
        for member, inner, sized in members:
            self.show_member(name, member, inner, sized)

    def show_member(self, path, member, inner, sized):
        self.shown.append(("member", path, member, sized))
        for name, more, is_sized in inner:
            self.show_member(f"{path}.{member}", name, more, is_sized)

    def declaration(self):
        text, members = self.specifiers(3)
        name = self.fresh("x")
        if self.chance(0.2) and "[];" not in text:
            self.declarations.append(f"typedef {text} {name};")
            self.types.append((name, members))
            name2 = self.fresh("x")
            self.declarations.append(f"{name} {name2};")
            self.show(name2, members)
            return
        declarator, shows = self.declarator(name)
        if "[];" in text:
            declarator, shows = name, "same"
        self.declarations.append(f"{text} {declarator};")
        self.show(name, members if shows == "same" else [])

    def value(self):
        text, kind, value = self.good(self.random.randint(1, 4))
        name = self.fresh("v")
        self.declarations.append(f"{self.pick(SPELLINGS.get(kind, [kind]))} {name} = {text};")
        self.show(name, [])
        self.shown.append(("value", name, text))

    def printing(self, what):
        if what[0] == "object":
            name = what[1]
            return (f'printf("object {name} %zu %zu\\n", sizeof {name}, '
                    f"(size_t)__alignof__(__typeof__({name})));")
        if what[0] == "member":
            _, path, member, sized = what
            size = f"sizeof {path}.{member}" if sized else "(size_t)0"
            return (f'printf("member {path}.{member} %zu %zu\\n", '
                    f"__builtin_offsetof(__typeof__({path}), {member}), {size});")
        if what[0] == "constant":
            return f'printf("constant {what[1]} %d\\n", {what[1]});'
        _, name, text = what
        return (f'if (({text}) < 0) printf("value {name} %lld\\n", (long long)({text}));\n'
                f'    else printf("value {name} %llu\\n", (unsigned long long)({text}));')


def unvalued(source):
    """A line of an expression of which a part has no value."""
    while True:
        text, _, value = source.expression(3)
        try:
            value()
        except NoValue as fault:
            # within `&&`, `||` and `?:` the part may be one that isn't evaluated
            evaluated = fault.zero and not any(word in text for word in ("&&", "||", "?", "sizeof"))
            return f"{'zero' if evaluated else 'other'} {text}"


def main(folder, count):
    for number in range(count):
        source = Source(number)
        for _ in range(20):
            source.declaration()
            source.value()
        text = "\n".join(source.declarations) + "\n"
        with open(f"{folder}/{number}.c", "w") as out:
            out.write(text)
        body = "\n    ".join(source.printing(what) for what in source.shown)
        with open(f"{folder}/{number}.cc.c", "w") as out:
            out.write(f"#include <stdio.h>\n#include <stddef.h>\n{text}"
                      f"int main(void) {{\n    {body}\n    return 0;\n}}\n")
        with open(f"{folder}/{number}.bad", "w") as out:
            source.constants = []
            out.write("\n".join(unvalued(source) for _ in range(20)) + "\n")


main(sys.argv[1], int(sys.argv[2]))
