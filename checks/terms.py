#!/usr/bin/env python3
"""Rows of terms for the program `rows`, beside what they are worth, worked out here by Python's integers.

    terms.py PROGRAM [SHARE]      asks the rows; where SHARE is given, one in so many
    terms.py sizes                prints a row for each circuit of solver_instances.c, behind its name and a space

Each row says what is expected: `only` a value, since all that it takes of the world is given; `or` another; `none`, since
no world has what it asks for; or `any` of the first two. The world that is answered must have what the row asks for, and
on it the root must be worth what is answered.
"""
import random
import subprocess
import sys

WIDTHS = (8, 16, 32, 64)
ONLY, OR, NONE, ANY = "only", "or", "none", "any"


def signed(x, n):
    return x - (1 << n) if x >> (n - 1) else x


def wrapped(x, n):
    return x % (1 << n)


def quotient(a, b):
    """Of integers, rounded towards 0."""
    q = abs(a) // abs(b)
    return -q if (a < 0) != (b < 0) else q


def is_over(x, n):
    return int(not -(1 << (n - 1)) <= x < 1 << (n - 1))


def divided(by, result):
    return result(by) if by else 0


def shifted(n, by, result):
    return result(by) if by < n else 0


# Each takes the number of bits and two words.
OPERATORS = {
    "add": lambda n, a, b: wrapped(a + b, n),
    "sub": lambda n, a, b: wrapped(a - b, n),
    "mul": lambda n, a, b: wrapped(a * b, n),
    "udiv": lambda n, a, b: divided(b, lambda b: a // b),
    "urem": lambda n, a, b: divided(b, lambda b: a % b),
    "sdiv": lambda n, a, b: divided(b, lambda b: wrapped(quotient(signed(a, n), signed(b, n)), n)),
    "srem": lambda n, a, b: divided(b, lambda b: remainder(n, signed(a, n), signed(b, n))),
    "and": lambda n, a, b: a & b,
    "or": lambda n, a, b: a | b,
    "xor": lambda n, a, b: a ^ b,
    "shl": lambda n, a, b: shifted(n, b, lambda b: wrapped(a << b, n)),
    "lshr": lambda n, a, b: shifted(n, b, lambda b: a >> b),
    "ashr": lambda n, a, b: shifted(n, b, lambda b: wrapped(signed(a, n) >> b, n)),
}
TESTS = {
    "eq": lambda n, a, b: int(a == b),
    "ult": lambda n, a, b: int(a < b),
    "slt": lambda n, a, b: int(signed(a, n) < signed(b, n)),
    "add_over": lambda n, a, b: is_over(signed(a, n) + signed(b, n), n),
    "sub_over": lambda n, a, b: is_over(signed(a, n) - signed(b, n), n),
    "mul_over": lambda n, a, b: is_over(signed(a, n) * signed(b, n), n),
    "div_over": lambda n, a, b: int(signed(a, n) == -(1 << (n - 1)) and signed(b, n) == -1),
    "shl_over": lambda n, a, b: int(b >= n or signed(a, n) < 0 or is_over(signed(a, n) << b, n)),
}
HEAVY = {"mul", "udiv", "urem", "sdiv", "srem", "mul_over"}


def remainder(n, a, b):
    return wrapped(a - b * quotient(a, b), n)


def worth(row, words, octets):
    """What each statement's node is worth on a world; and whether each `is` holds."""
    values, holds = [], True
    for name, *numbers in row:
        if name == "is":
            holds = holds and values[numbers[0]] == numbers[1]
            continue
        values.append(worth_of(name, numbers, values, words, octets))
    return values, holds


def worth_of(name, numbers, values, words, octets):
    if name == "const":
        return wrapped(numbers[1], numbers[0])
    if name == "word":
        return wrapped(words.get(values[numbers[1]], 0), numbers[0])
    if name == "read":
        at = values[numbers[1]]
        return sum(octets.get(wrapped(at + i, 64), 0) << 8 * i for i in range(numbers[0] // 8))
    if name in OPERATORS or name in TESTS:
        return {**OPERATORS, **TESTS}[name](numbers[0], values[numbers[1]], values[numbers[2]])
    if name == "zext":
        return wrapped(values[numbers[2]], numbers[1])
    if name == "sext":
        return wrapped(signed(values[numbers[2]], numbers[0]), numbers[1])
    if name == "not":
        return 1 - values[numbers[0]]
    if name == "both":
        return values[numbers[0]] & values[numbers[1]]
    if name == "either":
        return values[numbers[0]] | values[numbers[1]]
    assert name == "choose"
    return values[numbers[1]] if values[numbers[0]] else values[numbers[2]]


def text_of(row):
    return "; ".join(" ".join(map(str, statement)) for statement in row)


class Maker:
    """Makes a row, statement by statement; each call answers the statement's number."""

    def __init__(self):
        self.row = []
        self.count = 0
        self.places = 0

    def put(self, *statement):
        self.row.append(statement)
        self.count += 1
        return self.count - 1

    def wish(self, number, value):
        self.row.append(("is", number, value))

    def word(self, n, value=None):
        """A word of the world at a place of its own, which is to have a value where one is given."""
        place = self.put("const", 64, self.places)
        self.places += 1
        number = self.put("word", n, place)
        if value is not None:
            self.wish(number, value)
        return number


def edges(n):
    half = 1 << (n - 1)
    return [0, 1, 2, 7, n - 1, n, half - 1, half, half + 1, 2 * half - 2, 2 * half - 1]


def pairs(n, chance, count):
    """All pairs of edge values, and so many random ones."""
    yield from ((a, b) for a in edges(n) for b in edges(n))
    for _ in range(count):
        a = chance.getrandbits(n)
        yield a, chance.getrandbits(n) if chance.random() < 0.5 else chance.getrandbits(n) >> chance.randrange(n)


def operator_rows(chance):
    """Each operator and test of two words that are given, at each width."""
    for n in WIDTHS:
        for name in [*OPERATORS, *TESTS]:
            asked = list(pairs(n, chance, 20))
            if name in HEAVY and n > 16:
                asked = chance.sample(asked, 24 if n == 32 else 10)
            for a, b in asked:
                m = Maker()
                m.put(name, n, m.word(n, a), m.word(n, b))
                yield m.row, ONLY


def conversion_rows(chance):
    for name in ("zext", "sext"):
        for n in WIDTHS:
            for to in WIDTHS:
                for value in [*edges(n), *(chance.getrandbits(n) for _ in range(4))]:
                    m = Maker()
                    m.put(name, n, to, m.word(n, value))
                    yield m.row, ONLY


def truth_rows():
    """Connectives, negations and choices over truths of bytes that are given."""
    for a in (0, 1):
        for b in (0, 1):
            for name in ("both", "either", "not", "choose", "truths"):
                m = Maker()
                one = m.put("const", 8, 1)
                x, y = m.word(8, a), m.word(8, b)
                left, right = m.put("eq", 8, x, one), m.put("eq", 8, y, one)
                if name == "not":
                    m.put("not", left)
                elif name == "choose":
                    m.put("choose", left, y, m.word(8, 200 + b))
                elif name == "truths":
                    m.put("choose", left, right, m.put("not", right))
                else:
                    m.put(name, left, right)
                yield m.row, ONLY


def address_rows():
    """Bytes and words of the world at addresses and places that may be equal: they agree exactly where these do."""
    for name in ("read", "word"):
        for n in (8, 32):
            for b in (4096, 4097, 4100):
                m = Maker()
                first, second = m.word(64, 4096), m.word(64, b)
                m.put("eq", n, m.put(name, n, first), m.put(name, n, second))
                yield m.row, ONLY if b == 4096 else OR
                m = Maker()
                first = m.word(64, b)
                known = m.put("const", 64, 4096)
                m.put("eq", n, m.put(name, n, known), m.put(name, n, first))
                yield m.row, ONLY if b == 4096 else OR


class Growing:
    """A random term: nodes by their number of bits, 1 for truths."""

    def __init__(self, chance, is_given):
        self.chance = chance
        self.m = Maker()
        self.nodes = {1: [], 8: [], 16: [], 32: [], 64: []}
        for n in WIDTHS:
            for _ in range(2):
                self.nodes[n].append(self.m.word(n, chance.choice([*edges(n), chance.getrandbits(n)]) if is_given else None))
        for n in WIDTHS:
            self.nodes[n].append(self.m.put("const", n, chance.choice([*edges(n), chance.getrandbits(n)])))
        self.nodes[1].append(self.m.put("ult", 32, self.nodes[32][0], self.nodes[32][1]))

    def pick(self, n):
        """A node of so many bits, a late one more often."""
        nodes = self.nodes[n]
        return nodes[max(self.chance.randrange(len(nodes)), self.chance.randrange(len(nodes)))]

    def grow(self):
        chance, m = self.chance, self.m
        n = chance.choice(WIDTHS)
        kind = chance.randrange(8)
        if kind < 3:
            names = [name for name in OPERATORS if name not in HEAVY or n == 8]
            self.nodes[n].append(m.put(chance.choice(names), n, self.pick(n), self.pick(n)))
        elif kind == 3:
            names = [name for name in TESTS if name not in HEAVY or n == 8]
            self.nodes[1].append(m.put(chance.choice(names), n, self.pick(n), self.pick(n)))
        elif kind == 4:
            to = chance.choice(WIDTHS)
            self.nodes[to].append(m.put(chance.choice(("zext", "sext")), n, to, self.pick(n)))
        elif kind == 5:
            self.nodes[n].append(m.put("choose", self.pick(1), self.pick(n), self.pick(n)))
        elif kind == 6:
            self.nodes[1].append(m.put(chance.choice(("both", "either")), self.pick(1), self.pick(1)))
        else:
            self.nodes[1].append(m.put("not", self.pick(1)))


def random_rows(chance, count):
    """Terms of 200 nodes: over words that are given, and over any."""
    for index in range(count):
        is_given = index % 2 == 0
        growing = Growing(chance, is_given)
        while growing.m.count < 199:
            growing.grow()
        n = chance.choice(WIDTHS)
        growing.m.put("xor", n, growing.nodes[n][-1], growing.nodes[n][-2])
        yield growing.m.row, ONLY if is_given else ANY


def unequal(m, n, bits, left, right):
    """That two words differ in their lowest bits."""
    mask = m.put("const", n, (1 << bits) - 1)
    return m.put("not", m.put("eq", n, m.put("and", n, left, mask), m.put("and", n, right, mask)))


def circuit(kind, bits):
    """Whether the two circuits of a kind in solver_instances.c differ, for words of so many bits."""
    n = next(n for n in WIDTHS if bits <= n)
    m = Maker()
    mask = m.put("const", n, (1 << bits) - 1)
    a, b = m.put("and", n, m.word(n), mask), m.put("and", n, m.word(n), mask)
    name = "mul" if kind == "multipliers" else "add"
    unequal(m, n, bits, m.put(name, n, a, b), m.put(name, n, b, a))
    return m.row


def associated(bits):
    """Whether (a + b) + c and a + (b + c) differ."""
    m = Maker()
    a, b, c = m.word(bits), m.word(bits), m.word(bits)
    left = m.put("add", bits, m.put("add", bits, a, b), c)
    right = m.put("add", bits, a, m.put("add", bits, b, c))
    unequal(m, bits, bits, left, right)
    return m.row


def circuits():
    for bits in (4, 5, 6, 16, 32):
        yield f"adders_{bits}", circuit("adders", bits)
    for bits in (4, 5, 6, 7, 8):
        yield f"multipliers_{bits}", circuit("multipliers", bits)
    for bits in (16, 32, 64):
        yield f"associative_{bits}", associated(bits)


def refuted_rows():
    """Circuits that don't differ on any world."""
    for bits in (4, 8, 16):
        row = circuit("adders", bits)
        root = sum(statement[0] != "is" for statement in row) - 1
        yield [*row, ("is", root, 1)], NONE


def world_of(words):
    """The tables of the world that an answer ends with."""
    split = words.index(":")
    tables = [dict(tuple(map(int, word.split("="))) for word in part) for part in (words[:split], words[split + 1:])]
    return tables


def fault_of(row, expected, answer):
    """What is wrong with an answer, or None."""
    words = answer.split()
    told = NONE if words[:1] == [NONE] else words[1]
    if told != expected and (expected != ANY or told == NONE):
        return f"expected was {expected}"
    if told == NONE:
        return None
    values, holds = worth(row, *world_of(words[2 if told == ONLY else 3:]))
    if not holds:
        return "the world isn't as the row asks"
    if values[-1] != int(words[0]):
        return f"the root is worth {values[-1]} on this world"
    return None


def rows_of(share):
    """The rows by what they are of, one in so many."""
    chance = random.Random(20261129)
    rows = {
        "operators": list(operator_rows(chance)),
        "conversions": list(conversion_rows(chance)),
        "truths": list(truth_rows()),
        "addresses": list(address_rows()),
        "random terms": list(random_rows(chance, 20)),
        "refuted": list(refuted_rows()),
    }
    return {name: chance.sample(of, -(-len(of) // share)) for name, of in rows.items()}


def is_answered(program, name, rows):
    """Asks the program rows, and prints whether the answers are right."""
    text = "".join(text_of(row) + "\n" for row, _ in rows)
    told = subprocess.run([program, "terms"], input=text, capture_output=True, text=True)
    answers = told.stdout.splitlines()
    if len(answers) != len(rows):
        print(f"terms: {name}: {len(answers)} answers to {len(rows)} rows: {told.stderr.strip()}")
        return False
    faults = [(row, answer, fault_of(row, expected, answer)) for (row, expected), answer in zip(rows, answers)]
    faults = [fault for fault in faults if fault[2]]
    for row, answer, fault in faults[:3]:
        print(f"terms: {name}: {fault}\n  {text_of(row)}\n  {answer}")
    if not faults:
        print(f"terms: {name}: {len(rows)} rows agree", flush=True)
    return not faults


def main():
    if sys.argv[1:] == ["sizes"]:
        for name, row in circuits():
            print(name, text_of(row))
        return 0
    rows = rows_of(int(sys.argv[2]) if len(sys.argv) > 2 else 1)
    return 0 if all([is_answered(sys.argv[1], name, of) for name, of in rows.items()]) else 1


if __name__ == "__main__":
    sys.exit(main())
