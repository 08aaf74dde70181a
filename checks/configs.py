#!/usr/bin/env python3
"""Random configurations beside Python's JSON and a table of the form: `configs.py PROGRAM COUNT SEED`. `sherlog replay` is
given each with a source that isn't there, so one that it takes comes to a fault of that file."""
import json
import os
import random
import re
import subprocess
import sys
import tempfile

TAKEN = (6, b'sherlog: 6 fault\n')

# ---- what is right

INDEX = range(0, 16)
NUMBERS = {'arguments': range(1, 9), 'heap': range(1, 4097), 'outside': range(0, 257), 'texts': range(1, 1025)}
CONVERSION = re.compile(r'([-+ #0]*)(\*|[0-9]*)(\.(?:\*|[0-9]*))?(hh|h|ll|l|j|z|t)?(.)', re.DOTALL)


class NoJson(Exception):
    pass


def number(text):
    """A whole number of 64 bits, or a float, which no key wants; a number above every float is none."""
    if re.fullmatch('-?[0-9]+', text) and text != '-0' and -2 ** 63 <= int(text) < 2 ** 64:
        return int(text)
    if float(text) in (float('inf'), float('-inf')):
        raise NoJson
    return 0.5


def no_constant(text):
    raise NoJson


def whole(text):
    """The text without half a surrogate pair, which Python takes."""
    try:
        return text.encode().decode()
    except UnicodeEncodeError as half:
        raise NoJson from half


def sound(value):
    """Raises NoJson where a text of a value holds half a pair."""
    if isinstance(value, str):
        whole(value)
    elif isinstance(value, list):
        for item in value:
            sound(item)


def members(pairs):
    for key, value in pairs:
        whole(key)
        sound(value)
    return dict(pairs)


def height(text):
    """How deep objects and lists stand in one another."""
    depth = greatest = 0
    for token in re.findall(r'"(?:\\.|[^"\\])*"|[\[{]|[\]}]', text, re.DOTALL):
        depth += (token in '[{') - (token in ']}') if len(token) == 1 else 0
        greatest = max(greatest, depth)
    return greatest


def object_of(data):
    """The object that the bytes write, or None."""
    try:
        text = data.decode('utf-8')
        value = json.loads(text, parse_int=number, parse_float=number, parse_constant=no_constant,
                           object_pairs_hook=members)
        sound(value)
    except (ValueError, NoJson, RecursionError):
        return None
    return value if isinstance(value, dict) and height(text) <= 127 else None


def format_is_taken(text):
    text, at, count = text.split('\0')[0], 0, 0
    while '%' in text[at:]:
        at = text.index('%', at) + 1
        count += 1
        if text[at:at + 1] == '%':
            at += 1
            continue
        found = CONVERSION.match(text, at)
        if not found or count > 64:
            return False
        flags, width, precision, length, letter = found.groups()
        sizes = [int(size) for size in (width, (precision or '')[1:]) if size.isdigit()]
        if (letter not in 'diouxXcsp' or letter in 'diucsp' and '#' in flags or letter in 'csp' and ('0' in flags or length)
                or letter in 'cp' and precision is not None or any(size > 65536 for size in sizes)):
            return False
        at = found.end()
    return count <= 64


def in_range(values):
    return lambda value: None if type(value) is int and value in values else (
        'OutOfRange' if type(value) is int else 'WrongType')


def one_of(kind, right):
    return lambda value: 'WrongType' if type(value) is not kind else None if right(value) else 'OutOfRange'


ENTRIES = {
    'log': (lambda e: type(e) is dict and ('text' in e) != ('format' in e) and not ('text' in e and 'newline' in e), {
        'format': in_range(INDEX), 'newline': one_of(bool, lambda b: b), 'text': one_of(str, format_is_taken)}),
    'fills': (lambda e: type(e) is dict and 'buffer' in e and 'length' in e, {
        'answer': one_of(str, lambda s: s in ('free', 'count')), 'buffer': in_range(INDEX), 'length': in_range(INDEX)}),
}


def in_order(value):
    return sorted(value.items(), key=lambda pair: pair[0].encode())


def faults_of(key, value):
    """The faults of a key of the whole and of what stands under it, in order."""
    if key in NUMBERS:
        yield in_range(NUMBERS[key])(value), key
    elif key == 'drop_unmatched':
        yield one_of(bool, lambda b: True)(value), key
    elif key == 'never_null':
        yield None if type(value) is list and all(type(name) is str for name in value) else 'WrongType', key
    elif key == 'prefix':
        yield 'WrongType' if type(value) is not str else 'BadPattern' if value in BAD_PATTERNS else None, key
    elif key not in ('identity', 'log', 'fills'):
        yield 'UnknownKey', key
    elif type(value) is not dict:
        yield 'WrongType', key
    else:
        for name, entry in in_order(value):
            if key == 'identity':
                yield in_range(INDEX)(entry), name
                continue
            is_entry, keys = ENTRIES[key]
            if not is_entry(entry):
                yield 'WrongType', name
                return
            for inner, what in in_order(entry):
                yield keys.get(inner, lambda any: 'UnknownKey')(what), inner


def answer_to(data):
    value = object_of(data)
    if value is None:
        return 5, b'sherlog: 5 NotJson\n'
    for key, under in in_order(value):
        for fault, name in faults_of(key, under):
            if fault:
                return 5, f'sherlog: 5 {fault}{"" if fault == "BadPattern" else " " + name}\n'.encode()
    return TAKEN


# ---- random texts

BAD_PATTERNS = ['(', '[', '*', 'a{2,1}', '(?P<n', ')']
KEYS = ['log', 'identity', 'fills', 'never_null', 'heap', 'outside', 'texts', 'arguments', 'prefix', 'drop_unmatched']
INNER = ['format', 'newline', 'text', 'buffer', 'length', 'answer']
NAMES = ['say', 'log', 'heap', 'get', 'a', 'Z', 'printf', 'é', '', '\uffff', '\U00010000', 'a\n', '"', '\\', 'zz']
FORMATS = ['%d\n', 'x', '', '%%', '%n', '%', '%5', '%#x', '%#d', '%05d', '%05s', '%hhx', '%hs', '%.3s', '%.3c', '%*.*d', '%lld',
           '%65536d', '%65537u', '%.65537o', '%f', '%1$d', '% +-0#o', '%p%c%s', '%.p', '%zu%jd%ti', '%lc', 'a\0%n']
WHOLES = [0, 1, 2, 8, 9, 15, 16, 64, 256, 257, 1024, 1025, 4096, 4097, -1, 2 ** 32 + 1, 2 ** 63, 2 ** 64 - 1, -2 ** 63]
LITERALS = ['-0', '0.0', '1e0', '1E+2', '2.5e-3', '18446744073709551616', '-9223372036854775809', '1e-400', 'true', 'false',
            'null', '[]', '{}', '[[]]', '{"a":1}', '"free"', '"count"', '1' + '0' * 30]
WRONG = ['NaN', 'Infinity', '01', '+1', '1.', '.5', '1e400', '-1e999', '1' + '0' * 320, 'True', '"\\ud800"', '"\\udc00\\ud800"', '"\\x"', '"\t"', "'a'", '-',
         '"\\u12"', '[1,]', '{"a":}', '{,}', '[1 2]', '//', '"a', '[' * 130 + ']' * 130]


class Writer:
    """Writes a text of JSON at random."""

    def __init__(self, source):
        self.source = source

    def gap(self):
        return self.source.choice(['', '', '', ' ', '\n', '\t\r '])

    def string(self, text):
        parts = []
        for c in text:
            if ord(c) < 32 or c in '"\\' or self.source.random() < 0.1:
                units = c.encode('utf-16-be').hex()
                parts.append(''.join('\\u' + units[k:k + 4] for k in range(0, len(units), 4)))
            else:
                parts.append(c)
        return '"' + ''.join(parts) + '"'

    def members(self, pairs):
        between = [self.gap() + self.string(key) + self.gap() + ':' + self.gap() + value + self.gap() for key, value in pairs]
        return '{' + (','.join(between) or self.gap()) + '}'

    def any(self):
        pick = self.source.choice
        return pick([lambda: str(pick(WHOLES)), lambda: pick(LITERALS), lambda: self.string(pick(NAMES + FORMATS)),
                     lambda: '[' * 125 + ']' * 125, lambda: '[' + self.any() + ',' + self.any() + ']'])()

    def whole(self, values):
        return str(self.source.choice([values[0], values[-1], self.source.choice(values)]))

    def right(self, key):
        pick = self.source.choice
        if key in NUMBERS:
            return self.whole(NUMBERS[key])
        return {'drop_unmatched': lambda: pick(['true', 'false']),
                'never_null': lambda: '[' + ','.join(self.string(n) for n in self.some(NAMES)) + ']',
                'prefix': lambda: self.string(pick(['a', '', '[0-9]+ ', 'é|x'] + BAD_PATTERNS[:1])),
                'identity': lambda: self.members([(n, self.usual(self.whole, INDEX)) for n in self.some(NAMES)]),
                'log': lambda: self.members([(n, self.usual(self.log_entry)) for n in self.some(NAMES)]),
                'fills': lambda: self.members([(n, self.usual(self.fill_entry)) for n in self.some(NAMES)])}[key]()

    def some(self, names):
        return [self.source.choice(names) for _ in range(self.source.choice([0, 1, 1, 2, 3]))]

    def usual(self, make, *given):
        return self.any() if self.source.random() < 0.1 else make(*given)

    def entry(self, pairs):
        """An entry with its keys in any order, which may lack one or have another."""
        if self.source.random() < 0.1:
            pairs.append((self.source.choice(INNER + NAMES), self.any()))
        if self.source.random() < 0.07:
            pairs.pop(self.source.randrange(len(pairs)))
        self.source.shuffle(pairs)
        return self.members(pairs)

    def log_entry(self):
        pick = self.source.choice
        return self.entry(pick([
            [('format', self.usual(self.whole, INDEX))],
            [('format', self.usual(self.whole, INDEX)), ('newline', self.usual(lambda: pick(['true', 'true', 'false'])))],
            [('text', self.usual(lambda: self.string(pick(FORMATS))))]]))

    def fill_entry(self):
        pick = self.source.choice
        pairs = [('buffer', self.usual(self.whole, INDEX)), ('length', self.usual(self.whole, INDEX))]
        if pick([False, True]):
            pairs.append(('answer', self.usual(lambda: pick(['"free"', '"count"', '"no"']))))
        return self.entry(pairs)

    def text(self):
        pick, chance = self.source.choice, self.source.random
        keys = [pick(KEYS) for _ in range(pick([0, 1, 1, 2, 3, 5, 8]))]
        pairs = [(key, self.usual(self.right, key)) for key in keys]
        if chance() < 0.15:
            pairs.insert(self.source.randrange(len(pairs) + 1), (pick(NAMES + INNER), self.any()))
        if pairs and chance() < 0.1:
            pairs.insert(self.source.randrange(len(pairs) + 1), (pick(pairs)[0], pick(WRONG)))
        text = self.gap() + self.members(pairs) + self.gap()
        if chance() < 0.03:
            text = pick(['\ufeff' + text, '[' + text + ']', text + text, text + ',', '', self.any()])
        return text

    def bytes(self):
        """A text, in which one byte in some is another, one more or one less."""
        data = bytearray(self.text().encode())
        if data and self.source.random() < 0.12:
            at = self.source.randrange(len(data))
            data[at:at + self.source.randrange(2)] = self.source.choice([b'', b'"', b',', b'}', b'\\', b'\xff', b'\x00', b'1', b'\xc3'])
        return bytes(data)


def main():
    program, count, writer = os.path.abspath(sys.argv[1]), int(sys.argv[2]), Writer(random.Random(int(sys.argv[3])))
    told = {}
    failed = 0
    with tempfile.TemporaryDirectory() as folder:
        for _ in range(count):
            data = writer.bytes()
            with open(os.path.join(folder, 'c.json'), 'wb') as file:
                file.write(data)
            ran = subprocess.run([program, 'replay', 'none.c', 'none.w', '--config', 'c.json'], cwd=folder,
                                 stdin=subprocess.DEVNULL, capture_output=True, timeout=60)
            wanted = answer_to(data)
            word = wanted[1].decode().split(' ')[2].strip()
            told[word] = told.get(word, 0) + 1
            if (ran.returncode, ran.stderr, ran.stdout) != (*wanted, b''):
                failed += 1
                print(f'config: {data!r}: {ran.returncode} {ran.stderr!r}, and {wanted} is right')
    kinds = ', '.join(f'{many} {word}' for word, many in sorted(told.items())).replace('fault', 'taken')
    print(f'config: {count - failed} of {count} random configurations agree ({kinds})')
    sys.exit(1 if failed else 0)


main()
