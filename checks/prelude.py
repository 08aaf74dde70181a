"""The functions of the prelude as a table of `rows`: their text, and the trees that the definitions have for it.

    prelude.py DEFINITIONS

The definitions (`crates/c_means/specs/Prelude.antt`) have each function's tree behind its text, which stands in a
comment. The terms are read here as they stand: a name that is defined in the file is its definition, and every other
is a constructor. The trees are written as `crates/tree_text` says, with each offset less 2^31.
"""

import re
import sys

FAR = 2 ** 31
UNARY = {"Address": "&", "Indirection": "*", "Plus": "+", "Minus": "-", "Complement": "~", "Not": "!",
         "Increment": "++", "Decrement": "--"}
BINARY = {"Multiply": "*", "Divide": "/", "Remainder": "%", "Add": "+", "Subtract": "-", "ShiftLeft": "<<",
          "ShiftRight": ">>", "Less": "<", "Greater": ">", "LessEqual": "<=", "GreaterEqual": ">=", "Equal": "==",
          "NotEqual": "!=", "BitAnd": "&", "BitXor": "^", "BitOr": "|", "LogicalAnd": "&&", "LogicalOr": "||"}


# ---- terms: a number, a list, a record as a dict, or a constructor with its arguments as a tuple

class Reader:
    """Reads terms off the words of one."""

    def __init__(self, text):
        self.words = re.findall(r"[A-Za-z_][\w.']*|\d+|∷|\+\+|\[\]|[(){};=+^]", text)
        self.at = 0

    def peek(self):
        return self.words[self.at] if self.at < len(self.words) else None

    def take(self, word=None):
        found = self.peek()
        if word is not None and found != word:
            raise SyntaxError(f"{word} is wanted, not {found}")
        self.at += 1
        return found

    def term(self, operators=("∷", "+", "^")):
        """Operators from the weakest on; each holds to the right."""
        if not operators:
            return self.applied()
        left = self.term(operators[1:])
        if self.peek() != operators[0]:
            return left
        self.take()
        return ("apply", operators[0], [left, self.term(operators)])

    def applied(self):
        head = self.atom()
        parts = []
        while self.peek() is not None and self.peek() not in (")", "}", ";", "=", "∷", "+", "^", "++"):
            parts.append(self.atom())
        return ("apply", head, parts) if parts else head

    def atom(self):
        word = self.take()
        if word == "(":
            inner = self.term()
            self.take(")")
            return inner
        if word == "record":
            self.take("{")
            fields = {}
            while self.peek() != "}":
                name = self.take()
                self.take("=")
                fields[name] = self.term()
                if self.peek() == ";":
                    self.take()
            self.take("}")
            return ("record", fields)
        if word.isdigit():
            return int(word)
        return ("name", word)


class Definitions:
    """What a file defines, each name by its clauses: patterns and a term."""

    def __init__(self, text):
        self.clauses = {}
        name = None
        for block in re.split(r"\n(?=abbrev |--|use |\n)", text):
            signature = re.match(r"abbrev (?:pub )?([\w']+) :", block)
            if not signature:
                continue
            name = signature[1]
            for clause in re.findall(rf"^{re.escape(name)}( [^=\n]*)? =(.*(?:\n .*)*)", block, re.M):
                self.clauses.setdefault(name, []).append((self.patterns(clause[0]), Reader(clause[1]).term()))

    def patterns(self, text):
        reader = Reader(text)
        found = []
        while reader.peek() is not None:
            found.append(reader.atom())
        return found

    def value(self, term, bound):
        if isinstance(term, int):
            return term
        if term[0] == "record":
            return {name: self.value(field, bound) for name, field in term[1].items()}
        if term[0] == "name":
            return self.named(term[1], [], bound)
        parts = [self.value(part, bound) for part in term[2]]
        if term[1] == "∷":
            return [parts[0]] + parts[1]
        if term[1] == "+":
            return parts[0] + parts[1]
        if term[1] == "^":
            return parts[0] ** parts[1]
        return self.named(term[1][1], parts, bound)

    def named(self, name, parts, bound):
        if name in bound and not parts:
            return bound[name]
        if name == "[]":
            return []
        for patterns, body in self.clauses.get(name, []):
            matched = self.matched(patterns, parts)
            if matched is not None:
                return self.value(body, matched)
        return (name, *parts)

    def matched(self, patterns, parts):
        bound = {}
        if len(patterns) != len(parts):
            return None
        for pattern, part in zip(patterns, parts):
            if pattern[0] == "apply":
                if part[0] != pattern[1][1]:
                    return None
                for inner, value in zip(pattern[2], part[1:]):
                    bound[inner[1]] = value
            elif pattern[1] in ("None", "true", "false"):
                if part != (pattern[1],):
                    return None
            else:
                bound[pattern[1]] = part
        return bound


# ---- trees as text

def place(n):
    return f"@{n - FAR}"


def spelled(name):
    return bytes(name).decode()


def last(name):
    return name.split(".")[-1]


def specifier(s):
    if s[0] == "specifier.Word":
        return last(s[2][0]).lower() + place(s[1])
    if s[0] == "specifier.Qualifier":
        return last(s[2][0]).lower() + place(s[1])
    raise ValueError(s[0])


def specifiers(ss):
    return "(specifiers" + "".join(" " + specifier(s) for s in ss) + ")"


def declarator(d):
    kind = last(d[0])
    if kind == "Name":
        return f"(name{place(d[1])} {spelled(d[2])})"
    if kind == "Omitted":
        return "omitted"
    if kind == "Pointer":
        if d[2]:
            raise ValueError("a qualifier of a pointer")
        return f"(pointer{place(d[1])} {declarator(d[3])})"
    if kind == "Function":
        parameters = "".join(" " + parameter(p) for p in d[3])
        return f"(function{place(d[1])} {declarator(d[2])} (parameters{parameters}))"
    raise ValueError(kind)


def parameter(p):
    return f"(parameter {specifiers(p['specifiers'])} {declarator(p['declarator'])})"


def expr(e):
    kind = last(e[0])
    at = place(e[1])
    if kind == "Integer":
        if e[2]["integer_type"] != ("integer_type.Int",):
            raise ValueError("a constant of another type")
        return f"(integer{at} {e[2]['value']})"
    if kind == "Character":
        return f"(character{at} {e[2][1]})"
    if kind == "Identifier":
        return f"(identifier{at} {spelled(e[2])})"
    if kind == "Parenthesized":
        return f"(parenthesized{at} {expr(e[2])})"
    if kind == "Subscript":
        return f"(subscript{at} {expr(e[2])} {expr(e[3])})"
    if kind == "Postfix":
        return f"(postfix{at} {UNARY[last(e[2][0])]} {expr(e[3])})"
    if kind == "Unary":
        return f"(unary{at} {UNARY[last(e[2][0])]} {expr(e[3])})"
    if kind == "Binary":
        return f"(binary{at} {BINARY[last(e[2][0])]} {expr(e[3])} {expr(e[4])})"
    if kind == "Assign" and e[2] == ("None",):
        return f"(assign{at} {expr(e[3])} {expr(e[4])})"
    if kind == "Cast":
        name = e[2]
        return f"(cast{at} (type {specifiers(name['specifiers'])} {declarator(name['declarator'])}) {expr(e[3])})"
    raise ValueError(kind)


def declared(d):
    if d["assembler_name"]:
        raise ValueError("a name for the assembler")
    end = ""
    if d["initializer"] != ("None",):
        end = f" (initializer {expr(d['initializer'][1][1])})"
    return f" (declared {declarator(d['declarator'])}{end})"


def stmt(s):
    kind = last(s[0])
    if kind == "Declared":
        return f"(declaration {specifiers(s[1]['specifiers'])}{''.join(map(declared, s[1]['declarators']))})"
    at = place(s[1])
    if kind == "Block":
        return f"(block{at}{''.join(' ' + stmt(x) for x in s[2])})"
    if kind == "Value":
        return f"(expression{at} {expr(s[2][1])})"
    if kind == "While":
        return f"(while{at} {expr(s[2])} {stmt(s[3])})"
    if kind == "If":
        negative = "" if s[4] == ("None",) else " " + stmt(s[4][1])
        return f"(if{at} {expr(s[2])} {stmt(s[3])}{negative})"
    if kind == "For":
        return f"(for{at} {expr(s[2][1][1])} {expr(s[3][1])} {expr(s[4][1])} {stmt(s[5])})"
    if kind == "Return":
        return f"(return{at} {expr(s[2][1])})"
    raise ValueError(kind)


def external(x):
    body = x[3]
    if x[0] != "external.Function" or body[0] != "body.Read":
        raise ValueError(x[0])
    return f"(function {specifiers(x[1])} {declarator(x[2])} {stmt(body[1])})"


# ---- the table

def texts(text):
    """The comment in front of each definition of an external declaration, as one line."""
    for comment in re.findall(r"((?:--.*\n)+)abbrev pub [\w']+ : External\n", text):
        yield " ".join(re.sub(r"^--\s*", "", line) for line in comment.splitlines())


def main():
    with open(sys.argv[1], encoding="utf-8") as file:
        text = file.read()
    for line in texts(text):
        print("> " + line)
    definitions = Definitions(text)
    for x in definitions.named("externals", [], {}):
        print(external(x))


main()
