"""Compares the syntax trees that `rows tree` prints with those of pycparser.

    trees.py PROGRAM FILE..

Both are brought to one form, which forgets what pycparser does not keep: parentheses, the order of specifiers of different
kinds, which declarators share their specifiers, trailing commas, the pieces of string literals, and whether a case has
the statements behind it. A line is printed for each file whose trees differ, and the exit status is then 1.
"""

import re
import subprocess
import sys

from pycparser import c_ast, c_parser

STORAGE = {"typedef", "extern", "static", "auto", "register"}
QUALIFIERS = {"const", "restrict", "volatile"}


# ---- the text of trees

def nested(text):
    """The nodes that a text writes, as nested lists of words."""
    stack = [[]]
    for word in re.findall(r'"[^"]*"|[()]|[^\s()"]+', text):
        if word == "(":
            stack.append([])
        elif word == ")":
            last = stack.pop()
            stack[-1].append(last)
        else:
            stack[-1].append(word)
    return stack[0]


def bytes_of(quoted):
    """The bytes of a literal, whose unprintable bytes are written in hexadecimal."""
    return re.sub(r"\\x([0-9a-f]{2})", lambda m: chr(int(m[1], 16)), quoted[1:-1])


def sorted_specifiers(words):
    """Specifiers by kind, each kind in order."""
    kinds = {"storage": [], "function": [], "qualifiers": [], "types": []}
    for word in words:
        if not isinstance(word, str):
            kinds["types"].append(specifier(word))
        elif word in STORAGE:
            kinds["storage"].append(word)
        elif word == "inline":
            kinds["function"].append(word)
        elif word in QUALIFIERS:
            kinds["qualifiers"].append(word)
        else:
            kinds["types"].append(word)
    return list(kinds.values())


def specifier(node):
    word, rest = node[0], node[1:]
    if word == "typedef-name":
        return rest[0]
    tag = rest.pop(0) if isinstance(rest[0], str) else None
    if not rest:
        return [word, tag]
    listed = rest[0][1:]
    if word == "enum":
        return [word, tag, [[e[1]] + [expression(v) for v in e[2:]] for e in listed]]
    return [word, tag, [f for fields in listed for f in field_list(fields)]]


def field_list(node):
    specifiers, fields = sorted_specifiers(node[1][1:]), node[2:]
    out = [[specifiers, *field(f)] for f in fields]
    return out or [[specifiers, None, [], None]]


def field(node):
    if node[0] != "bits":
        return [*declarator(node), None]
    name, chain = declarator(node[1]) if len(node) == 3 else (None, [])
    return [name, chain, expression(node[-1])]


def declarator(node):
    """The declared name and how its type is derived, from the name outwards."""
    if node == "omitted":
        return None, []
    word = node[0]
    if word == "name":
        return node[1], []
    if word == "grouped":
        return declarator(node[1])
    if word == "pointer":
        name, chain = declarator(node[-1])
        return name, chain + [["pointer", node[1:-1]]]
    name, chain = declarator(node[1])
    if word == "array":
        words = [w for w in node[2:] if isinstance(w, str)]
        length = [expression(e) for e in node[2:] if not isinstance(e, str)]
        return name, chain + [["array", words, length]]
    return name, chain + [["function", [parameter(p) for p in node[2][1:]]]]


def parameter(node):
    if node == "...":
        return node
    return [sorted_specifiers(node[1][1:]), *declarator(node[2])]


def type_name(node):
    return [sorted_specifiers(node[1][1:]), declarator(node[2])[1]]


def operands_of_comma(node):
    while node[0] == "parenthesized":
        node = node[1]
    if node[0] != "comma":
        return [expression(node)]
    return operands_of_comma(node[1]) + [expression(node[2])]


def expression(node):
    word = node[0]
    if word == "parenthesized":
        return expression(node[1])
    if word == "comma":
        return ["comma"] + operands_of_comma(node)
    if word == "string":
        return ["string", "".join(bytes_of(p) for p in node[1:])]
    if word == "integer":
        return ["integer", int(node[1]), node[2] if len(node) == 3 else "int"]
    if word == "character":
        return ["character", int(node[1])]
    if word == "sizeof-type":
        return ["sizeof-type", type_name(node[1])]
    if word == "cast":
        return ["cast", type_name(node[1]), expression(node[2])]
    if word == "assign" and len(node) == 4:
        return ["assign", node[1] + "=", expression(node[2]), expression(node[3])]
    if word == "assign":
        return ["assign", "=", expression(node[1]), expression(node[2])]
    return [word] + [part if isinstance(part, str) else expression(part) for part in node[1:]]


def initializer(node):
    if node[0] == "list":
        return ["list"] + [initializer(item) for item in node[1:] if item != "trailing"]
    if node[0] == "designated":
        return ["designated", [designator(d) for d in node[1:-1]], initializer(node[-1])]
    return expression(node)


def designator(node):
    if node[0] == "dot":
        return ["identifier", node[1]]
    return expression(node[1])


def declarations(node):
    """A declaration for each declarator."""
    specifiers = sorted_specifiers(node[1][1:])
    out = []
    for declared in node[2:]:
        value = [initializer(part[1]) for part in declared[2:] if part[0] == "initializer"]
        out.append(["declaration", specifiers, *declarator(declared[1]), value])
    return out or [["declaration", specifiers, None, [], []]]


def statements(nodes):
    return [s for node in nodes for s in statement_list(node)]


def statement_list(node):
    return declarations(node) if node[0] == "declaration" else [statement(node)]


def start_of(node):
    if node == "none":
        return None
    return declarations(node) if node[0] == "declaration" else expression(node)


def statement(node):
    word, rest = node[0], node[1:]
    if word == "block":
        return ["block", statements(rest)]
    if word == "for":
        return ["for", *map(start_of, rest[:3]), statement(rest[3])]
    if word == "do":
        return ["do", statement(rest[0]), expression(rest[1])]
    if word in ("label", "goto"):
        return [word, rest[0]] + [statement(s) for s in rest[1:]]
    if word == "default":
        return ["default", statement(rest[0])]
    if word in ("expression", "return", "case", "if", "switch", "while"):
        return [word] + [expression(e) for e in rest[:1]] + [statement(s) for s in rest[1:]]
    return node


def external(node):
    if node[0] == "declaration":
        return declarations(node)
    if node[0] == "empty":
        return []
    return [["function", sorted_specifiers(node[1][1:]), *declarator(node[2]), statement(node[3])]]


def tree_of_text(text):
    return [e for line in nested(text) for e in external(line)]


# ---- the trees of pycparser

ESCAPES = {"a": 7, "b": 8, "f": 12, "n": 10, "r": 13, "t": 9, "v": 11}
INTEGER_TYPES = [("int", 31), ("unsigned", 32), ("long", 63), ("unsigned-long", 64)]


def unescaped(text):
    """The characters of a literal without its quotes (C99 6.4.4.4)."""
    def of_escape(match):
        body = match[1]
        if body[0] == "x":
            return chr(int(body[1:], 16))
        return chr(int(body, 8)) if body[0] in "01234567" else chr(ESCAPES.get(body, ord(body)))
    return re.sub(r"\\(x[0-9a-fA-F]+|[0-7]{1,3}|.)", of_escape, text)


def integer(text):
    """An integer constant's value and type (C99 6.4.4.1), with long long as wide as long."""
    digits = text.rstrip("uUlL")
    suffix = text[len(digits):].lower()
    is_decimal = digits[0] != "0" or digits == "0"
    value = int(digits, 16) if digits[:2].lower() == "0x" else int(digits, 10 if is_decimal else 8)
    longs = suffix.count("l")
    if longs == 2:
        types = [("long-long", 63), ("unsigned-long-long", 64)]
    else:
        types = INTEGER_TYPES[2 * longs:]
    if "u" in suffix:
        types = [t for t in types if t[0].startswith("unsigned")]
    elif is_decimal:
        types = [t for t in types if not t[0].startswith("unsigned")]
    return ["integer", value, next(name for name, bits in types if value < 1 << bits)]


def constant(node):
    if node.type == "string":
        return ["string", unescaped(node.value[1:-1])]
    if node.type == "char":
        code = ord(unescaped(node.value[1:-1]))
        return ["character", code - 256 if code > 127 else code]
    if node.type in ("float", "double", "long double"):
        return ["floating"]
    return integer(node.value)


def py_specifiers(node, storage=(), function=()):
    """The specifiers at the end of a type's chain."""
    if isinstance(node, c_ast.TypeDecl):
        qualifiers, node = node.quals, node.type
    else:
        qualifiers = []
    if isinstance(node, c_ast.IdentifierType):
        types = node.names
    elif isinstance(node, c_ast.Enum):
        listed = node.values
        types = [["enum", node.name] + ([[py_enumerator(e) for e in listed.enumerators]] if listed else [])]
    else:
        word = "struct" if isinstance(node, c_ast.Struct) else "union"
        types = [[word, node.name] + ([] if node.decls is None else [[py_field(d) for d in node.decls]])]
    return [list(storage), list(function), list(qualifiers), list(types)]


def py_enumerator(node):
    return [node.name] + ([py_expression(node.value)] if node.value else [])


def py_field(node):
    specifiers, name, chain = py_declared(node)
    return [specifiers, name, chain, py_expression(node.bitsize) if node.bitsize else None]


def py_declared(node):
    """Specifiers, name and derivation of a Decl or a Typename."""
    chain, at = [], node.type
    while isinstance(at, (c_ast.PtrDecl, c_ast.ArrayDecl, c_ast.FuncDecl)):
        if isinstance(at, c_ast.PtrDecl):
            chain.append(["pointer", list(at.quals)])
        elif isinstance(at, c_ast.ArrayDecl):
            chain.append(["array", list(at.dim_quals), [py_expression(at.dim)] if at.dim else []])
        else:
            chain.append(["function", [py_parameter(p) for p in at.args.params] if at.args else []])
        at = at.type
    specifiers = py_specifiers(at, getattr(node, "storage", ()), getattr(node, "funcspec", ()))
    return specifiers, node.name, chain


def py_parameter(node):
    return "..." if isinstance(node, c_ast.EllipsisParam) else list(py_declared(node))


def py_type_name(node):
    specifiers, _, chain = py_declared(node)
    return [specifiers, chain]


def py_unary(node):
    if node.op == "sizeof" and isinstance(node.expr, c_ast.Typename):
        return ["sizeof-type", py_type_name(node.expr)]
    if node.op == "sizeof":
        return ["sizeof", py_expression(node.expr)]
    if node.op[0] == "p":
        return ["postfix", node.op[1:], py_expression(node.expr)]
    return ["unary", node.op, py_expression(node.expr)]


def py_comma(node):
    out = []
    for item in node.exprs:
        out += py_comma(item) if not out and isinstance(item, c_ast.ExprList) else [py_expression(item)]
    return out


def py_expression(node):
    kind = type(node).__name__
    if kind == "Constant":
        return constant(node)
    if kind == "ID":
        return ["function-name"] if node.name == "__func__" else ["identifier", node.name]
    if kind == "ArrayRef":
        return ["subscript", py_expression(node.name), py_expression(node.subscript)]
    if kind == "FuncCall":
        arguments = node.args.exprs if node.args else []
        return ["call", py_expression(node.name)] + [py_expression(a) for a in arguments]
    if kind == "StructRef":
        return ["member" if node.type == "." else "arrow", py_expression(node.name), node.field.name]
    if kind == "UnaryOp":
        return py_unary(node)
    if kind == "Cast":
        return ["cast", py_type_name(node.to_type), py_expression(node.expr)]
    if kind == "BinaryOp":
        return ["binary", node.op, py_expression(node.left), py_expression(node.right)]
    if kind == "TernaryOp":
        return ["conditional"] + [py_expression(e) for e in (node.cond, node.iftrue, node.iffalse)]
    if kind == "Assignment":
        return ["assign", node.op, py_expression(node.lvalue), py_expression(node.rvalue)]
    if kind == "ExprList":
        return ["comma"] + py_comma(node)
    raise ValueError(kind)


def py_initializer(node):
    if isinstance(node, c_ast.InitList):
        return ["list"] + [py_initializer(item) for item in node.exprs]
    if isinstance(node, c_ast.NamedInitializer):
        return ["designated", [py_expression(d) for d in node.name], py_initializer(node.expr)]
    return py_expression(node)


def py_declaration(node):
    value = [py_initializer(node.init)] if getattr(node, "init", None) else []
    return ["declaration", *py_declared(node), value]


def flat_items(items):
    """A block's statements, where a case has the one behind it again: pycparser gives it all up to the next case."""
    out = []
    for item in items:
        out.append(item)
        if isinstance(item, (c_ast.Case, c_ast.Default)):
            out += flat_items(item.stmts)
    return out


def py_items(items):
    rest, out = flat_items(items or []), []
    while rest:
        out.append(py_next(rest))
    return out


def py_next(rest):
    """The statement at the front, which is taken."""
    node = rest.pop(0)
    if isinstance(node, c_ast.Case):
        return ["case", py_expression(node.expr), py_next(rest)]
    if isinstance(node, c_ast.Default):
        return ["default", py_next(rest)]
    if isinstance(node, c_ast.Label):
        inner = flat_items([node.stmt])
        body = py_next(inner)
        rest[:0] = inner
        return ["label", node.name, body]
    return py_statement(node)


def py_start(node):
    if isinstance(node, c_ast.DeclList):
        return [py_declaration(d) for d in node.decls]
    return py_expression(node) if node else None


def py_body(node):
    """A statement that stands by itself."""
    return py_next(flat_items([node]))


def py_statement(node):
    kind = type(node).__name__
    if kind == "Compound":
        return ["block", py_items(node.block_items)]
    if kind in ("Decl", "Typedef"):
        return py_declaration(node)
    if kind == "EmptyStatement":
        return ["expression"]
    if kind == "If":
        parts = [py_body(s) for s in (node.iftrue, node.iffalse) if s]
        return ["if", py_expression(node.cond)] + parts
    if kind in ("Switch", "While"):
        return [kind.lower(), py_expression(node.cond), py_body(node.stmt)]
    if kind == "DoWhile":
        return ["do", py_body(node.stmt), py_expression(node.cond)]
    if kind == "For":
        heads = [py_start(e) for e in (node.init, node.cond, node.next)]
        return ["for", *heads, py_body(node.stmt)]
    if kind == "Goto":
        return ["goto", node.name]
    if kind in ("Continue", "Break"):
        return [kind.lower()]
    if kind == "Return":
        return ["return"] + ([py_expression(node.expr)] if node.expr else [])
    return ["expression", py_expression(node)]


# A comment, or a literal, in which no comment begins.
COMMENT_OR_LITERAL = re.compile(r"""/\*.*?\*/|//[^\n]*|"(?:\\.|[^"\\])*"|'(?:\\.|[^'\\])*'""", re.DOTALL)


# The source with a space for each comment, as C99 5.1.1.2 has it: pycparser reads none.
def without_comments(source):
    return COMMENT_OR_LITERAL.sub(lambda found: " " if found[0][0] == "/" else found[0], source)


def tree_of_pycparser(source):
    out = []
    for node in c_parser.CParser().parse(without_comments(source)).ext:
        if isinstance(node, c_ast.FuncDef):
            out.append(["function", *py_declared(node.decl), py_statement(node.body)])
        else:
            out.append(py_declaration(node))
    return out


# ---- comparison

def first_difference(ours, theirs):
    for a, b in zip(ours, theirs):
        if a != b:
            return a, b
    return len(ours), len(theirs)


def is_same(program, path):
    with open(path, encoding="latin-1") as file:
        source = file.read()
    answer = subprocess.run([program, "tree"], input=source.encode("latin-1"), capture_output=True, check=False)
    ours = tree_of_text(answer.stdout.decode("latin-1"))
    theirs = tree_of_pycparser(source)
    if ours == theirs and answer.returncode == 0:
        return True
    a, b = first_difference(ours, theirs)
    print(f"trees: {path}: status {answer.returncode}\n  ours   {a}\n  theirs {b}")
    return False


def main():
    program, *paths = sys.argv[1:]
    return 0 if all([is_same(program, path) for path in paths]) else 1


if __name__ == "__main__":
    sys.exit(main())
