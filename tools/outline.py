#!/usr/bin/env python3
"""Makes a copy of the repository for checking one crate before the crates below it are proved: each crate that is named
with `=` keeps its types, traits and definitions, and loses its functions and methods, but for those listed, whose bodies give
up, or stay where the error is `=` (`len:=`).

    tools/outline.py FOLDER CRATE[=CALL:ERROR,..] ..

A crate without `=` is copied as it stands. The order doesn't matter; crates.txt of the copy has the crates that were
named, and of each the libraries that were. Lemmas (proofs/) are left out of an outline that hasn't
`lemmas:=` among its calls. For instance, to check `replayer`:

    tools/outline.py /tmp/root plain_data plain_data .. core_units=core_of:AllocError acceptance replayer

and then `rt check` in /tmp/root/crates/replayer. An outline proves nothing of its crate: what is checked over it is proved
only as far as the contracts of the calls that give up are kept by the crate itself.
"""

import os
import re
import shutil
import sys

HERE = os.path.dirname(os.path.dirname(os.path.abspath(__file__)))
# Traits whose implementations types need; of any other trait an outline has none.
KEPT_TRAITS = {"Model", "Clone", "Copy", "Drop", "From", "PartialEq", "Eq", "HasName"}
INHERENT = re.compile(r"impl\s*(<[^{]*>)?\s*\w+(<[^{]*>)?\s*\{")
FUNCTION = re.compile(r"(?:pub(?:\([a-z]+\))? )?(?:const )?fn (\w+)")


def head(item):
    """An item without its comments and attributes."""
    return re.sub(r"(?m)^\s*(//.*|#\[.*)$", "", item).strip()


def body_start(item):
    """Where the last group in braces of an item begins."""
    depth = 0
    for at in range(len(item.rstrip()) - 1, -1, -1):
        depth += {"}": 1, "{": -1}.get(item[at], 0)
        if item[at] == "{" and depth == 0:
            return at
    raise ValueError(item)


def skipped(text, at):
    """The end of a comment, text or character constant that begins here, or None."""
    if text.startswith("//", at):
        return max(text.find("\n", at), at + 2)
    literal = re.compile(r'"(?:[^"\\]|\\.)*"|\'(?:\\.[^\']*|[^\'\\])\'', re.S).match(text, at)
    return literal.end() if literal else None


def items(text):
    """The items of a file, with the comments before them. A function's group in braces is its body where the line that it
    begins on has nothing before it; else it is a clause."""
    start = at = depth = 0
    while at < len(text):
        end = skipped(text, at)
        if end:
            at = end
            continue
        depth += {"{": 1, "(": 1, "[": 1, "}": -1, ")": -1, "]": -1}.get(text[at], 0)
        if depth == 0 and text[at] in "};" and is_end(text, start, at):
            yield text[start:at + 1]
            start = at + 1
        at += 1
    yield text[start:]


def is_end(text, start, at):
    if text[at] == ";":
        return True
    item, rest = text[start:at + 1], text[at + 1:].lstrip()
    top = head(item)
    if rest.startswith(";") or top.startswith(("use", "pub use", "ghost use")):
        return False
    if not FUNCTION.match(top):
        return True
    opened = body_start(item)
    line = item[item.rfind("\n", 0, opened) + 1:opened]
    return line.strip() == "" or bool(re.search(r"->|\)\s*$", line)) and not re.search(r"\b(ensures|requires)\b", line)


def given_up(item, error):
    """A function whose body gives up with the error, or as it stands where the error is `=` or it answers no `Result`."""
    if error == "=" or "Result<" not in re.split(r"\b(?:requires|ensures)\b", item[:body_start(item)])[0]:
        return item
    front = re.sub(r"#\[(?:tactic|cycle)\(.*?\)\]\n", "", item[:body_start(item)])
    return f"{front}{{\n    Err({error})\n}}"


def methods(item, calls):
    """An `impl` of a type's own methods, with those of the calls alone; nothing where it has none."""
    opened = re.search(INHERENT, item).end()
    found = [it for it in items(item[opened:item.rindex("}")]) if FUNCTION.match(head(it))]
    kept = [given_up(it, calls[FUNCTION.match(head(it))[1]]) for it in found if FUNCTION.match(head(it))[1] in calls]
    return item[:opened] + "".join(kept) + "\n}" if kept else ""


def outlined(text, calls, is_root):
    """A file's types, traits and kept calls."""
    if is_root:
        return imports(text.replace("#[cfg(test)]\nmod tests;\n", ""), calls, True)
    kept = []
    for item in items(text):
        top = head(item)
        function = FUNCTION.match(top)
        trait = re.match(r"impl(?:<.*?>)? ?([\w:]+)(?:<[^{]*>)? for ", top)
        if function:
            if function[1] in calls:
                kept.append(given_up(item, calls[function[1]]))
        elif trait:
            if trait[1].split("::")[-1] in KEPT_TRAITS:
                kept.append(item)
        elif re.match(INHERENT, top):
            kept.append(methods(item, calls))
        else:
            kept.append(item)
    return imports("".join(kept), calls, False)


def called_in(text):
    """The names in the bodies of a file's functions and methods."""
    called = set()
    for item in items(text):
        top = head(item)
        if FUNCTION.match(top):
            called |= set(re.findall(r"\w+", re.sub(r"//.*", "", item[body_start(item):])))
        elif top.startswith("impl") and "{" in item:
            called |= called_in(item[item.index("{") + 1:item.rindex("}")])
    return called


def imports(text, calls, is_root):
    """The file without the imports of functions that nothing in it calls."""
    called = set() if is_root else called_in(text)

    def is_kept(name):
        return name != name.lower() or is_root and name in calls or name in called

    def one(found):
        before, path, names = found[1] or "", found[2], found[3]
        if path.startswith(("std", "core::")):
            return found[0]
        names = [name.strip() for name in names.strip("{}").split(",") if name.strip()]
        kept = [name for name in names if is_kept(name)]
        return f"{before}use {path}::{{{', '.join(kept)}}};" if kept else ""
    return re.sub(r"(?m)^(pub(?:\([a-z]+\))? )?use ([a-z_0-9:]+)::(\{[^}]*\}|\w+);", one, text)


def copied(name, folder):
    for part in ("src", "specs", "proofs"):
        if os.path.isdir(f"{HERE}/crates/{name}/{part}"):
            shutil.copytree(f"{HERE}/crates/{name}/{part}", f"{folder}/{part}")


def outline(name, calls, folder):
    if os.path.isdir(f"{HERE}/crates/{name}/specs"):
        shutil.copytree(f"{HERE}/crates/{name}/specs", f"{folder}/specs")
    top = f"{HERE}/crates/{name}/src"
    for at, _, files in os.walk(top):
        for file in files:
            if file == "tests.rt":
                continue
            path = os.path.relpath(f"{at}/{file}", top)
            os.makedirs(os.path.dirname(f"{folder}/src/{path}"), exist_ok=True)
            with open(f"{at}/{file}", encoding="utf-8") as source, open(f"{folder}/src/{path}", "w", encoding="utf-8") as made:
                made.write(outlined(source.read(), calls, path == "lib.rt"))


def lemmas(name, folder, whole):
    """Copies the files of lemmas, and of the answers of functions, which stand in folders, those of the whole ones."""
    top = f"{HERE}/crates/{name}/proofs"
    if not os.path.isdir(top):
        return
    os.makedirs(f"{folder}/proofs", exist_ok=True)
    for file in os.listdir(top):
        if file.endswith(".antt"):
            shutil.copy(f"{top}/{file}", f"{folder}/proofs/{file}")
    for at, _, _ in os.walk(top):
        if os.path.basename(at) in whole:
            shutil.copytree(at, f"{folder}/proofs/{os.path.relpath(at, top)}", dirs_exist_ok=True)


def main():
    root, named = sys.argv[1], dict(word.partition("=")[::2] for word in sys.argv[2:])
    outlines = {word.partition("=")[0] for word in sys.argv[2:] if "=" in word}
    os.makedirs(f"{root}/crates", exist_ok=True)
    for name, calls in named.items():
        folder = f"{root}/crates/{name}"
        for part in ("src", "specs", "proofs"):
            shutil.rmtree(f"{folder}/{part}", ignore_errors=True)
        if name in outlines:
            kept = dict(call.split(":", 1) for call in calls.split(",") if call)
            outline(name, kept, folder)
            if "lemmas" in kept:
                lemmas(name, folder, {call for call, error in kept.items() if error == "="})
        else:
            copied(name, folder)
    with open(f"{HERE}/crates.txt", encoding="utf-8") as file:
        lines = [line.strip().partition(": ") for line in file if not line.startswith("#")]
    every = {name.rstrip(":") for name, _, _ in lines}
    with open(f"{root}/crates.txt", "w", encoding="utf-8") as file:
        for name, _, below in lines:
            if name.rstrip(":") in named:
                below = " ".join(it for it in below.split() if it in named or it not in every)
                file.write(f"{name.rstrip(':')}: {below}\n")
    shutil.copy(f"{HERE}/HANDLES", f"{root}/HANDLES")
    os.makedirs(f"{root}/.git", exist_ok=True)


main()
