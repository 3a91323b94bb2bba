#!/usr/bin/env python3
"""Brings the names of this repository's own definitions and lemmas to snake case.

usage: python3 tools/snake_names.py      at the top, once, after the kit's own script

It reads crates/**/*.antt, *.rt and *.edit. A part of a name (parts are joined by dashes) such as `pathOf` becomes
`path_of`, and the part `getD` becomes `get_or`, as the library spells it now. In a definition of specs/ (`abbrev pub` or
`unfoldable pub`) a dash becomes `_` too; in the names of lemmas and of a record's parts it stays. Strings stay, and so does
every name that begins with a capital. In *.rt and *.edit only names that some *.antt file has are turned.
"""
import os
import re

WORD = re.compile(r"(?<![\w«])[a-z][a-z0-9]*(?:[A-Z][a-z0-9]*)+(?![\w»])")
DASHED = re.compile(r"^(?:abbrev|unfoldable) pub ([a-z]\w*(?:-\w+)+) :", re.M)
NAME = re.compile(r"(?<![\w'«-])[a-z]\w*(?:-\w+)+(?![\w'»-])")
TEXT = re.compile(r'b?"(?:[^"\\]|\\.)*"', re.S)
NEW = {"getD": "get_or"}


def files(kind):
    for folder, dirs, names in os.walk("crates"):
        dirs[:] = sorted(d for d in dirs if d != "out")
        for name in sorted(names):
            if name.endswith(kind):
                yield os.path.join(folder, name)


def parts(text):
    """The text as pieces, each with whether it is a string."""
    at = 0
    for m in TEXT.finditer(text):
        yield text[at : m.start()], False
        yield m.group(), True
        at = m.end()
    yield text[at:], False


def snake(name):
    return NEW.get(name) or re.sub("[A-Z]", lambda m: "_" + m.group().lower(), name)


def main():
    own, dashed = set(), set()
    for path in files(".antt"):
        with open(path, encoding="utf-8") as f:
            text = f.read()
        if "/specs/" in path:
            dashed.update(DASHED.findall(text))
        for piece, string in parts(text):
            if not string:
                own.update(WORD.findall(piece))
    for path in files((".antt", ".rt", ".edit")):
        with open(path, encoding="utf-8") as f:
            old = f.read()
        whole = lambda m: m.group().replace("-", "_") if m.group() in dashed else m.group()
        part = lambda m: snake(m.group()) if m.group() in own else m.group()
        new = "".join(piece if string else WORD.sub(part, NAME.sub(whole, piece)) for piece, string in parts(old))
        if new != old:
            with open(path, "w", encoding="utf-8") as f:
                f.write(new)
    print(len(own | dashed), "names:", " ".join(sorted(own | dashed)))


if __name__ == "__main__":
    main()
