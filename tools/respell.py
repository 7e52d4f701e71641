#!/usr/bin/env python3
"""Turns this repository's own names to one spelling: words in snake case, as the kit's library has them.

usage: tools/respell.py        at the top of the repository, once, after the kit's own port script

tools/respell.tsv has a row a name: old, a tab, new; a third column 'pages' marks a name that the port script has turned in the code, so that only pages and
must-fail edits still have the old one. Functions of src/, exported names, strings, inputs and outputs keep their names: no row has one of theirs.
"""
import os
import re

HERE = os.path.dirname(os.path.abspath(__file__))
ROOT = os.path.dirname(HERE)
WORD = re.compile(r'[^\s(){}.;,@"«»`]+')
SPAN = re.compile(r"`[^`\n]+`")


def table():
    code, pages = {}, {}
    with open(os.path.join(HERE, "respell.tsv"), encoding="utf-8") as rows:
        for row in rows:
            old, new, *rest = row.rstrip("\n").split("\t")
            pages[old] = new
            if not rest:
                code[old] = new
    return code, pages


def turned(text, names):
    return WORD.sub(lambda m: names.get(m.group(0), m.group(0)), text)


def prose(text, names):
    """Words with a capital inside are names wherever they stand; a word with a dash is one between back quotes alone."""
    camel = {k: v for k, v in names.items() if re.search("[A-Z]", k)}
    return SPAN.sub(lambda m: turned(m.group(0), names), turned(text, camel))


def code(text, names, mark):
    lines = []
    for line in text.split("\n"):
        parts = re.split(r'("(?:\\.|[^"\\])*")', line) if '"' in line else [line]
        out, comment = [], False
        for i, part in enumerate(parts):
            if i % 2 and not comment:
                out.append(part)
                continue
            at = -1 if comment else part.find(mark)
            if comment or at == 0 or (at > 0 and part[at - 1] in " ("):
                at = 0 if comment else at
                out.append(turned(part[:at], names) + prose(part[at:], names))
                comment = True
            else:
                out.append(turned(part, names))
        lines.append("".join(out))
    return "\n".join(lines)


def edit(text, names):
    """The texts of a wrong program: names, the operators' holes, and projections written tight."""
    lines = []
    for line in text.split("\n"):
        key = re.match(r"(old|new): ", line)
        if key:
            body = turned(line[5:], names)
            body = re.sub(r"(?<=\S) \.(?=[a-z0-9])", ".", body)
            line = key.group(0) + body
        lines.append(line)
    return "\n".join(lines)


def main():
    names, pages = table()
    in_source = {k: v for k, v in names.items() if re.search("[A-Z-]", k)}
    for folder, folders, files in os.walk(ROOT):
        folders[:] = [f for f in folders if f not in (".git", "out", "target", "samples", "tools")]
        for name in files:
            path = os.path.join(folder, name)
            kind = os.path.splitext(name)[1]
            if kind not in (".antt", ".rt", ".edit", ".md") or os.path.basename(path) == "PORT.md":
                continue
            with open(path, encoding="utf-8") as f:
                old = f.read()
            if kind == ".antt":
                new = code(old, names, "--")
            elif kind == ".rt":
                new = code(old, in_source, "//")
            elif kind == ".edit":
                new = edit(old, pages)
            else:
                new = SPAN.sub(lambda m: turned(m.group(0), pages), old)
            if new != old:
                with open(path, "w", encoding="utf-8") as f:
                    f.write(new)


if __name__ == "__main__":
    main()
