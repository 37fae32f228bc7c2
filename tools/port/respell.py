#!/usr/bin/env python3
"""Spells the repository's own definitions, lemmas and fields in snake case, as today's Rattle has them.

usage: tools/port/respell.py      at the top of the repository, once, after the kit's port.py

What turns: a name that some .antt file of crates/ declares, and a variable's name, if it has a capital behind a small letter
(solveWeld: solve_weld) or a dash (one-body-twice: one_body_twice). A dashed name that would then be spelled as another name of
a file that has both ends in _lem. Names that no file of the repository declares and that have no capital stay, as do types.
Where: all of an .antt file; of an .rt file the `ghost use` items and the clauses; of comments, docs/ and the README the code spans,
and outside them the names with a capital.
"""

import os
import re
import sys

WORD = re.compile(r'[^\s(){}.;,@"«»\[\]`]+')
DECLARED = re.compile(r"^ *(?:(?:abbrev|pub|unfoldable|record|data) )*([^\s(){}.;,@\"«»]+)(?: \{[^{}]*\}| \([^()]*\))* :(?: |$)")
CAMEL = re.compile(r"^[a-z][A-Za-z0-9'₀-₉]*[A-Z][A-Za-z0-9'₀-₉]*(?:-.*)?$")
COMMENT = re.compile(r"(^|\s)--.*$")
SPAN = re.compile(r"`[^`\n]+`")
CLAUSE = re.compile(r"(?:\brequires|\bensures)\*? *(?:\w+ *)?\{")


def snake(name):
    return re.sub(r"(?<=[a-z0-9])([A-Z])", lambda m: "_" + m[0].lower(), name).replace("-", "_")


def files(top, *endings):
    for folder, folders, names in os.walk(top):
        folders[:] = sorted(f for f in folders if f not in ("out", ".git"))
        for name in sorted(names):
            if name.endswith(endings):
                yield os.path.join(folder, name)


def read(path):
    with open(path, encoding="utf-8") as f:
        return f.read()


def words_of(text):
    return {w for line in text.split("\n") for w in WORD.findall(COMMENT.sub("", line))}


def table_of(texts):
    declared, all_words = set(), set()
    for text in texts:
        all_words |= words_of(text)
        for line in text.split("\n"):
            m = DECLARED.match(COMMENT.sub("", line))
            if m:
                declared.add(m[1])
    turned = {w for w in all_words if CAMEL.match(w)}
    turned |= {w for w in declared if "-" in w and re.match("[a-z]", w)}
    table = {w: snake(w) for w in turned}
    for text in texts:
        words = words_of(text)
        camel = {snake(w) for w in words & turned if CAMEL.match(w)}
        for w in words & turned:
            # a dashed name and another of one spelling, in one file: a definition, or a word of the library
            if "-" in w and not CAMEL.match(w) and (snake(w) in camel or is_called(text, snake(w))):
                table[w] = snake(w) + "_lem"
    return table


def is_called(text, name):
    """Whether the text has the name other than as a field behind a dot, a field of a record's value, or a part of a path."""
    return re.search(rf"(?<![\w.'-]){re.escape(name)}(?![\w.'-])(?! =)", "\n".join(COMMENT.sub("", s) for s in text.split("\n"))) is not None


def turn_words(text, table):
    return WORD.sub(lambda m: table.get(m[0], m[0]), text)


def turn_spans(text, table):
    return SPAN.sub(lambda m: turn_words(m[0], table), text)


def turn_prose(text, table):
    """Of a comment the code spans, and each name with a capital, which no English word has."""
    return turn_words(turn_spans(text, table), {w: new for w, new in table.items() if CAMEL.match(w)})


def turn_antt(text, table):
    out = []
    for line in text.split("\n"):
        m = COMMENT.search(line)
        at = m.start() if m else len(line)
        out.append(turn_words(line[:at], table) + turn_prose(line[at:], table))
    return "\n".join(out)


def clause_end(text, at):
    depth = 0
    for i in range(at, len(text)):
        depth += {"{": 1, "}": -1}.get(text[i], 0)
        if depth == 0:
            return i + 1
    return len(text)


def turn_rt(text, table):
    text = re.sub(r"ghost use [^;]*;", lambda m: turn_words(m[0], table), text)
    out, at = [], 0
    for m in CLAUSE.finditer(text):
        if m.start() < at:
            continue
        end = clause_end(text, m.end() - 1)
        out += [text[at : m.end()], turn_words(text[m.end() : end], table)]
        at = end
    text = "".join(out) + text[at:]
    return re.sub(r"//[^\n]*", lambda m: turn_prose(m[0], table), text)


def write(path, text):
    if text != read(path):
        with open(path, "w", encoding="utf-8") as f:
            f.write(text)


def main():
    paths = list(files("crates", ".antt"))
    table = table_of([read(p) for p in paths])
    for p in paths:
        write(p, turn_antt(read(p), table))
    for p in files("crates", ".rt"):
        write(p, turn_rt(read(p), table))
    for p in [*files("docs", ".md"), "README.md"]:
        write(p, turn_prose(read(p), table))
    if "--table" in sys.argv:
        for old in sorted(table):
            print(f"{old}\t{table[old]}")


main()
