#!/usr/bin/env python3
"""Respells this repository's own definitions and lemmas by the table respell.tsv beside it: words in snake case; a lemma that would have its function's name ends in _lem.

usage: python3 tools/respell.py [--pages]     in the repository, once, after the port's scripts
It turns whole words of specs/, proofs/, the clauses and ghost items of src/ and the texts of must-fail/. In proofs/F/ a word that the file declares itself, and one
right behind a dot that has a dash, stay: those name goals and steps, which Rattle makes. A word of the table that is in snake case already is a lemma's: it turns in specs/ and proofs/ alone.
A name that a file takes from another library stays. With --pages it turns the code spans of README.md, docs/ and bench/ alone.
"""
import os
import re
import sys

ROOT = os.path.dirname(os.path.dirname(os.path.realpath(__file__)))
TABLE = dict(line.rstrip("\n").split("\t") for line in open(os.path.join(ROOT, "tools", "respell.tsv"), encoding="utf-8"))
WORD = re.compile(r'[^\s(){}.;,@"«»`]+')
SPAN = re.compile(r"`[^`\n]+`")
QUOTED = re.compile(r'"(?:[^"\\\n]|\\.)*"')
DECLARED = re.compile(r"^(?:abbrev |pub )*([^\s:(){}.;,]+) :", re.M)
LIBRARY = re.compile(r"^use (?!Rattle\.(?!std\b))[^\s{]+?\.\{([^}]*)\}", re.M)
IN_FUNCTION = ("Proof.antt", "Answers.antt", "Invariants.antt")


def snake(w):
    return "-" not in w and w == w.lower()


def turned(text, leave=(), dots=True, lemmas=False):
    """The text with its words respelled; `leave`: words that stay; without `dots`, a word with a dash right behind a dot stays; `lemmas`: also words in snake case."""

    def word(m):
        w = m[0]
        if w in leave or w not in TABLE:
            return w
        behind = m.start() and text[m.start() - 1] == "."
        if behind and (not dots and "-" in w or snake(w)) or snake(w) and not lemmas:
            return w
        return TABLE[w]

    return WORD.sub(word, text)


def comment(text):
    """A comment: words in camel case anywhere, those with a dash in code spans."""
    text = SPAN.sub(lambda m: turned(m[0]), text)
    return WORD.sub(lambda m: TABLE[m[0]] if m[0] in TABLE and "-" not in m[0] and not snake(m[0]) else m[0], text)


def lines(text, mark, code):
    """Line by line: code before the mark of a comment, prose behind it."""
    out = []
    for line in text.split("\n"):
        at = re.search(r"(?:^|(?<=\s))" + re.escape(mark) + r"(?=\s|$)", line)
        if at:
            out.append(code(line[: at.start()]) + comment(line[at.start() :]))
        else:
            out.append(code(line))
    return "\n".join(out)


def rust(part):
    kept = QUOTED.findall(part)
    words = turned(QUOTED.sub('""', part))
    for k in kept:
        words = words.replace('""', k, 1)
    return words


def new_text(path, text):
    name = os.path.basename(path)
    library = {item.split(" as ")[0].strip() for items in LIBRARY.findall(text) for item in items.split(",")}
    if name in IN_FUNCTION and os.path.basename(os.path.dirname(path)) not in ("specs", "proofs"):
        own = set(DECLARED.findall(text)) | library
        return lines(text, "--", lambda part: turned(part, own, False, True))
    if name.endswith(".antt"):
        return lines(text, "--", lambda part: turned(part, library, lemmas=True))
    if name.endswith(".rt"):
        return lines(text, "//", rust)
    return "\n".join(turned(line) if line.startswith(("old:", "new:")) else comment(line) for line in text.split("\n"))


def main():
    pages = "--pages" in sys.argv
    count = 0
    for folder, dirs, files in os.walk(ROOT):
        dirs[:] = sorted(d for d in dirs if d not in ("out", ".git", "target", "port"))
        inside = os.path.relpath(folder, ROOT).split(os.sep)[0]
        for name in sorted(files):
            path = os.path.join(folder, name)
            if pages:
                if not name.endswith(".md") or inside not in (".", "docs", "bench") or name in ("PORT.md",):
                    continue
            elif inside != "crates" or not name.endswith((".antt", ".rt", ".edit")):
                continue
            old = open(path, encoding="utf-8").read()
            new = SPAN.sub(lambda m: turned(m[0]), old) if pages else new_text(path, old)
            if new != old:
                count += 1
                open(path, "w", encoding="utf-8").write(new)
    print(f"respell: {count} files")


main()
