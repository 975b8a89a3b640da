#!/usr/bin/env python3
"""Brings the names of this repository's own definitions and lemmas to today's spelling: words in snake case, types in camel case.

Run once, at the top of the checkout, after the kit's port.py. A name that is declared in specs/ or in a file of lemmas is respelled
wherever it stands as a whole word: in the antt files, in the clauses of src/, in must-fail edits, and between backticks in comments and
pages. A name that Rattle made of a source name with dashes (serve-in) gets the source's spelling (serve_in). Code, strings and the names
of the kit's library stay. Two names that would fall together: the lemma ends in _lem.

    tools/respell.py [--list]     --list prints the names, old and new, and changes nothing
"""
import os
import re
import sys

WORD = re.compile(r"(?<![\w'\-])[A-Za-z_][\w'\-]*[\w']|(?<![\w'\-])[A-Za-z_]")
DECLARED = re.compile(r"^\s*(?:(?:pub|abbrev|unfoldable|data|record|infix[lr]?)\s+)*([^\s():;,{}.]+)((?: [^\s():;,{}.]+)*) :(?= |$)", re.M)


# A field of a record: it falls together with a definition's name, and the two never stand in one scope.
KEPT = {"same_inputs"}


def files(suffixes):
    for folder, dirs, names in os.walk("."):
        dirs[:] = sorted(d for d in dirs if d not in ("out", ".git", "target"))
        for n in sorted(names):
            if n.endswith(suffixes):
                yield os.path.join(folder, n)


def read(path):
    with open(path, encoding="utf-8") as f:
        return f.read()


def without_comments(text, mark):
    return re.sub(re.escape(mark) + ".*", "", text)


def snake(name):
    name = re.sub(r"([a-z0-9'])([A-Z])", r"\1_\2", name)
    name = re.sub(r"([A-Z])([A-Z][a-z])", r"\1_\2", name)
    return name.replace("-", "_").lower()


def spelled(name):
    """A type or a fact begins with a capital and stays in camel case; all else is in snake case."""
    if name[0].isupper():
        parts = name.split("-")
        return "".join(p[:1].upper() + p[1:] for p in parts)
    return snake(name)


def names():
    own, library, source = {}, set(), set()
    for p in files((".antt",)):
        text = without_comments(read(p), "--")
        for m in re.finditer(r"^use (.*)$", text, re.M):
            if not re.match(r"Rattle\.(?!std\b|core\b)", m.group(1)):
                library.update(WORD.findall(m.group(1)))
        if "/specs/" in p or ("/proofs/" in p and not re.search(r"/Proof(\.antt|/)", p)):
            for m in DECLARED.finditer(text):
                for n in (m.group(1) + m.group(2)).split():
                    if WORD.fullmatch(n):
                        own.setdefault(n, p)
    for p in files((".rt",)):
        source.update(re.findall(r"\b[a-z]\w*_\w+\b", without_comments(read(p), "//")))
    respelled = {n: spelled(n) for n in own if n not in library and spelled(n) != n}
    # Where two fall together, a definition in camel case takes the plain name, and the other, which is a lemma, ends in _lem.
    taken = {}
    for n in sorted(own, key=lambda n: (not re.search("[A-Z]", n), "-" in n, n)):
        if n not in library and n not in KEPT:
            if taken.get(spelled(n), n) != n:
                respelled[n] = spelled(n) + "_lem"
            taken.setdefault(spelled(n), n)
    for n in source:
        respelled.setdefault(n.replace("_", "-"), n)
    return respelled


def turn(text, respelled):
    """In the path of an import the parts are modules: functions of src/ among them, and never lemmas."""
    path = re.match(r"use ([^{\s]*)", text)
    if path:
        return "use " + WORD.sub(lambda m: re.sub("_lem$", "", respelled.get(m.group(0), m.group(0))), path.group(1)) + turn(text[path.end() :], respelled)
    return WORD.sub(lambda m: respelled.get(m.group(0), m.group(0)), text)


def turn_commented(text, mark, respelled):
    lines = []
    for line in text.split("\n"):
        code, found, comment = line.partition(mark)
        if mark == "//" and '"' in code:
            parts = re.split(r'("(?:[^"\\]|\\.)*")', line)
            lines.append("".join(p if p.startswith('"') else turn(p, respelled) for p in parts))
            continue
        lines.append(turn(code, respelled) + found + turn_ticks(comment, respelled))
    return "\n".join(lines)


def turn_ticks(text, respelled):
    return re.sub(r"`[^`\n]+`", lambda m: turn(m.group(0), respelled), text)


def main():
    respelled = names()
    if "--list" in sys.argv:
        for n in sorted(respelled):
            print(n, respelled[n])
        return
    for p in files((".antt", ".rt", ".edit", ".md")):
        text = read(p)
        if p.endswith(".antt"):
            new = turn_commented(text, "--", respelled)
        elif p.endswith(".rt"):
            new = turn_commented(text, "//", {n: new for n, new in respelled.items() if "-" in n or n != n.lower()})
        elif p.endswith(".edit"):
            new = re.sub(r"(?m)^(?:old|new):.*$", lambda m: turn(m.group(0), respelled), text)
        else:
            new = turn_ticks(text, respelled)
        if new != text:
            with open(p, "w", encoding="utf-8") as f:
                f.write(new)


main()
