#!/usr/bin/env python3
"""Brings the project's own definitions and lemmas to one spelling: words in snake case, types and modules in camel case.

usage: tools/respell.py            at the top of the repository, once, right behind the port's own script

`nextToken` and `next-token` both become `next_token`. Where a definition and a lemma fall together so, the lemma gets `_lem`.
A type that a name begins with keeps its dash, as in `All-append`. Names of src/, strings, inputs and outputs stay; of a comment
only what stands between backquotes, or in camel case, is a name. Names that Rattle makes for one function's proof stay too.
"""

import collections
import os
import re

IDENT = r"[A-Za-z\u0370-\u03ff_][\w'\u2080-\u2089]*(?:-[\w'\u2080-\u2089]+)*"
TOKEN = re.compile(r"\"(?:[^\"\\]|\\.)*\"|--[^\n]*|" + IDENT)
MODULE = re.compile(r"use (Rattle\.\S+?|\S+?)\.\{([^}]*)\}")
CLAUSE = re.compile(r"\bghost use\b|\b(?:requires|ensures)\*?(?: \w+)? (?=\{)")
# Names that hide nothing when they fall together with another: a module's or a function's, which stand in paths alone.
SUFFIX = "_lem"
# A tactic's word, which no clause and no definition may have for a name.
TACTICS = {"ground": "ground_of"}


def snake(name):
    parts = [
        re.sub(r"[A-Z]", lambda m: "_" + m.group(0).lower(), p) if p[:1].islower() else p
        for p in name.split("-")
    ]
    out = parts[0]
    for before, part in zip(parts, parts[1:]):
        out += ("-" if before[:1].isupper() else "_") + part
    return out


def files(*endings):
    for folder, dirs, names in os.walk("crates"):
        dirs[:] = sorted(d for d in dirs if d != "out")
        for name in sorted(names):
            if name.endswith(endings):
                yield os.path.join(folder, name)


def read(path):
    with open(path, encoding="utf-8") as f:
        return f.read()


def write(path, text):
    with open(path, "w", encoding="utf-8") as f:
        f.write(text)


def of_one_function(path):
    return os.path.basename(path) in ("Proof.antt", "Invariants.antt", "Answers.antt")


def plain(text):
    """The text without strings and comments."""
    return re.sub(r"\"(?:[^\"\\]|\\.)*\"|--[^\n]*", "", text)


DECLARED = re.compile(
    r"(?m)^\s*(?:(?:unfoldable|abbrev|pub) )*([a-z][\w'\u2080-\u2089-]*(?: [a-z][\w'\u2080-\u2089-]*)*)\s*:(?!=)"
)


def declared(path, text):
    text = plain(text)
    for m in DECLARED.finditer(text):
        # What a proof answers, and the proof itself, have names that Rattle asks for.
        if of_one_function(path) and re.match(r"\s*(?:tie\.|\{M : |\(t : )", text[m.end() :]):
            continue
        for name in m.group(1).split():
            if name not in ("pub", "abbrev", "unfoldable", "as", "let", "in"):
                yield name


def names():
    """The new name of each of the project's own that changes."""
    own, used, brought = collections.defaultdict(set), collections.defaultdict(set), set()
    for path in files(".antt"):
        text = read(path)
        for name in declared(path, text):
            own[name].add(path)
        for m in re.finditer(IDENT, plain(text)):
            used[m.group(0)].add(path)
        for m in MODULE.finditer(plain(text)):
            if not re.match(r"Rattle\.(?!std\.)", m.group(1)):
                brought |= {w.strip().split(" as ")[0] for w in m.group(2).split(",")}
    # A name that the library has too keeps its spelling, which is the library's.
    turned = {name: snake(name) for name in own if snake(name) != name and name not in brought}
    # A name in camel case that is only a variable or a constructor.
    for name in used:
        if name not in turned and re.match(r"[a-z]\w*[A-Z]", name.split("-")[0]) and name not in brought:
            turned[name] = snake(name)
    camel = {snake(name) for name in turned if "-" not in name}
    out = {}
    for name, new in turned.items():
        if "-" in name and (new in camel or (new in own and used[new] & used[name])):
            new += SUFFIX
        out[name] = new
    out.update({name: new for name, new in TACTICS.items() if name in own})
    # Lemmas and fields whose name a definition now takes.
    for name in own:
        if name not in turned and name in camel and name not in brought:
            out[name] = name + SUFFIX
    return out, {name for name in own if name not in turned and name in camel}


def spelled(text, new, moved):
    """The text with its names respelled. A name that moves away stays where it stands in a path."""

    def one(m):
        word = m.group(0)
        if word[0] == '"':
            return word
        if word.startswith("--"):
            return re.sub(
                r"`[^`]*`|\b[a-z]\w*[A-Z]\w*",
                lambda n: re.sub(IDENT, lambda k: new.get(k.group(0), k.group(0)) if k.group(0) not in moved else k.group(0), n.group(0)),
                word,
            )
        if word in moved:
            before, behind = text[: m.start()], text[m.end() :]
            if before.endswith(".") and re.search(r"(?:Rattle\.\w+\.(?:specs|proofs)\.(?:[\w+]+\.)*|\bc\.)$", before) or behind.startswith("."):
                return word
        return new.get(word, word)

    return TOKEN.sub(one, text)


def clauses(text, new, moved):
    """The text of a source file with the names in its clauses respelled."""
    out, at = [], 0
    while True:
        m = CLAUSE.search(text, at)
        if not m:
            return "".join(out) + text[at:]
        out.append(text[at : m.end()])
        at = end = m.end()
        if m.group(0) == "ghost use":
            end = text.index(";", at)
        else:
            depth = 0
            while True:
                string = re.match(r"\"(?:[^\"\\]|\\.)*\"", text[end:])
                end += string.end() if string else 1
                if not string:
                    depth += {"{": 1, "}": -1}.get(text[end - 1], 0)
                if depth == 0:
                    break
        out.append(spelled(text[at:end], new, moved))
        at = end


def brought_as(new):
    """The new names of what only a source file's imports call so, as in `seen as seenOf`."""
    out = {}
    for path in files(".rt"):
        text = read(path)
        here = set(re.findall(IDENT, text))
        for name in re.findall(r"\bas ([a-z]\w*[A-Z]\w*)", " ".join(re.findall(r"ghost use [^;]*;", text))):
            if name not in new and snake(name) not in here:
                out[name] = snake(name)
    return out


def main():
    new, moved = names()
    new.update(brought_as(new))
    for path in files(".antt"):
        write(path, spelled(read(path), new, moved))
    for path in files(".rt"):
        write(path, clauses(read(path), new, moved))
    print(f"{len(new)} names, {len(moved)} of them moved aside: {' '.join(sorted(moved))}")


main()
