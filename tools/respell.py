#!/usr/bin/env python3
"""Spells the definitions and lemmas of this repository as today's Rattle spells its own, once, right after the toolchain's
own script has turned the rest.

usage: tools/respell.py [--show]      at the top of the checkout; --show lists old and new names and writes nothing

In specs/ and proofs/, in clauses, in `ghost use` items and in the code spans of the documents:
  a name of several words joined by dashes        is joined by underscores        base-slots      base_slots
  a name with a capital in the middle             is in snake case                readingsOf      readings_of
  a function into Type, a record, a type          is in upper camel case          Newborn-told    NewbornTold
  a lemma that is named after a type              keeps the dash behind it        All-those       All-those
  a module `Contracts`, which Rattle makes itself is `Promised`
Names of functions, fields and parameters of the code, strings and outputs stay.
"""

import glob
import os
import re
import sys

WORD = r'[^\s(){}.;,@"«»]+'
MARKS = r"(?:(?:pattern|unfoldable|abbrev|pub|axiom) +)*"
TYPE = re.compile(rf"(?m)^ *{MARKS}(?:record|data) +«?({WORD})»?")
SIGNED = re.compile(rf"(?m)^ *{MARKS}«?({WORD})»?((?: «?{WORD}»?)*)(?: \{{[^{{}}\n]*\}})* :(?= |$)(.*(?:\n    +→.*)*)")
VARIANTS = re.compile(rf"(?m)^  ({WORD}(?: {WORD})*) : [A-Z]")
IMPORT = re.compile(r"(?m)\buse ([A-Za-z][^\s;{]*)(?:\.?\{([^}]*)\})?")
KEEP_SIGNED = {"where", "of", "let", "in"}


def read(path):
    with open(path, encoding="utf-8") as it:
        return it.read()


def files(*patterns):
    return sorted(p for q in patterns for p in glob.glob(q, recursive=True) if "/out/" not in p)


def snake(name):
    name = re.sub(r"(?<=[a-z0-9])[A-Z]", lambda m: "_" + m[0].lower(), name)
    return name.replace("-", "_").replace("get_d", "get_or")


def camel(name):
    head, *more = name.split("-")
    return head[:1].upper() + head[1:] + "".join(w[:1].upper() + w[1:] for w in more)


def spelled(name, is_type):
    if is_type:
        return camel(name)
    if name[:1].isupper():
        head, dash, more = name.partition("-")
        return head + dash + snake(more)
    return snake(name)


def names():
    """The names that specs/ and proofs/ declare, but for what answers a goal, each with its new spelling."""
    types, others = set(), set()
    for path in files("crates/*/specs/*.antt", "crates/*/proofs/*.antt"):
        text = read(path)
        types |= {m[1] for m in TYPE.finditer(text)}
        for m in SIGNED.finditer(text):
            is_type = re.search(r"(?:^|→|:) *Type(?: [0-9]| ℓ)?$", m[3].strip()) and not m[2]
            (types if is_type else others).update([m[1], *(w.strip("«»") for w in m[2].split())])
        for m in VARIANTS.finditer(text):
            others |= set(m[1].split())
    table = {n: spelled(n, n in types) for n in types | others if n not in KEEP_SIGNED}
    return {a: b for a, b in table.items() if a != b and re.match(r"\w", a)}


def turn(text, table):
    """Each word of the text that is a name of the table, in its new spelling; comments and texts in quotes stay."""
    pattern = re.compile(rf'(--[^\n]*|"(?:[^"\\\n]|\\.)*")|«({WORD})»|({WORD})')

    def one(m):
        if m[1] is not None:
            return spans(m[1], table) if m[1].startswith("--") else m[1]
        old = m[2] if m[2] is not None else m[3]
        new = table.get(old, old)
        if m[2] is not None and re.search(r"[-·]", new):
            return f"«{new}»"
        return f"«{old}»" if m[2] is not None and new == old and not re.fullmatch(r"[^\W\d]\w*'*", old) else new

    return pattern.sub(one, text)


def spans(text, table):
    return re.sub(r"`([^`\n]*)`", lambda m: "`" + re.sub(WORD, lambda w: table.get(w[0], w[0]), m[1]) + "`", text)


def braces(text, at):
    depth = 0
    for i in range(at, len(text)):
        depth += {"{": 1, "}": -1}.get(text[i], 0)
        if not depth:
            return i + 1
    return len(text)


def turn_code(text, table):
    """A file of src/: its clauses, ghost fields and `ghost use` items."""
    out, at = [], 0
    head = re.compile(r"ghost use [^;]*;|\b(?:requires|ensures)\*?(?: \w+)? \{|\bghost\*?(?: \w+)?: \{|\bghost \w+ *= *\{")
    while True:
        m = head.search(text, at)
        if not m:
            break
        end = m.end() if m[0].startswith("ghost use") else braces(text, m.end() - 1)
        out += [spans_of_comments(text[at : m.start()], table), turn(text[m.start() : end], table)]
        at = end
    out.append(spans_of_comments(text[at:], table))
    return "".join(out)


def spans_of_comments(text, table):
    return re.sub(r"(?m)^ *//.*$", lambda m: spans(m[0], table), text)


def foreign(text):
    """The names that a file takes from the toolchain's libraries, which keep their spelling there."""
    taken = set()
    for m in IMPORT.finditer(text):
        if not m[1].startswith("Rattle.") or m[1].startswith("Rattle.std"):
            taken |= {w.strip().split(" as ")[0].strip("«»") for w in (m[2] or "").split(",")}
    return taken


def modules(text):
    return re.sub(r"(\bRattle\.\w+\.specs\.)Contracts\b", r"\1Promised", text)


def main(argv):
    table = names()
    if argv == ["--show"]:
        for old in sorted(table):
            print(old, table[old], sep="\t")
        return 0
    if argv:
        print(__doc__, file=sys.stderr)
        return 2
    for path in files("crates/*/specs/**/*.antt", "crates/*/proofs/**/*.antt", "crates/*/src/**/*.rt"):
        text = read(path)
        own = {a: b for a, b in table.items() if a not in foreign(text)}
        new = modules(turn_code(text, own) if path.endswith(".rt") else turn(text, own))
        if path.endswith("/specs/Lib.antt"):
            new = re.sub(r"(?m)^(pub mod )Contracts$", r"\1Promised", new)
        if new != text:
            with open(path, "w", encoding="utf-8") as it:
                it.write(new)
    for path in files("crates/*/specs/Contracts.antt"):
        os.rename(path, os.path.join(os.path.dirname(path), "Promised.antt"))
    for path in files("README.md", "docs/*.md"):
        if os.path.basename(path) in ("PORT.md", "CHANGES.md"):
            continue
        text = read(path)
        new = spans(text, {a: b for a, b in table.items() if "-" in a})
        if new != text:
            with open(path, "w", encoding="utf-8") as it:
                it.write(new)
    return 0


if __name__ == "__main__":
    raise SystemExit(main(sys.argv[1:]))
