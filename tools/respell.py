#!/usr/bin/env python3
"""Spells the repository's own definitions and lemmas as today's Rattle does: words in snake case, types and modules as they are.

usage: respell.py [--check]        at the top of the repository, once, right after /opt/rattle/port/port.py

port.py turns the library's names, and of this repository's own only those that a name of the library was spelled like. This turns the others:
a name that a file of specs/ or proofs/ declares, and a name that Rattle makes of a function or a variable of src/. It goes by whole words, in
.antt files and in the clauses of .rt files, code and comments' words in back quotes alike, and in the pages' words in back quotes. Where two names would fall
together in one file it says so and writes nothing. --check writes nothing at all.
"""

import glob
import os
import re
import sys

WORD = re.compile(r"[^\s(){}.;,@\"«»`]+")
DECLARED = re.compile(r"(?m)^ *(?:\| *)?(?:(?:pub|abbrev|unfoldable|private) +)*([^\s(){}.;,@\"«»:]+)(?: \{[^{}\n]*\})* :(?= |$)")
FUNCTION = re.compile(r"\bfn (\w+)")
FOLDER = re.compile(r"/proofs/[^/]+/")
CLAUSE = re.compile(r"^\s*(?:requires\*?|ensures\*?|ghost)\b|^\s*(?:pub )?ghost use\b")

# What port.py took for a name of the library, and is this repository's own.
MENDED = {
    "get_d_any": "get_or_any",
    "getD-mapped": "get_or_mapped",
    "high_word_lem": "high_word",
}

# Lemmas that would fall together with the definition that they are about, and the files for which a name's spelling holds (none: all).
APART = {
    name: (name.replace("-", "_") + "_lem", where)
    for name, where in {
        "is-named": "", "plan-of": "", "change-from": "", "place-from": "", "told-again": "", "order-with": "", "places-of": "",
        "done-table": "", "is-held": "", "on-number": "", "forget-size": "", "refused-restart": "", "refused-step": "", "holds-well": "",
        "end-each": "", "used-part": "", "open-count": "", "line-with": "", "must-count": "", "transaction-at": "", "signal-most": "",
        "signals-most": "", "name-most": "", "at_from": "crates/lists/", "no_number": "crates/trace_words/",
        "is_open": "crates/safety/proofs/", "of_number": "crates/trace_run/proofs/Typed", "of-transaction": "crates/trace_run/proofs/Typed",
    }.items()
}


# Names of a field of src/ or of a folder, which meet no definition.
HARMLESS = {
    ("crates/listing/proofs/list/Proof.antt", "row_at"),
    ("crates/passes/specs/Census.antt", "phase_zero"),
    ("crates/passes/specs/Census.antt", "told_abort"),
}


def snake(name):
    if name in MENDED:
        return MENDED[name]
    if name[:1].isupper():
        return re.sub(r"(?<=\w)-(?=\w)", "_", name)
    words = re.sub(r"(?<=[a-z0-9])[A-Z]", lambda m: "_" + m[0].lower(), name)
    return words.replace("-", "_")


def read(path):
    with open(path, encoding="utf-8") as f:
        return f.read()


def code_of(text):
    return "\n".join(l for l in text.split("\n") if not l.lstrip().startswith("--"))


def main(argv):
    antt = sorted(glob.glob("crates/*/specs/**/*.antt", recursive=True) + glob.glob("crates/*/proofs/**/*.antt", recursive=True))
    rust = sorted(glob.glob("crates/*/src/**/*.rt", recursive=True))
    declared, functions = set(), set()
    for p in antt:
        declared.update(DECLARED.findall(code_of(read(p))))
    for p in rust:
        functions.update(FUNCTION.findall(read(p)))
    table = {n: snake(n) for n in declared | set(MENDED) if snake(n) != n and re.search(r"\w", n)}
    for f in functions:
        dashed = f.replace("_", "-")
        if dashed != f:
            table.setdefault(dashed, f)
            table.setdefault(dashed + "-spec", f + "_spec")
    table = {a: b for a, b in table.items() if "◌" not in a}
    said = []

    own = {c for c in os.listdir("crates")}
    borrowed = {}

    def of_others(path, text):
        """The names that a file has from the library keep its spelling there."""
        names = set()
        for at, items in re.findall(r"(?m)^\s*(?:ghost )?use ([^\s{;]+?)\.\{([^}]*)\}", text):
            steps = at.split(".")
            if steps[0] != "Rattle" or steps[1] not in own:
                names.update(w for it in items.split(",") for w in it.split(" as ")[0].split()[:1])
        borrowed[path] = names

    def spelt(word, path, field):
        if word in borrowed.get(path, ()):
            return word
        new, where = APART.get(word, (None, ""))
        if new and path.startswith(where) and not (field and FOLDER.search(path)):
            return new
        return table.get(word, word)

    def turn(text, path):
        quoted = [m.span() for m in re.finditer(r'"(?:\\.|[^"\\])*"', text)]

        def one(m):
            if any(a < m.start() < b for a, b in quoted):
                return m[0]
            return spelt(m[0], path, text[m.start() - 1 : m.start()] == ".")

        return WORD.sub(one, text)

    def together(path, text):
        # Behind a dot stands a field or what a module holds: there no two names meet.
        made = {}
        for m in WORD.finditer(text):
            if text[m.start() - 1 : m.start()] != ".":
                made.setdefault(spelt(m[0], path, False), set()).add(m[0])
        for new, olds in sorted(made.items()):
            if len(olds) > 1 and (path, new) not in HARMLESS:
                said.append(f"{path}: {', '.join(sorted(olds))} would all be {new}")

    out = {}
    for p in antt + rust:
        of_others(p, read(p))
    for p in antt:
        text = read(p)
        together(p, code_of(text))
        lines = []
        for l in text.split("\n"):
            if l.lstrip().startswith("--"):
                l = re.sub(r"`[^`]*`", lambda m: turn(m[0], p), l)
            else:
                at = l.find(" -- ")
                l = turn(l, p) if at < 0 else turn(l[:at], p) + re.sub(r"`[^`]*`", lambda m: turn(m[0], p), l[at:])
            lines.append(l)
        out[p] = "\n".join(lines)
    for p in rust:
        lines, inside, depth = [], False, 0
        clauses = []
        for l in read(p).split("\n"):
            if inside or CLAUSE.match(l):
                clauses.append(l)
                depth += l.count("{") - l.count("}")
                inside = depth > 0
                l = turn(l, p)
            elif l.lstrip().startswith("//"):
                l = re.sub(r"`[^`]*`", lambda m: turn(m[0], p), l)
            lines.append(l)
        together(p, "\n".join(clauses))
        out[p] = "\n".join(lines)
    for p in ["README.md", *sorted(glob.glob("docs/*.md"))]:
        out[p] = re.sub(r"`[^`\n]*`", lambda m: turn(m[0], p), read(p))
    for p in said:
        print(p)
    changed = [p for p in out if out[p] != read(p)]
    print(f"respell: {len(table)} names, {len(changed)} files", "" if not said else f"; {len(said)} fall together")
    if said:
        return 1
    if "--check" not in argv:
        for p in changed:
            with open(p, "w", encoding="utf-8") as f:
                f.write(out[p])
    return 0


if __name__ == "__main__":
    raise SystemExit(main(sys.argv[1:]))
