#!/usr/bin/env python3
"""Brings the repository's own definitions and lemmas to the library's spelling: snake case, where the port's script left camel case or dashes.

usage: python3 tools/respell.py      at the top of the repository, once, right after the kit's port.py

Names of types, of functions and fields of src/, of exports, of files and of what Rattle generates stay. A lemma whose new name a definition
has ends in _lem. The wrong builds and the pages that name definitions are turned with the rest. It prints each renaming.
"""

import os
import re

# the proof of one function: proofs/F/Proof.antt; a file of lemmas or of specs/ may end alike
FUNCTION = re.compile(r"/proofs/(.+/)+(Proof|Answers|Invariants)\.antt$")
HEAD = re.compile(r"^(\s*)(?:(?:pub|abbrev|unfoldable|data|record|ruleset)\s+)*([A-Za-z][\w'-]*)\s*(?:\{[^}]*\}\s*|\([^)]*\)\s*)*(?::(?!=)|=)")
IMPORT = re.compile(r"^use (\S+)\.\{([^}]*)\}")
TOKEN = re.compile(r"(?<![\w'-])([A-Za-z_][\w'-]*)")
BOUND = re.compile(r"[a-z]+[0-9]*([A-Z][a-z0-9]*)+[₀-₉'-]*")
UNITS = {"kWh", "kB"}
PAGES = ["README.md", "CONTRIBUTING.md", "CHANGELOG.md", "docs"]


def files(top, ending):
    if os.path.isfile(top):
        yield top
        return
    for folder, below, names in os.walk(top):
        below[:] = sorted(b for b in below if b not in ("out", "target"))
        for name in sorted(names):
            if name.endswith(ending):
                yield os.path.join(folder, name)


def read(path):
    with open(path, encoding="utf-8") as f:
        return f.read()


def declared(text):
    """The names that a file declares: at its margin, in its sections `module _`, and the fields of its records."""
    found = set()
    inside = False
    for line in text.splitlines():
        if line.startswith(("use ", "--")) or not line.strip():
            continue
        if not line[0].isspace():
            inside = bool(re.match(r"(abbrev |unfoldable |pub )*(record|data|module) ", line))
        if line.startswith("module "):
            continue
        at = HEAD.match(line)
        if at and (not at.group(1) or (inside and len(at.group(1)) == 2)):
            found.add(at.group(2))
    return found


def snake(name):
    return re.sub(r"(?<=[a-z0-9])[A-Z]|(?<=[A-Z])[A-Z](?=[a-z])", lambda m: "_" + m.group().lower(), name).lower().replace("-", "_")


def main():
    crates = sorted(d for d in os.listdir("crates") if os.path.isdir(os.path.join("crates", d, "src")))
    texts = {p: read(p) for p in files("crates", ".antt")}
    own = {p: declared(t) for p, t in texts.items()}
    shared = {p: names for p, names in own.items() if not FUNCTION.search(p)}
    foreign = set()
    for text in texts.values():
        for line in text.splitlines():
            at = IMPORT.match(line)
            if at and not any(at.group(1).startswith(f"Rattle.{c}.") for c in crates):
                for item in at.group(2).split(","):
                    foreign.update(item.strip().split(" as "))
    names = set().union(*shared.values())
    # what is bound inside a declaration, in specs/ and proofs/
    for text in texts.values():
        code = re.sub(r"--.*", "", text)
        names.update(n for n in TOKEN.findall(code) if n not in foreign and n not in UNITS and BOUND.fullmatch(n))
    stated = set().union(*(n for p, n in shared.items() if "/specs/" in p))
    every = set().union(*own.values())
    new = {}
    for name in sorted(names):
        if name[0].islower() and re.search(r"[a-z0-9][A-Z]", name):
            new[name] = snake(name)
    taken = set(new.values())
    # a lemma that the port gave the name which a definition now gets
    for name in sorted(names - stated):
        if name in taken and name not in new:
            new[name] = name + "_lem"
    for name in sorted(names):
        if "-" in name and name[0].islower() and name not in new and name not in foreign:
            to = snake(name)
            while to in taken or to in every or to in foreign:
                to += "_lem"
            new[name] = to
            taken.add(to)

    def names_in(text, kept):
        return TOKEN.sub(lambda m: new[m.group(1)] if m.group(1) in new and m.group(1) not in kept else m.group(1), text)

    def turn(text, kept=()):
        """A line, and of its comment what stands in backticks: other words there may have a dash of their own."""
        code, dashes, comment = text.partition("--")
        return names_in(code, kept) + dashes + re.sub(r"`[^`]*`", lambda m: names_in(m.group(), kept), comment)

    for path, text in texts.items():
        function = FUNCTION.search(path)
        kept = {n for n in own[path] if "-" in n} if function else ()
        lines = []
        for line in text.splitlines(keepends=True):
            at = IMPORT.match(line)
            # the path of a use line is of modules, and a function's module has the function's name
            lines.append(line[: at.start(2)] + turn(line[at.start(2) :], kept) if at else line if line.startswith("use ") else turn(line, kept))
        save(path, "".join(lines), text)
    def turn_words(text):
        """Camel case stands in clauses and ghost items of a source file, in a wrong build and in a page only as such names."""
        return TOKEN.sub(lambda m: snake(m.group(1)) if BOUND.fullmatch(m.group(1)) and m.group(1) not in UNITS else m.group(1), text)

    for path in files("crates", ".rt"):
        text = read(path)
        save(path, turn_words(text), text)

    for path in files("crates", ".edit"):
        text = read(path)
        save(path, turn_words(text), text)
    for page in PAGES:
        for path in files(page, ".md") if os.path.exists(page) else ():
            text = read(path)
            save(path, re.sub(r"`[^`\n]*`", lambda m: turn_words(m.group()), text), text)
    for name in sorted(new):
        print(name, "->", new[name])


def save(path, text, old):
    if text != old:
        with open(path, "w", encoding="utf-8") as f:
            f.write(text)


main()
