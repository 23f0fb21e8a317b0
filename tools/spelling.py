#!/usr/bin/env python3
"""Brings the names of this repository's own definitions and lemmas to snake case.

usage: python3 tools/spelling.py           renames in crates/, README.md and docs/, in place
       python3 tools/spelling.py --list    prints the new names, crate by crate, and changes nothing

Run once, after the toolchain's script for older repositories. A capital inside a name becomes an underscore; a dash stays where it joins two
names and else becomes an underscore; what stands in src/ (functions, constants, exported names), types, modules, strings, inputs and outputs
keeps its name.
"""
import glob
import os
import re
import sys

TOKEN = re.compile(r"(?<![\w'′-])([^\W\d_][\w'′]*(?:-[\w'′]+)*|(?:&&|\|\|)-[\w'-]+)")
DECLARED = re.compile(r"^[ \t]*(?:(?:pub|abbrev|unfoldable|ruleset) )*([^\s(){}:,.;|]+) :", re.M)
BLOCK = re.compile(r"^(?:pub )?(data|record) (\S+)[^\n]*\n((?:[ \t]+[^\n]*\n|[ \t]*\n)+)", re.M)
# A field and a definition of one module that would have one name.
CHOSEN = {"pairs-fit": "pairs_all_fit"}
# Words of the library that a lemma's name joins to another by a dash.
WORDS = {"length", "append", "map", "take", "drop", "replicate", "cons", "set", "get_or", "cond", "min", "max"}


def files(pattern):
    return sorted(p for p in glob.glob(pattern, recursive=True) if "/out/" not in p)


def shared():
    """The files whose declarations other files cite: not those of one function's proof."""
    return [p for p in files("crates/*/specs/**/*.antt") + files("crates/*/proofs/**/*.antt") if not p.endswith("/Proof.antt")]


def uncommented(text):
    return re.sub(r"--[^\n]*", "", text)


def declared():
    """Each declared name, with the crates that declare it; those of specs/; and those that are fields of records."""
    names, defined, fields = {}, set(), set()
    for path in shared():
        crate = path.split("/")[1]
        with open(path, encoding="utf-8") as f:
            text = uncommented(f.read())
        for name in DECLARED.findall(text):
            names.setdefault(name, set()).add(crate)
            if "/specs/" in path:
                defined.add(name)
        for kind, _, body in BLOCK.findall(text):
            for line in body.split("\n"):
                if kind == "record":
                    m = re.match(r"\s+(?:pub )?([^:]+?) :", line)
                    found = m.group(1).split() if m else []
                    fields.update(found)
                else:
                    found = TOKEN.findall(line.split(":")[0])
                for name in found:
                    names.setdefault(name, set()).add(crate)
    return names, defined, fields


def snake(part):
    part = part.replace("′", "'")
    if part[:1].isupper():
        return part
    return re.sub(r"(?<=[a-z0-9])([A-Z])", lambda m: "_" + m.group(1), part).lower() if re.search(r"[a-z0-9][A-Z][a-z0-9]|[a-z][A-Z]$", part) else part


def renamed(names, defined):
    """The new names: a dash stays between words of the library and names that specs/ defines."""
    plain = {snake(n) for n in defined if "-" not in n} | WORDS
    to = {}
    for name in names:
        parts = [snake(p) for p in name.split("-")]
        new = parts[0]
        for left, right in zip(parts, parts[1:]):
            new += ("-" if left in plain and right in plain else "_") + right
        if new != name:
            to[name] = CHOSEN.get(name, new)
    taken = {n for n in names if n not in to}
    for name in sorted(to, key=lambda n: ("-" in n, n)):
        while to[name] in taken:
            to[name] += "_lem"
        taken.add(to[name])
    return to


class Older(dict):
    """The new names, and those that the toolchain's script gave before: of pages and edits, which it does not turn."""

    def __init__(self, to, names):
        super().__init__(to)
        self.names = names

    def __contains__(self, word):
        return super().__contains__(word) or bool(self.before(word))

    def before(self, word):
        return word not in self.names and next((n for n in (word.replace("-", "_"), snake(word), snake(word.replace("-", "_"))) if n in self.names), None)

    def __missing__(self, word):
        return self.before(word)


def respell(text, to, fields, comment):
    """The text with each name in its new spelling; after `//` or `--` only names with a capital inside."""

    def new(m):
        word = m.group(1)
        if word not in to:
            return word
        before = text[: m.start()]
        if before.endswith(".") and re.search(r"[\w'\])]\.$", before):
            owner = re.search(r"([\w'·.-]+)\.$", before)
            module = owner and owner.group(1).split(".")[-1][:1].isupper()
            if word not in fields and not module:
                return word
        line = before[before.rfind("\n") + 1:]
        if comment and re.search(comment, line) and not re.search(r"[a-z0-9][A-Z]", word):
            return word
        return to[word]

    return TOKEN.sub(new, text)


def main():
    names, defined, fields = declared()
    to = renamed(names, defined)
    if "--list" in sys.argv[1:]:
        for crate in sorted({c for s in names.values() for c in s}):
            print(crate + ": " + ", ".join(f"{n} {to[n]}" for n in sorted(to) if crate in names[n]))
        return
    for path in files("crates/*/specs/**/*.antt") + files("crates/*/proofs/**/*.antt"):
        write(path, to, fields, r"--")
    for path in files("crates/*/src/**/*.rt"):
        ghost(path, to, fields)
    older = Older(to, names)
    for path in files("crates/*/must-fail/*.edit"):
        edit(path, older, fields)
    for path in ["README.md"] + files("docs/**/*.md"):
        page(path, older, fields)


def write(path, to, fields, comment):
    with open(path, encoding="utf-8") as f:
        text = f.read()
    put(path, text, respell(text, to, fields, comment))


def put(path, text, new):
    if new != text:
        with open(path, "w", encoding="utf-8") as f:
            f.write(new)


def ghost(path, to, fields):
    """In a source file only its `ghost use` lines and its clauses."""
    with open(path, encoding="utf-8") as f:
        lines = f.read().split("\n")
    inside = False
    for i, line in enumerate(lines):
        if line.startswith("ghost use ") or re.match(r"\s*(requires|ensures|ghost|invariant)\b", line) or inside:
            lines[i] = respell(line, to, fields, r"//")
            inside = lines[i].count("{") > lines[i].count("}")
    with open(path, "w", encoding="utf-8") as f:
        f.write("\n".join(lines))


def edit(path, to, fields):
    """In an edit the texts of specs/ and proofs/, and those of src/ that are clauses."""
    with open(path, encoding="utf-8") as f:
        lines = f.read().split("\n")
    of = ""
    for i, line in enumerate(lines):
        if line.startswith("file:"):
            of = line
        elif line.startswith(("old:", "new:")) and (".antt" in of or re.search(r"\b(requires|ensures|ghost use)\b", line)):
            line = re.sub(r"\((\w+) \.(\w+)\)", r"\1.\2", line)
            line = re.sub(r"\((\w+ \([^()]*\)) \.(\w+)\)", r"(\1).\2", line)
            lines[i] = re.sub(r"\bgetD\b", "get_or", respell(line, to, fields, None))
    with open(path, "w", encoding="utf-8") as f:
        f.write("\n".join(lines))


def page(path, to, fields):
    """In a page only what stands in backticks."""
    with open(path, encoding="utf-8") as f:
        text = f.read()
    put(path, text, re.sub(r"`[^`\n]+`", lambda m: respell(m.group(0), to, fields, None), text))


main()
