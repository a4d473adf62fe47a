#!/usr/bin/env python3
"""Spells the repository's own definitions, fields, constructors and lemmas in snake case: `meetsArea`, `meets-area-iff` -> `meets_area`, `meets_area_iff`.

usage: snake_names.py [--list]

Run once at the top, after port.py. A name counts if a file of specs/ or a file of laws in proofs/ has it and no file imports it from a library. Names
that Rattle makes (in a function's folder of proofs/) and names of functions in src/ keep their spelling. Names that would fall together with another are spelled by OTHER.
In comments and pages a name in camel case is turned wherever it stands, and one with dashes only between backticks.
"""

import collections
import glob
import os
import re
import sys

TOKEN = re.compile(r"[^\s(){}.;,@\"«»\[\]`|]+")
# New spellings of names that would else fall together.
OTHER = {
    "ahead-by-turns": "ahead_by_turns_lem",
    "byNumber": "ByNumber",
    "far-end": "far_end_lem",
    "hinders-at": "hinders_at_lem",
    "newLine": "one_more",
    "on-grid": "on_grid_lem",
    "same-list": "same_list_lem",
    "seen-at": "seen_at_lem",
    "spot-of": "spot_of_lem",
    "up-from": "up_from_lem",
    "window-tests": "tests_of_window",
}


def snake(name):
    words = re.sub(r"(?<=[a-z0-9₀-₉])[A-Z]", lambda m: "_" + m[0].lower(), name)
    words = re.sub(r"(?<=[a-z])([A-Z])", lambda m: m[0].lower(), words)
    return re.sub(r"(?<=[^-])-(?=[^-])", "_", words)


def law_files():
    return sorted(glob.glob("crates/*/specs/*.antt") + glob.glob("crates/*/proofs/*.antt"))


def all_laws():
    # out/ has copies of sources, which the prover keeps
    return [f for f in glob.glob("crates/**/*.antt", recursive=True) if "/out/" not in f]


def is_old(name):
    if not name[0].islower() and name[0] not in "*+≤<" :
        return False
    if re.search(r"[a-z0-9₀-₉][A-Z]", name):
        return True
    return re.search(r"[^-]-[^-]", name) is not None and re.search(r"[A-Za-z]", name) is not None


def rust_names():
    names = set()
    for f in glob.glob("crates/*/src/*.rt"):
        names.update(re.findall(r"\bfn (\w+)", open(f).read()))
    return names


def in_code(text, table):
    return TOKEN.sub(lambda m: table.get(m[0], m[0]), text)


CAMEL = re.compile(r"(?<![\w-])[a-z][a-z0-9]*(?:[A-Z][A-Za-z0-9]*)+(?![\w-])")


def in_words(text, table):
    text = re.sub(r"`[^`\n]+`", lambda m: in_code(m[0], table), text)
    return CAMEL.sub(lambda m: table.get(m[0], m[0]), text)


def turn(path, table):
    text = open(path, encoding="utf-8").read()
    mark = "--" if path.endswith(".antt") else "//"
    out = []
    for line in text.split("\n"):
        if path.endswith(".md") or path.endswith(".edit") and not re.match(r"(old|new): ", line):
            out.append(in_words(line, table))
        elif line.lstrip().startswith(mark):
            out.append(in_words(line, table))
        else:
            out.append(in_code(line, table))
    new = "\n".join(out)
    if new != text:
        open(path, "w", encoding="utf-8").write(new)


def main():
    everything = set()
    for f in law_files():
        lines = open(f, encoding="utf-8").read().split("\n")
        everything |= set(TOKEN.findall("\n".join(l for l in lines if not l.lstrip().startswith("--"))))
    names = {n for n in everything if is_old(n)}
    # names of the library stay, also where a local name is spelled like one
    imported = {"not-nil"}
    for f in all_laws():
        for line in open(f, encoding="utf-8"):
            m = re.match(r"\s*(?:pub )?use (\S+?)\.\{(.*)\}", line)
            if m and (not m[1].startswith("Rattle.") or re.match(r"Rattle\.(std|core|io|libc)", m[1])):
                imported |= {x.strip() for x in m[2].split(",")}
    table = {n: OTHER.get(n, snake(n)) for n in names if n not in imported}
    if "--list" in sys.argv:
        back = collections.defaultdict(set)
        for n, s in table.items():
            back[s].add(n)
        rust = rust_names()
        for s, ns in sorted(back.items()):
            if len(ns) > 1:
                print("together:", s, sorted(ns))
            if s in everything and s not in names:
                print("there already:", s, sorted(ns))
            if s in rust:
                print("a function of src:", s, sorted(ns))
            if s in imported:
                print("of the library:", s, sorted(ns))
        print(len(table), "names; kept, as the library's:", sorted(names & imported))
        return
    for f in all_laws() + glob.glob("crates/*/src/*.rt") + glob.glob("crates/*/must-fail/*.edit") + glob.glob("*.md") + glob.glob("docs/**/*.md", recursive=True):
        if os.path.basename(f) != "PORT.md":
            turn(f, table)


main()
