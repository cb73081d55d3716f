#!/usr/bin/env python3
"""Brings the repository's own definitions and lemmas to today's spelling: words in snake case, a dash only between two names.

usage: python3 tools/port_names.py            at the top of the repository, once, after the kit's port.py

It reads every name that specs/ and proofs/*.antt declare, writes the rows old and new into docs/port-names.tsv, and turns them in every
antt file, in the clauses and ghost items of the .rt files, and in code spans of README.md and docs/. Functions of src/, exported names, strings, inputs and outputs
stay. In a proof of one function (proofs/F/..) a word behind a dot stays, unless it ends a path `Rattle.`: it is a name that Rattle makes.
"""
import glob
import os
import re

DECLARED = re.compile(r"^( *)(?:(?:abbrev|unfoldable|pattern|pub|axiom|instance) )*([^\s:(){}.,;@\"«»]+)(?: \{[^}\n]*\})? : ", re.M)
OPENING = re.compile(r"^(?:pub )?(?:record|data) ([^\s:(){}.,;]+)", re.M)
WORD = re.compile(r"[^\s(){}.;,@\"«»\x60]+")
CLAUSE = re.compile(r"(?:\b(?:requires|ensures)\s*\*?\s*(?:\w+\s*)?|\bghost\s*(?:\w+\s*(?::\s*(?:(?:owns|lends)\s*)?|=\s*))?)\{")
GHOST_USE = re.compile(r"ghost\s+use\b[^;]*;")
SPAN = re.compile(r"\x60[^\x60\n]+\x60")
# Names of the library that a dash may join ours to.
LIBRARY = set("length append take drop set map replicate mem add sub mul div mod min max le lt eq ne get_or sum reverse leb ltb eqb iff concat zero suc cons nil".split())
# What would fall together with another name, and what the kit's port has renamed inside a longer name.
CHOSEN = {
    "getD-apart": "get_or-apart",
    "in-getD": "in-get_or",
    "last-getD": "last-get_or",
    "table-blocks": "table_keeps_blocks",
    "table-bytes": "table_keeps_bytes",
    "table-size": "size_of_table",
    "inUse": "in_use",
    "in_use": "in_use_lem",
    "newTable": "new_table",
    "new-table": "new_table_lem",
    "surplusOf": "surplus_of",
    "surplus-of": "surplus_of_lem",
}


def snake(part):
    if not part[:1].islower():
        return part
    return re.sub(r"(?<=[a-z0-9])([A-Z])", lambda m: "_" + m.group(1).lower(), part)


def files():
    specs = sorted(glob.glob("crates/*/specs/*.antt"))
    laws = sorted(glob.glob("crates/*/proofs/*.antt"))
    walks = sorted(p for p in glob.glob("crates/*/proofs/*/**/*.antt", recursive=True))
    return specs, laws, walks


def names_of(paths):
    found = set()
    for path in paths:
        with open(path, encoding="utf-8") as f:
            for m in DECLARED.finditer(f.read()):
                found.add(m.group(2))
    return found


def table():
    specs, laws, _ = files()
    in_specs, in_laws = names_of(specs), names_of(laws)
    functions = set()
    for path in glob.glob("crates/*/src/*.rt"):
        with open(path, encoding="utf-8") as f:
            functions |= set(re.findall(r"\bfn (\w+)", f.read()))
    words = {snake(n).replace("-", "_") for n in in_specs} | functions | LIBRARY
    rows = {}
    for name in sorted(in_specs):
        new = CHOSEN.get(name, snake(name).replace("-", "_") if name[:1].islower() else name)
        if new != name:
            rows[name] = new
    for name in sorted(in_laws - in_specs):
        if name in CHOSEN:
            rows[name] = CHOSEN[name]
            continue
        if not name[:1].islower():
            continue
        parts = [snake(p) for p in name.split("-")]
        if any(not p for p in parts):
            continue
        new = parts[0]
        for before, part in zip(parts, parts[1:]):
            dash = part in words and (before in words or new in words) and part not in ("le", "lt")
            new += ("-" if dash else "_") + part
        if new != name:
            rows[name] = new
    # Names that fall together: a lemma gives way.
    for name in sorted((in_laws - in_specs) & {new for old, new in rows.items() if old in in_specs}):
        rows[name] = name + "_lem"
    held = (in_specs | in_laws) - set(rows)
    taken = {}
    for name in sorted(rows, key=lambda n: (n not in in_specs, n)):
        new = rows[name]
        while new in held or new in taken:
            new += "_lem"
        if name in in_specs and new != rows[name]:
            print("look: of specs/", name, "->", new)
        rows[name] = new
        taken[new] = name
    return rows


def turn(text, rows, own):
    """Turns whole words; where own is set, a word behind a dot stays unless it ends a path of this repository."""
    def one(m):
        word, start = m.group(0), m.start()
        new = rows.get(word)
        if new is None:
            return word
        if own and start and text[start - 1] == ".":
            line = text[text.rfind("\n", 0, start) + 1:start]
            path = re.search(r"[^\s(){}]*\.$", line)
            if not (path and path.group(0).startswith("Rattle.")):
                return word
        return new
    return WORD.sub(one, text)


def clauses(text, rows):
    """Turns the clauses and ghost items of a .rt file."""
    out, at = [], 0
    for m in re.finditer(CLAUSE.pattern + "|" + GHOST_USE.pattern, text):
        if m.start() < at:
            continue
        end = m.end()
        if text[end - 1] == "{":
            deep = 1
            while deep:
                deep += {"{": 1, "}": -1}.get(text[end], 0)
                end += 1
        out.append(text[at:m.start()])
        out.append(turn(text[m.start():end], rows, False))
        at = end
    out.append(text[at:])
    return "".join(out)


def spans(text, rows):
    return SPAN.sub(lambda m: turn(m.group(0), rows, False), text)


def rewrite(path, how):
    with open(path, encoding="utf-8") as f:
        old = f.read()
    new = how(old)
    if new != old:
        with open(path, "w", encoding="utf-8") as f:
            f.write(new)
        return 1
    return 0


def main():
    rows = table()
    specs, laws, walks = files()
    turned = 0
    for path in specs + laws:
        turned += rewrite(path, lambda t: turn(t, rows, False))
    for path in walks:
        turned += rewrite(path, lambda t: turn(t, rows, True))
    for path in sorted(glob.glob("crates/*/src/*.rt")):
        turned += rewrite(path, lambda t: clauses(t, rows))
    for path in ["README.md"] + sorted(glob.glob("docs/*.md")):
        turned += rewrite(path, lambda t: spans(t, rows))
    with open("docs/port-names.tsv", "w", encoding="utf-8") as f:
        f.write("".join(f"{old}\t{new}\n" for old, new in sorted(rows.items())))
    print(len(rows), "names in", turned, "files")


main()
