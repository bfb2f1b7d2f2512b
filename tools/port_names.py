#!/usr/bin/env python3
"""Spells this repository's own definitions and lemmas as today's kit does: words in snake case, and no dashes but behind a fact's name.

usage: python3 tools/port_names.py [--table]      at the top, once, right after /opt/rattle/port/port.py; --table only prints the table

The table is made from what specs/ and proofs/ declare. Constructors, types and facts (a capital first) keep their spelling, and so do
names of src/, labels that Rattle makes, and names that some file imports from the kit. The kit's own snake.py turns the words.
"""

import collections
import os
import re
import subprocess
import sys
import tempfile

KIT = "/opt/rattle/port/notes/2026-11-18-names-are-in-snake-case"
DECLARED = re.compile(r"^\s*(?:(?:abbrev|unfoldable|pub)\s+)*((?:[A-Za-z][\w'-]*\s+)*[A-Za-z][\w'-]*)\s*:(?![=:])")
USE = re.compile(r"^(?:ghost )?use ([^\s;{]+?)(?:\.\{([^}]*)\})?(?: as \S+)?;?$", re.M)
# A law that would have its function's name once both are in snake case ends in _lem; port.py had turned some of these already.
MET = {"and-false", "append-nil", "max-zero"}  # of the kit too: they stay
LAWS = (
    "after_read body_end goes_in is_found is_one not_done one_number only_one reach_of run_ends word_count".split()
)
BY_HAND = {"depth-of": "depth_of_lem", "own-words": "own_words_lem", "turned-word": "turned_word_lem", "first_of": "put_first"}  # first_of is a tactic
FOLDER = re.compile(r"crates/\w+/proofs/.*/")
MADE = re.compile(r"^(invariant|decreases|loop|the|goal|ghost)-|-spec$|-Inv-|^(M|row)$")


def files(*endings):
    for folder, folders, names in os.walk("crates"):
        folders[:] = sorted(f for f in folders if f != "out")
        for name in sorted(names):
            if name.endswith(endings):
                yield os.path.join(folder, name)


def snake(part):
    if part[0].isupper():
        return part
    return re.sub(r"(?<=[a-z0-9])([A-Z]+)(?=[a-z0-9]|$|[A-Z])", lambda m: "_" + m[1].lower(), part)


def spelled(name):
    parts = [snake(p) for p in name.split("-") if p]
    out = parts[0]
    for before, part in zip(parts, parts[1:]):
        out += ("-" if before[0].isupper() else "_") + (part.lower() if before[0].islower() and part.isupper() and len(part) == 1 else part)
    return out


def table():
    declared, imported = collections.defaultdict(set), collections.defaultdict(set)
    for path in files(".antt", ".rt"):
        with open(path, encoding="utf-8") as f:
            text = f.read()
        for m in USE.finditer(text):
            if not m[1].startswith("Rattle.") or m[1].startswith("Rattle.std."):
                for item in (m[2] or "").split(","):
                    imported[item.split(" as ")[-1].strip()].add(path)
        if path.endswith(".antt"):
            for line in text.split("\n"):
                m = DECLARED.match(line)
                if m and not line.lstrip().startswith(("--", "λ", "(", "module", "let", "rw", "use")):
                    for name in m[1].split():
                        declared[name].add(path)
    rows = {}
    for name in sorted(declared):
        if MADE.search(name) or name in MET or name[0].isupper() and "-" not in name:
            continue
        if all(FOLDER.match(path) for path in declared[name]):
            continue
        new = spelled(name)
        if new != name:
            rows[name] = new
    functions = {new for old, new in rows.items() if "-" not in old}
    for old, new in rows.items():
        if "-" in old and new in functions:
            rows[old] = new + "_lem"
    rows.update({name: name + "_lem" for name in LAWS})
    rows.update(BY_HAND)
    return rows, declared, imported


def main():
    rows, declared, imported = table()
    if "--table" in sys.argv:
        for old, new in rows.items():
            print(f"{old}\t{new}")
        return
    with tempfile.NamedTemporaryFile("w", suffix=".tsv", delete=False, encoding="utf-8") as f:
        f.writelines(f"{old}\t{new}\n" for old, new in rows.items())
    said = subprocess.run(
        [sys.executable, os.path.join(KIT, "snake.py"), "--table", f.name, "--skip-behind", "c,a,l,goal", "crates"],
        capture_output=True, text=True, env=os.environ | {"PYTHONDONTWRITEBYTECODE": "1"})
    os.unlink(f.name)
    print(said.stdout[-3000:], said.stderr[-2000:])
    raise SystemExit(said.returncode)


if __name__ == "__main__":
    main()
