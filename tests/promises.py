#!/usr/bin/env python3
"""promises.py [--write]: holds docs/PROMISES.md against the tree.

Every theorem of crates/promises/specs and every must-fail edit is named there, and nothing that is not; every other name in
backquotes stands somewhere in the crates; every line that the last table quotes stands in that file at that number. --write puts the
numbers right where the quoted line stands once in its file."""
import pathlib
import re
import sys

root = pathlib.Path(__file__).resolve().parent.parent
page = root / "docs/PROMISES.md"
text = page.read_text()
wrong = []


def theorems():
    """The fields of the records without parameters, which are theorems, as Record.field; those with parameters are premises and conclusions."""
    found = []
    for file in ("Promises", "ListPromises"):
        record = None
        for line in (root / f"crates/promises/specs/{file}.antt").read_text().split("\n"):
            if m := re.match(r"pub record (\w+)( : Type 0 where)?", line):
                record = m[2] and m[1]
            elif record and (m := re.match(r"  pub (\w+) :", line)):
                found.append(f"{record}.{m[1]}")
    return found


def hold(what, there, named):
    wrong.extend(f"{what} `{x}` is not named" for x in there if x not in named)
    wrong.extend(f"no {what} `{x}`" for x in sorted(named) if x not in there)


named_theorems, named_edits, names, record = set(), set(), set(), None
for token in re.findall(r"`([^`]+)`", text):
    if m := re.fullmatch(r"((?:List)?Demand\d|ListDone|Tight)?\.(\w+)", token):
        record = m[1] or record
        named_theorems.add(f"{record}.{m[2]}")
    elif re.fullmatch(r"\w+/\w+", token) and not token.startswith("tests/"):
        named_edits.add(token)
    elif re.fullmatch(r"[A-Za-z][\w-]*(::\w+)*", token):
        names.add(token.split("::")[-1])

edits = [f"{e.parent.parent.name}/{e.stem}" for e in sorted(root.glob("crates/*/must-fail/*.edit"))]
hold("theorem", theorems(), named_theorems)
hold("edit", edits, named_edits)

sources = [f for part in ("src", "specs", "proofs") for f in (root / "crates").glob(f"*/{part}/**/*") if f.suffix in (".antt", ".rt")]
words = set(re.split(r"[\s(){}\[\],;:.`'\"]+", "\n".join(f.read_text() for f in sources)))
outside = {"requires", "ensures", "memset", "memcpy", "read", "write"}
wrong.extend(f"no name `{n}` in the crates" for n in sorted(names - words - outside))

places = re.findall(r"^\|.*\| `([\w./]+):(\d+)` \| `` ?(.+?) ?`` \|$", text, re.M)
for file, number, quoted in places:
    lines = [line.strip() for line in (root / file).read_text().split("\n")]
    if lines[int(number) - 1 : int(number)] == [quoted]:
        continue
    if "--write" in sys.argv and lines.count(quoted) == 1:
        text = text.replace(f"`{file}:{number}` | `` {quoted} ``", f"`{file}:{lines.index(quoted) + 1}` | `` {quoted} ``")
    else:
        wrong.append(f"{file}:{number} is not `{quoted}`")
if "--write" in sys.argv:
    page.write_text(text)

for w in wrong:
    print(f"promises: {w}", file=sys.stderr)
if wrong or not places:
    sys.exit(1)
print(f"promises: {len(named_theorems)} theorems, {len(edits)} edits and {len(places)} places are as docs/PROMISES.md says")
