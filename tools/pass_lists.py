#!/usr/bin/env python3
"""Writes the last part of docs/DESIGN-PASS.md: what changed since the design pass began, old and new one below the other.

  python3 /opt/rattle/port/contracts.py OLD NEW --json > lists.json
  python3 tools/pass_lists.py lists.json      OLD, NEW: folders of the two checkouts

Of a law only the statement is listed, and only where it changed: proofs are the prover's business. A definition is listed whole.
"""
import json
import re
import sys

lists = json.load(open(sys.argv[1], encoding="utf-8"))


def statement(texts):
    """A law up to its first equation; a definition whole."""
    text = " ".join(texts)
    m = re.match(r"(?:pub )?([\w'₂-]+) (?:\{|\(|:)", text)
    if re.match(r"(abbrev|unfoldable|pub abbrev|pub unfoldable|pub record|record|pub data|data|syntax)", text) or not m:
        return text
    name = m.group(1)
    parts = re.split(r" (?:unfolding [^=]*? )?(?=" + re.escape(name) + r"(?: [^:]*?)? = )", text, maxsplit=1)
    return parts[0]


def clauses(pairs):
    return "; ".join((name + " " if name else "") + "{ " + text + " }" for name, text in pairs) or "none"


print("## Old and new\n")
print("Written by `tools/pass_lists.py` from what `contracts.py` of the kit lists between the first line's commit and the tree of this page; the old text stands")
print("first. Private functions are among these. What is gone or became a method is above.\n")

print("### Signatures\n")
for where, old, new in lists["signatures changed"]:
    crate, path, name = where.split(" ", 2)
    print(f"- **{crate}** `{name}`\n  - `{' '.join(old.split())}`\n  - `{' '.join(new.split())}`")

print("\n### Clauses\n")
for where, old_requires, old_ensures, new_requires, new_ensures in lists["contracts changed"]:
    crate, path, name = where.split(" ", 2)
    print(f"- **{crate}** `{name}`")
    if old_requires or new_requires:
        print(f"  - requires `{clauses(old_requires)}`\n  - now `{clauses(new_requires)}`")
    print(f"  - ensures `{clauses(old_ensures)}`\n  - now `{clauses(new_ensures)}`")

print("\n### Definitions, and statements of laws, that changed\n")
for crate, name, old, new in lists["definitions"]["changed"]:
    a, b = statement(old), statement(new)
    if a != b:
        print(f"- **{crate}** `{name}`\n  - `{a}`\n  - `{b}`")

print("\n### Edits that were carried over: old and new\n")
for crate, path, old, new in lists["edits and outputs"]["changed"]:
    print(f"- **{crate}** `{path.split('/')[-1]}`\n  - `{old}`\n  - `{new}`")
