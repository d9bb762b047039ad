#!/usr/bin/env python3
"""Respells this repository's own definitions and lemmas as today's Rattle does: snake case, and a dash only between two names of definitions.

usage: tools/respell.py [--list]     at the top of the repository, once, right after /opt/rattle/port/port.py

Every name that specs/ or proofs/ declare at the top of a file, as a field or as a constructor, and that has a dash or a hump (`inodeAt`, `put-out`)
gets its new name wherever it stands as a whole word: in specs, lemma files, proofs, clauses and comments of src/. Functions of src/, exported names, strings and the
library's names stay. Names that would fall together with another are listed and stop the script. --list prints old and new, and writes nothing.
"""
import glob
import re
import sys

WORD = r"[^\s(){}\[\]:;,|.`\"=<>⌜⌝λ∀→×⊎]+"
# words of the library that a dash joins to a name of ours
LIBRARY = {"length", "set", "take", "drop", "min", "get_or", "cond", "map", "or", "and", "ltb", "leb", "eqb"}
# two names that would fall together in one file: the lemma's gives way to the definition's
BY_HAND = {
    "numbers_of": "numbers_of_good",  # beside numbersOf
    "fit_of": "fit_of_used",  # beside fitOf
    "in_use": "slots_in_use",  # beside inUse
    "is-entry": "is_an_entry",  # beside isEntry
    "no_slash": "slash_not",  # beside noSlash
    "free-bit": "bit_is_free",  # beside freeBit
    "free-inode": "inode_is_free",  # beside freeInode
    "new-file": "file_is_new",  # beside newFile
    "new-dir": "dir_is_new",  # beside newDir
    "is-set": "is_set_bit",  # beside is_set
    "From-start": "from_the_start",
    # other names that an import gives
    "blocksOf": "blocks_of",
    "idleOf": "idle_of",
    "stoppedOf": "stopped_of",
    "paddedName": "padded_name",
    "superBytes": "super_bytes",
    "twoFilesBitmap": "two_files_bitmap",
    # declared together with another
    "endedVolume": "ended_volume",
    "idleVolume": "idle_volume",
    "namedInode": "named_inode",
    "slotsIn": "slots_in",
    "onCard": "lies_on_card",
}

# both parts name a definition, some of them one of the unfinished writing side
JOINED = {
    "clear-and",
    "front-named",
    "full-bits",
    "named-place",
    "seen-taken",
    "held-taken",
    "get-full",
    "block-full",
    "entry-live",
    "ones-full",
    "block-taken",
    "link-count",
    "link-none",
    "link-root",
    "ends-stops",
    "other-stops",
    "place-back",
    "padded-full",
    "holds-settled",
    "all-seven",
}

HEAD = re.compile(r"^(\s*)((?:(?:pub|unfoldable|abbrev|data|record)\s+)*)(" + WORD + r")\s*:(?!=)\s")


def declared():
    """name -> (indentations it is declared at, whether as a type)"""
    names = {}
    for f in sorted(glob.glob("crates/*/specs/*.antt") + glob.glob("crates/*/proofs/*.antt")):
        for line in open(f, encoding="utf-8"):
            m = HEAD.match(line)
            if m:
                names.setdefault(m.group(3), set()).add((len(m.group(1)), m.group(2).strip(), f))
            m = re.match(r"^\s*(?:pub\s+)?(?:data|record)\s+(" + WORD + ")", line)
            if m:
                names.setdefault(m.group(1), set()).add((0, "type", f))
    return names


def snake(word):
    return re.sub(r"(?<=[a-z0-9₀-₉])([A-Z])", lambda m: "_" + m.group(1).lower(), word)


def respelled(name, definitions):
    if name in BY_HAND:
        return BY_HAND[name]
    if name in JOINED:
        return name
    if name[0].isupper():
        return name
    parts = name.split("-")
    if any(not p for p in parts):
        return name
    out = parts[0] if re.match(r"[A-Z]", parts[0]) else snake(parts[0])
    for i in range(1, len(parts)):
        left = "-".join(parts[:i])
        right = "-".join(parts[i:])
        new = parts[i] if re.match(r"[A-Z]", parts[i]) else snake(parts[i])
        joins = (left in definitions or left in LIBRARY) and (right in definitions or right in LIBRARY)
        out += ("-" if joins else "_") + new
    return out


def together(files, tokens, table):
    """Stops where two names of one file would become one. A definition may have the name of a function of src/: those are two places."""
    functions = set()
    for f in glob.glob("crates/*/src/*.rt"):
        functions.update(re.findall(r"\bfn (\w+)", open(f, encoding="utf-8").read()))
    bad = []
    for f in sorted(set(files)):
        lines = [x for x in open(f, encoding="utf-8").read().split("\n") if not x.lstrip().startswith(("--", "//"))]
        seen = {}
        for m in tokens.finditer("\n".join(lines)):
            seen.setdefault(table.get(m.group(0), m.group(0)), set()).add(m.group(0))
        bad += [f"{f}: {' and '.join(sorted(was))} would both be {new}" for new, was in seen.items() if len(was) > 1 and new not in functions]
    if bad:
        sys.exit("\n".join(bad))


def main():
    names = declared()
    definitions = {n for n, at in names.items() if "-" not in n and any(i == 0 for i, _, _ in at)}
    table = {n: respelled(n, definitions) for n in names}
    table.update(BY_HAND)
    table = {n: m for n, m in table.items() if n != m}
    if "--list" in sys.argv:
        for n, m in sorted(table.items()):
            print(n, m)
        return
    files = [f for pat in ("crates/*/must-fail/*.edit", "crates/*/specs/*.antt", "crates/*/proofs/*.antt", "crates/*/proofs/**/*.antt", "crates/*/src/*.rt") for f in glob.glob(pat, recursive=True)]
    tokens = re.compile(r"(?<![\w'₀-₉.\-·])[A-Za-z][\w'₀-₉\-]*|(?<=\.)[A-Za-z][\w'₀-₉\-]*")
    together(files, tokens, table)
    for f in sorted(set(files)):
        text = open(f, encoding="utf-8").read()
        new = tokens.sub(lambda m: table.get(m.group(0), m.group(0)), text)
        if new != text:
            open(f, "w", encoding="utf-8").write(new)


if __name__ == "__main__":
    main()
