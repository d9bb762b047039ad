#!/usr/bin/env python3
"""Counts the places of older forms in src/ that docs/DESIGN-PASS.md speaks of, and lists them with -v.

  python3 tools/forms.py [-v] [FOLDER]      FOLDER: the top of a checkout, here by default

It reads text alone: a place is a line (or a signature) that matches a pattern below. What the patterns can't see (twins, what is no plainer) the
page counts by hand.
"""
import glob
import re
import sys

args = [a for a in sys.argv[1:] if a != "-v"]
top = args[0] if args else "."
loud = "-v" in sys.argv

sources = {}
for path in sorted(glob.glob(top + "/crates/*/src/*.rt")):
    sources[path[len(top) + 1:]] = open(path, encoding="utf-8").read()


def lines(pattern):
    """The lines that match, comments left out."""
    found = []
    for path, text in sources.items():
        for number, line in enumerate(text.split("\n"), 1):
            if not line.lstrip().startswith("//") and re.search(pattern, line):
                found.append(f"{path}:{number}: {line.strip()}")
    return found


def comments(pattern):
    """The comment lines that match."""
    found = []
    for path, text in sources.items():
        for number, line in enumerate(text.split("\n"), 1):
            if line.lstrip().startswith("//") and re.search(pattern, line):
                found.append(f"{path}:{number}: {line.strip()}")
    return found


def enums(pattern):
    """The enums one of whose variants matches."""
    found = []
    for path, text in sources.items():
        for m in re.finditer(r"^(?:pub )?enum (\w+)[^{]*\{(.*?)^\}", text, re.M | re.S):
            if re.search(pattern, m.group(2), re.M):
                found.append(f"{path}: enum {m.group(1)}")
    return found


def signatures(test):
    """The functions whose parameters the test accepts."""
    found = []
    for path, text in sources.items():
        for m in re.finditer(r"^ *(?:pub )?fn (\w+)(?:<[^>]*>)?\(([^)]*)\)", text, re.M):
            if test(m.group(2)):
                found.append(f"{path}: fn {m.group(1)}")
    return found


def has(*names):
    return lambda a: all(re.search(r"\b" + n + r":", a) for n in names)


points = [
    ("1  enums of the shape of Option or Result", enums(r"^ *(Refused|Not|No)\(|^ *(Missing|End|Fine|Pass|Stay),")),
    ("1  structs that hold an answer beside a value", lines(r"^(pub )?struct After")),
    ("1  a number that says none (30, 50, n ..)", comments(r", (or|else) (30|50|n|count|ninodes)\b|\bor (30|50|n|count|ninodes)\.$")),
    ("1  flags kept as 0 and 1", lines(r"let mut \w+: u32 = [01];$|\blive: u32|any = 1;|same = 0;")),
    ("1  kinds and operations as numbers", lines(r"\b(kind|k|d|op) (==|!=|<|<=) [0-3]\b|^ *[0-3] (==|<|<=) (kind|k)\b")),
    ("3  loops that count an index by hand", lines(r"^ *(while|loop)\b")),
    ("4  printing, equality, conversions by hand", lines(r"^ *(pub )?fn (say|print|same|is_dots|number_of|place|small|join|wide|digit|hex)\w*[<(]")),
    ("5  blocks and counts together", signatures(has("blocks", "counts"))),
    ("5  inums and refs together", signatures(has("inums", "refs"))),
    ("5  an image and its superblock's numbers together", signatures(has("image", "g"))),
    ("6  an array with a length beside it", signatures(lambda a: re.search(r"\[\w+; \d+\],\s*(n|m|count|recorded|given|need): ", a))),
    ("6  arrays of one length side by side in a struct", lines(r"^ *(pub )?(blocks|counts|order|inums|refs|slots): \[")),
    ("7  a switch on which step to run", lines(r"^ *if (op|a|b) == ")),
]
total = 0
for name, found in points:
    print(f"{len(found):4}  {name}")
    if loud:
        for f in found:
            print("        " + f)
answers = glob.glob(top + "/crates/*/proofs/**/Answers.antt", recursive=True)
print(f"{len(answers):4}  8  files of answers, {sum(len(open(f, encoding='utf-8').read().split(chr(10))) for f in answers)} lines")
