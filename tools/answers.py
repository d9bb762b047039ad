#!/usr/bin/env python3
"""Turns a crate's proofs/F/Proof.antt, which walked the code by an older Rattle's names, into proofs/F/Invariants.antt and proofs/F/Answers.antt.

usage: tools/answers.py CRATE NAMES [FUNCTION..]     at the top of the repository; NAMES is the names.json that
                                                     `rt check --generated FOLDER --old-names` wrote for the crate

A loop's invariant and measure become functions of its record, each goal gets its new name, and a path `c.before.before.STEP.FIELD` becomes `c.NEW-STEP.FIELD`.
An answer that is only `search rules` is dropped: the check tries that itself. What it could not turn it says.
"""
import glob
import json
import os
import re
import sys

WORD = r"[\w'₀-₉\-]"


def flat(name):
    return name.replace("_", "-").replace("-", "")


# words that port.py put before a goal's name
SAME = {"holds": "init", "less": "smaller", "again": "preserved"}


def borrowed():
    """function -> the parameters that it is lent to write, in order"""
    found = {}
    for f in glob.glob("crates/*/src/*.rt"):
        text = open(f, encoding="utf-8").read()
        for m in re.finditer(r"\bfn (\w+)(?:<[^>]*>)?\(([^)]*)\)", text):
            found[f.split("/")[1] + "::" + m.group(1)] = re.findall(r"(\w+): &(?:'\w+ )?mut\b", m.group(2))
    return found


BORROWED = borrowed()


def chain(places, at):
    """The steps from a place up to the start: (old step, new step)."""
    by = {p[0]: p for p in places}
    while at in by:
        p = by[at]
        if p[2][0]:
            yield p[2]
        at = p[1]


def arms(places, at):
    """What an arm of a match bound, by its older name: the arm's step now."""
    by = {p[0]: p for p in places}
    found = {}
    while at in by:
        p = by[at]
        above = by.get(p[1])
        if p[2][0] and p[3] is None and above and above[2][0].startswith("match"):
            found.setdefault(flat(p[2][0]), above[2][1])
        at = p[1]
    return found


def convert(crate, folder, names):
    path = f"crates/{crate}/proofs/{folder}/Proof.antt"
    text = open(path, encoding="utf-8").read()
    key = next((k for k in names if k == f"Rattle-{crate}-proofs.{folder.replace('/', '.')}.Lts"), None)
    if key is None:
        return f"{folder}: no names"
    data = names[key]
    said = []
    head, imports, kept, invariants, answers = [], [], [], [], []
    lines = text.split("\n")
    i = 0
    while i < len(lines) and lines[i].startswith("--"):
        head.append(lines[i])
        i += 1
    body = "\n".join(lines[i:])
    for m in re.finditer(r"^use [^\n{]+(?:\{[^}]*\})?[^\n]*$", body, re.M):
        if not re.search(r"\.(Statement\.\{statement\}|Tie as tie)", m.group(0)):
            imports.append(m.group(0))
    body = re.sub(r"^use [^\n{]+(?:\{[^}]*\})?[^\n]*\n", "", body, flags=re.M)
    loops = {}
    callees = {p[2][1]: p[3] for p in data["places"] if p[3]}
    for k, (names_, variables) in enumerate(data["loops"]):
        loops[flat(names_[0])] = (names_[1], variables, data["changed"][k])
    needs = {}
    for (old, new), at in zip(data["needs"], data["asked_at"]):
        needs[flat(old)] = (new, at[0])

    def steps(at):
        found = {}
        for old, new in chain(data["places"], at):
            found.setdefault(flat(old), new)
        return found

    for block in re.split(r"\n\s*\n", body.strip("\n")):
        if not block.strip():
            continue
        m = re.match(r"(?:pub )?[\w\-]+[-_]spec\b", block)
        if m:
            continue
        m = re.match(r"((?:--[^\n]*\n)*)abbrev (\S+) : tie\.(invariant|decreases|InvT|MeasureT)-(\S+)\n(?:unfolding [^\n]*\n)?(\S+)((?: [^\s=]+)*) =(.*)\Z", block, re.S)
        if m:
            comment, _, kind, loop, _, params, value = m.groups()
            kind = {"InvT": "invariant", "MeasureT": "decreases"}.get(kind, kind)
            if flat(loop) not in loops:
                said.append(f"{folder}: no loop {loop}")
                continue
            new, variables, changed = loops[flat(loop)]
            terms = [("l.initial." if ch else "l.") + v for v, ch in zip(variables, changed)] + ["l." + v for v, ch in zip(variables, changed) if ch]
            given = params.split()
            if len(given) != len(terms):
                said.append(f"{folder}: {len(given)} variables of loop {loop}, {len(terms)} now")
            table = {p: t for p, t in zip(given, terms) if p != "_"}
            value = re.sub(r"(?<![\w'₀-₉\-.])" + WORD + "+", lambda w: table.get(w.group(0), w.group(0)), value)
            # a parameter that ends a dotted path is a field: only heads are turned, which the look-behind sees to
            invariants.append(f"{comment}abbrev pub {kind}-{new} : goal.{kind}-{new}\n{kind}-{new} l ={value}")
            continue
        m = re.match(r"((?:--[^\n]*\n)*)(\S+) : tie\.Need-(\S+)([^\n]*)\n((?:unfolding [^\n]*\n)?)(.*)\Z", block, re.S)
        if m:
            comment, local, need, _, unfolding, clauses = m.groups()
            tries = [need, local, need.removeprefix("overflow-"), need.removeprefix("overflow_")]
            for a, b in SAME.items():
                tries.append(need.replace(a, b))
            hit = next((needs[flat(t)] for t in tries if flat(t) in needs), None)
            if hit is None:
                said.append(f"{folder}: no goal {need}")
                kept.append("-- NO GOAL\n-- " + block.replace("\n", "\n-- "))
                continue
            new, at = hit
            first = re.match(r"(\S+)((?: [^\s=]+)*) =(.*)\Z", clauses, re.S)
            if not first:
                said.append(f"{folder}: {need} has a form of its own")
                kept.append(block)
                continue
            value = first.group(3)
            if value.strip() == "search rules" :
                continue
            value = turn(value, steps(at), arms(data["places"], at), folder, new, said)
            value = lent(value, callees)
            value = tidied(value, data)
            answers.append(f"{comment}pub {new} : goal.{new}\n{unfolding}{new} c ={value}")
            continue
        kept.append(block)
    module = folder.replace("/", ".")
    if invariants:
        out = "\n".join(head) + ("\n" if head else "") + "\n".join(imports) + f"\nuse Rattle.{crate}.proofs.{module}.Given as goal\n\n" + "\n\n".join(invariants) + "\n"
        open(f"crates/{crate}/proofs/{folder}/Invariants.antt", "w", encoding="utf-8").write(out)
    if answers or [k for k in kept if not k.startswith("-- NO GOAL")]:
        use = imports + [f"use Rattle.{crate}.proofs.{module}.Goals as goal"]
        out = "\n".join(head) + ("\n" if head else "") + "\n".join(use) + "\n\n" + "\n\n".join(kept + answers) + "\n"
        open(f"crates/{crate}/proofs/{folder}/Answers.antt", "w", encoding="utf-8").write(out)
    os.remove(path)
    return "\n".join(said)


def turn(value, steps, arms, folder, goal, said):
    def path(m):
        rest = m.group(2)
        first, dot, more = rest.partition(".")
        first = first.removesuffix("_contract")
        if first[:1].isupper():
            first = first[0].lower() + first[1:]
        if flat(first) in arms and re.match(r"given\.1\b", more):
            return f"c.{arms[flat(first)]}.is" + more[len("given.1"):]
        if flat(first) in steps and steps[flat(first)]:
            return "c." + steps[flat(first)] + dot + more
        if first in ("args", "requires", "ranges", "utf8"):
            return "c." + rest
        said.append(f"{folder}: {goal}: no step {first}")
        return "c." + rest

    value = re.sub(r"\bc((?:\.before)*)\.(" + WORD + r"+(?:\." + WORD + r"+)*)", path, value)
    value = re.sub(r"\bc((?:\.before)+)(?![\w.])", "c", value)
    # `let a = c.before.before in a.STEP`
    return value


def tidied(value, data):
    """Arguments' names; `if !ok` says now what ok was; what the library keeps under a name of its own."""
    for old, new in data["args"]:
        value = re.sub(rf"\bc{re.escape(old.replace(' ', ''))}(?![\w'₀-₉\-])", "c" + new.replace(" ", ""), value)
    value = re.sub(r"\(not-(?:false|true) _ (c\.if-not-[\w\-]+\.(?:false|true))\)", r"\1", value)
    value = value.replace("c.well-formed", "c.well_formed")
    return value


def lent(value, callees):
    def named(m):
        mine = BORROWED.get(callees.get(m.group(1), ""), [])
        k = int(m.group(3))
        return f"c.{m.group(1)}.{m.group(2)}.{mine[k]}" if k < len(mine) else m.group(0)

    return re.sub(r"\bc\.(" + WORD + r"+)\.(new|auto)\.(\d)", named, value)


def main():
    crate, names = sys.argv[1], json.load(open(sys.argv[2], encoding="utf-8"))
    only = sys.argv[3:]
    for p in sorted(glob.glob(f"crates/{crate}/proofs/**/Proof.antt", recursive=True)):
        folder = os.path.dirname(p)[len(f"crates/{crate}/proofs/"):]
        if only and folder not in only:
            continue
        said = convert(crate, folder, names)
        if said:
            print(said)


if __name__ == "__main__":
    main()
