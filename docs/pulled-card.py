#!/usr/bin/env python3
"""Draws docs/pulled-card.svg from the stored output of the program crates/pulled_run, which the gate runs.

    docs/pulled-card.py            write the picture
    docs/pulled-card.py --check    fail where the picture in the repository is not the one that the output gives

A line of the output is `k: ANSWER WRITES: GROUPS`: the commit was given k writes, answered 0 (done) or 19 (cut) with so many writes, and each letter of
the groups says what one pair of cut recoveries and a last one that finished left: o the old save, n the new one.
"""
import os, re, sys

here = os.path.dirname(os.path.abspath(__file__))
output = os.path.join(here, "..", "crates", "pulled_run", "stdout")
picture = os.path.join(here, "pulled-card.svg")
OLD, NEW, INK, PAPER = "#c8d6e5", "#f6b93b", "#222f3e", "#ffffff"


def outcomes():
    found = {}
    for line in open(output):
        at = re.match(r"(\d+): (\d+) (\d+): ([on ]+)$", line.strip())
        if at:
            found[int(at.group(1))] = (int(at.group(2)), int(at.group(3)), at.group(4).replace(" ", ""))
    return found


def drawn():
    found = outcomes()
    due = found[max(found)][1]
    n = (due - 2) // 2
    steps = ["log"] * n + ["header"] + ["home"] * n + ["emptied"]
    left, top, wide, high = 190, 62, 62, 40
    out = []
    say = out.append
    width, height = left + wide * due + 60, top + high + 34 + 22 * (due + 1) + 46
    say(f'<svg xmlns="http://www.w3.org/2000/svg" viewBox="0 0 {width} {height}" font-family="sans-serif" font-size="13" fill="{INK}">')
    say(f'<rect width="{width}" height="{height}" fill="{PAPER}"/>')
    say(f'<text x="14" y="26" font-size="17">A save of {n} blocks: {due} block writes, and what a pulled card recovers to</text>')
    say(f'<text x="14" y="{top + 25}">write number</text>')
    for k, step in enumerate(steps, 1):
        x = left + wide * (k - 1)
        mark = INK if step == "header" else "none"
        say(f'<rect x="{x + 2}" y="{top}" width="{wide - 4}" height="{high}" fill="#eef1f5" stroke="{mark}" stroke-width="2"/>')
        say(f'<text x="{x + wide / 2}" y="{top + 17}" text-anchor="middle">{k}</text>')
        say(f'<text x="{x + wide / 2}" y="{top + 33}" text-anchor="middle" font-size="11">{step}</text>')
    for k in range(due + 1):
        number, writes, letters = found[k]
        y = top + high + 30 + 22 * k
        kind = {"o": ("old", OLD), "n": ("new", NEW)}[letters[0]] if len(set(letters)) == 1 else ("mixed", "#ff6b6b")
        say(f'<text x="14" y="{y + 13}">pulled after {writes}</text>')
        if writes:
            say(f'<rect x="{left + 2}" y="{y}" width="{wide * writes - 4}" height="16" fill="{kind[1]}"/>')
        say(f'<text x="{left + max(writes, 0) * wide + 6}" y="{y + 13}" font-weight="bold">{kind[0]}</text>')
    y = top + high + 30 + 22 * (due + 1) + 20
    say(f'<text x="14" y="{y}" font-size="12">each row: {len(found[0][2])} pairs of cut recoveries, then one that finished; all {len(found[0][2])} left the same</text>')
    say("</svg>")
    return "\n".join(out) + "\n"


if sys.argv[1:] == ["--check"]:
    if open(picture).read() != drawn():
        sys.exit("docs/pulled-card.svg is not what crates/pulled_run/stdout gives: run docs/pulled-card.py")
else:
    open(picture, "w").write(drawn())
