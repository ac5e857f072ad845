#!/usr/bin/env python3
"""Brings the repository's own definitions and lemmas to today's spelling: words in snake case.

usage: python3 tools/respell.py [FOLDER]      run once, right after port.py; prints the names that would fall together

It goes by the names that the repository declares: definitions, lemmas, record fields, constructors and local names of specs/ and proofs/. Types and modules
keep their capitals, names of the library and the names that Rattle makes (goals and steps) stay.
"""

import os
import re
import sys
from collections import defaultdict

ROOT = sys.argv[1] if len(sys.argv) > 1 else "."
NAME = r"[^\s(){}\[\];,.@:⌜⌝]+"
TOKEN = re.compile(r"[^\s(){}\[\];,.@⌜⌝]+")
DECLARED = re.compile(r"^\s*(?:abbrev |unfoldable |unfold )?(?:pub )?(?:record |data )?(" + NAME + r") :(?: |$)")
LET = re.compile(r"(?:\blet |\bλ )(" + NAME + r")")
BINDER = re.compile(r"[({]((?:" + NAME + r" )+): ")
USE = re.compile(r"^(?:ghost )?use ([\w.+'-]+)\.\{(.*)\};?$")
GOAL = re.compile(r"^(\S+) : tie\.")
# A name that falls together with another one gets another spelling, here.
SPECIAL = {n: n.replace('-', '_') + '_lem' for n in (
    'lowest-block lowest-piece macro-number refusal-of report-number said-no same-run spacing-count strip-at tiles-of waits-at width-count width-rows').split()}


def files(root):
    for folder, dirs, names in os.walk(os.path.join(root, "crates")):
        dirs[:] = sorted(d for d in dirs if d != "out")
        for n in sorted(names):
            if n.endswith((".rt", ".antt", ".edit")):
                yield os.path.join(folder, n)


def read(p):
    with open(p, encoding="utf-8") as f:
        return f.read()


def old_style(name):
    return bool(re.match(r"[a-zα-ω]", name)) and ("-" in name[1:] or re.search(r"[a-z0-9][A-Z]", name) or "′" in name) and re.fullmatch(r"[\w'′₀-₉-]+", name) and not name[-1] == "-"


def snake(name):
    if name in SPECIAL:
        return SPECIAL[name]
    name = re.sub(r"([a-z0-9])([A-Z])", lambda m: m[1] + "_" + m[2], name).replace("-", "_").replace("′", "'")
    return re.sub(r"[A-Z]", lambda m: m[0].lower(), name)


def main():
    crates = {d for d in os.listdir(os.path.join(ROOT, "crates"))}
    texts = {p: read(p) for p in files(ROOT)}
    own, goals, library = set(), defaultdict(set), defaultdict(set)
    every = defaultdict(set)
    for p, t in texts.items():
        for line in t.split("\n"):
            m = USE.match(line.strip())
            if m:
                part = m[1].split(".")
                if not (part[0] == "Rattle" and len(part) > 1 and part[1] in crates and "declared" not in part):
                    library[p].update(re.split(r"[, ]+", m[2]))
            if not p.endswith(".antt"):
                continue
            g = GOAL.match(line)
            if g:
                goals[p].add(g[1])
                continue
            m = DECLARED.match(line)
            if m:
                own.add(m[1])
            for m in LET.finditer(line):
                own.add(m[1])
            for m in BINDER.finditer(line):
                own.update(m[1].split())
        every[p] = {x for x in TOKEN.findall(t)}
    turned = {n: snake(n) for n in own if old_style(n) and not re.match(r"(Need|InvT|MeasureT|invariant|decreases)-", n)}
    clash = defaultdict(set)
    for old, new in turned.items():
        clash[new].add(old)
        if new in own:
            clash[new].add(new)
    said = 0
    for new, olds in sorted(clash.items()):
        if len(olds) > 1:
            said += 1
            print("together:", new, "of", ", ".join(sorted(olds)))
    changed = 0
    for p, t in texts.items():
        keep = library[p] | goals[p]

        comments = [c.span() for c in re.finditer(r"(?<!\S)--(?!-).*|//.*", t)]

        def turn(m):
            w = m[0].strip("`")
            if w != m[0]:
                return m[0].replace(w, turned.get(w, w))
            if "-" in w and any(a <= m.start() < b for a, b in comments):
                return w
            if w in turned and w not in keep:
                before = t[max(0, m.start() - 4):m.start()]
                if before.endswith(("tie.", "oal.")):
                    return w
                if turned[w] in every[p]:
                    print("hides:", os.path.relpath(p, ROOT), w, "->", turned[w])
                return turned[w]
            return w

        new = TOKEN.sub(turn, t)
        if new != t:
            changed += 1
            with open(p, "w", encoding="utf-8") as f:
                f.write(new)
    print(f"{len(turned)} names, {changed} files, {said} fall together")


main()
