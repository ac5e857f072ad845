#!/usr/bin/env python3
"""Counts, in the sources of a commit, the places that docs/DESIGN-PASS.md speaks of.

    python3 tools/places.py [COMMIT] [--list]

COMMIT is HEAD if none is named, and `.` is the folder as it stands. With --list each place is printed, with its file and line.
"""
import collections
import io
import os
import re
import subprocess
import sys
import tarfile

FN = re.compile(r"^( *)(?:pub )?(?:extern \"C\" )?fn (\w+)(?:<[^>]*>)?\(", re.M)
FACT = re.compile(r"\b[A-Z][A-Za-z]+\b")
TRAVEL = [("material", "errors"), ("rules", "used"), ("bx", "by"), ("work", "n"), ("t", "b"), ("kinds", "marks"), ("rules", "chains")]
OWN = "wide less least most smaller large word_of same_tile same same_span precedes refusal_number answer_number number_in keyword_in fill clear_to copy_front append first_row is_open".split()


def tree(commit):
    """The text files of crates/ in a commit, or in the folder as it stands."""
    if commit == ".":
        names = [os.path.join(d, f) for d, _, fs in os.walk("crates") if "/out" not in d for f in fs]
        return {n: open(n).read() for n in names if n.endswith((".rt", ".antt"))}
    data = subprocess.run(["git", "archive", commit, "crates"], check=True, capture_output=True).stdout
    with tarfile.open(fileobj=io.BytesIO(data)) as tar:
        return {m.name: tar.extractfile(m).read().decode() for m in tar if m.name.endswith((".rt", ".antt"))}


def functions(text):
    """Name, line, parameters and the whole text of each function of a file."""
    starts = list(FN.finditer(text))
    for k, m in enumerate(starts):
        end = text.find("\n" + m.group(1) + "}\n", m.start())
        body = text[m.start():end]
        depth, i = 1, m.end()
        while depth and i < len(text):
            depth += {"(": 1, ")": -1}.get(text[i], 0)
            i += 1
        params = [p.split(":")[0].replace("mut ", "").strip() for p in text[m.end():i - 1].split(",") if ":" in p]
        yield m.group(2), text.count("\n", 0, m.start()) + 1, params, body


def skeleton(body):
    """A function's body with each name, number, comparison and sign replaced, and its contract left out."""
    code = body[body.find("\n" + " " * (len(body) - len(body.lstrip())) + "{"):]
    code = re.sub(r"//.*", "", code)
    words = re.findall(r"[A-Za-z_]\w*|\d\w*|[^\s\w]+", code)
    keep = {"let", "mut", "if", "else", "while", "for", "in", "return", "match", "true", "false"}
    said = [w if w in keep else "a" if w[0].isalpha() or w[0] == "_" else "1" if w[0].isdigit() else "?" if w in ("<", "<=", ">", ">=", "==", "!=") else "~" if w in ("+", "-") else w for w in words]
    return " ".join(said)


def places(files):
    found = collections.OrderedDict((k, []) for k in (
        "1 enums", "1 flags in structs", "1 numbers for kinds", "2 functions of one skeleton", "3 while loops", "3 of them counting by one",
        "4 own conversions and comparisons", "4 casts by as", "5 facts in three or more functions", "5 parameters that travel together",
        "6 a slice and its length", "7 functions as values", "8 files of answers", "8 lines of answers", "8 laws that nothing names"))
    facts, groups = collections.defaultdict(list), collections.defaultdict(list)
    for name, text in sorted(files.items()):
        if not re.match(r"crates/\w+/src/", name):
            continue
        lines = text.split("\n")
        for n, line in enumerate(lines, 1):
            at = f"{name}:{n}: {line.strip()}"
            for key, form in (("1 enums", r"^(pub )?enum "), ("1 flags in structs", r"^    (pub )?\w+: bool,"), ("1 numbers for kinds", r"\b(side|edge|low): (u16|usize)"),
                              ("3 while loops", r"^ *while "), ("4 casts by as", r"^(?!//).*\bas (u8|u16|u32|u64|usize)\b"), ("7 functions as values", r"\b(impl Fn|dyn |F: Fn|FnMut|FnOnce)")):
                if re.search(form, line):
                    found[key].append(at)
        for fn, n, params, body in functions(text):
            at = f"{name}:{n}: fn {fn}"
            for m in re.finditer(r"^( *)while (.*) \{\n(.*?)^\1\}", body, re.M | re.S):
                steps = re.findall(r"\b(\w+) [+-]= 1;", m.group(3))
                if any(re.search(r"\b" + s + r"\b", m.group(2)) for s in steps):
                    found["3 of them counting by one"].append(at)
            if fn in OWN:
                found["4 own conversions and comparisons"].append(at)
            for a, b in TRAVEL:
                if a in params and b in params:
                    found["5 parameters that travel together"].append(f"{at}: {a}, {b}")
            if ("work" in params or "ws" in params) and "n" in params or "tail" in params or "out" in params and ("m" in params or "at" in params):
                found["6 a slice and its length"].append(at)
            asked = " ".join(re.findall(r"^ *requires.*", body, re.M))
            for fact in set(FACT.findall(asked)):
                facts[fact].append(at)
            shape = skeleton(body)
            if shape.count(" ") > 40:
                groups[shape].append(at)
    for fact, where in sorted(facts.items()):
        if len(where) >= 3:
            found["5 facts in three or more functions"].append(f"{fact}: {len(where)} functions")
    for where in groups.values():
        if len(where) > 1:
            found["2 functions of one skeleton"].extend(where)
    proofs = {n: t for n, t in files.items() if n.endswith(".antt")}
    for n, t in sorted(proofs.items()):
        if n.endswith("/Answers.antt"):
            found["8 files of answers"].append(n)
            found["8 lines of answers"].extend([n] * t.count("\n"))
    words = {n: collections.Counter(re.findall(r"[A-Za-z_][\w'-]*", t)) for n, t in files.items()}
    for n, t in sorted(proofs.items()):
        if re.match(r"crates/\w+/proofs/\w+\.antt$", n) and not n.endswith("/Lib.antt"):
            for law in sorted(set(re.findall(r"^ *(?:pub )?([a-z_][\w'-]*) :", t, re.M))):
                own = len(re.findall(r"^ *(?:pub )?" + re.escape(law) + r"(?![\w'-])", t, re.M))
                if words[n][law] <= own and not any(w[law] for m, w in words.items() if m != n):
                    found["8 laws that nothing names"].append(f"{n}: {law}")
    return found


def main():
    args = [a for a in sys.argv[1:] if not a.startswith("--")]
    for key, where in places(tree(args[0] if args else "HEAD")).items():
        print(f"{len(where):6} {key}")
        if "--list" in sys.argv and key != "8 lines of answers":
            for at in where:
                print("       ", at)


if __name__ == "__main__":
    main()
