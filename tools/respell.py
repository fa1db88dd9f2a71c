#!/usr/bin/env python3
"""Brings the repository's own definitions and lemmas to snake case: in specs/, proofs/, clauses and must-fail edits.

usage: python3 tools/respell.py [--list]      at the top, once, after the kit's port.py

What a function of src/ is called stays, and so does each name that the prover makes (of loops, goals and calls).
A lemma that would then have its function's name ends in _lem.
"""
import collections
import os
import re
import sys

NAME = r"[A-Za-z_][\w'\-₀-₉]*"
# these were told apart by a dash or by a capital alone; here they are before the rest is spelled anew
FIRST = {
    "some_in": "some_in_lem",  # UnionSteps, beside someIn of the specs
    "lines-of": "lines_of_lem",
    "passing-of": "passing_of_lem",
    "all-below": "all_below_lem",
    "lines_fit": "lines_fit_lem",
    "all-covered": "all_covered_lem",
    "minimal-below": "minimal_below_lem",
    "lines-in": "lines_in_lem",
    "passing-in": "passing_in_lem",
    "head-word": "head_word_lem",
    "row-trace": "row_trace_lem",
    "reach-test": "reach_test_lem",
    "settle-test": "settle_test_lem",
    "offer-test": "offer_test_lem",
    "first-bare": "first_bare_lem",
}


def texts():
    for folder, dirs, files in os.walk("crates"):
        dirs[:] = sorted(d for d in dirs if d != "out")
        for f in sorted(files):
            if f.endswith((".antt", ".rt", ".edit")):
                yield os.path.join(folder, f)


def snake(name):
    return re.sub(r"([a-z0-9])([A-Z])", lambda m: m.group(1) + "_" + m.group(2).lower(), name.replace("-", "_"))


def answers(path):
    return path.endswith(("Answers.antt", "Invariants.antt", "Choices.antt"))


def named(path, text):
    """The names that a file of specs/ or proofs/ gives, and those that any file gives by `as`."""
    if path.endswith(".antt"):
        for line in text.split("\n"):
            m = re.match(r"(?:(?:abbrev|unfoldable|pub|axiom) )*(" + NAME + r") : (.*)", line)
            if m and not (answers(path) and m.group(2).startswith("goal")):
                yield m.group(1)
            m = re.match(r"\s+(?:\| ?)?(?:(?:abbrev|unfoldable|pub) )*(" + NAME + r") : ", line)
            if m and not answers(path):
                yield m.group(1)
    for m in re.finditer(r"\bas (" + NAME + ")", text):
        yield m.group(1)


def main():
    files = {p: open(p, encoding="utf-8").read() for p in texts()}
    names = {n for p, t in files.items() for n in named(p, t)}
    turned = dict(FIRST)
    for n in names:
        if n not in turned and n[0].islower() and ("-" in n or re.search("[a-z0-9][A-Z]", n)):
            turned[n] = snake(n)
    made = collections.defaultdict(set)
    for old, new in turned.items():
        made[new].add(old)
    for new, olds in sorted(made.items()):
        if len(olds) > 1 or (new in names and new not in turned):
            print("fall together:", new, sorted(olds), file=sys.stderr)
    if "--list" in sys.argv:
        for old, new in sorted(turned.items()):
            print(old, new)
        here = re.compile(r"(?<![\w'\-])(" + "|".join(sorted(map(re.escape, made), key=len, reverse=True)) + r")(?![\w'\-])")
        for p, t in files.items():
            for i, line in enumerate(t.split("\n"), 1):
                code = re.split(r"//|--", line)[0]
                for m in here.finditer(code):
                    print("stands already:", p, i, m.group(1), "|", line.strip()[:120])
        return
    word = re.compile(r"(?<![\w'\-])(" + "|".join(sorted(map(re.escape, turned), key=len, reverse=True)) + r")(?![\w'\-₀-₉])")
    # a name that the prover makes of a function's name: only behind a dot
    by_hand = {n for n in turned if n in ("all-covered", "take-lowest", "first-bare")}

    def put(m, text):
        name = m.group(1)
        if name in by_hand and m.start() and text[m.start() - 1] == ".":
            return name
        return turned[name]

    for p, t in files.items():
        new = word.sub(lambda m: put(m, t), t)
        if new != t:
            with open(p, "w", encoding="utf-8") as f:
                f.write(new)


main()
