#!/usr/bin/env python3
"""Counts, in the crates' src/, the places that docs/DESIGN-PASS.md speaks of, in two ways: by lines, and by whole functions.

    tools/places.py          at the top of a checkout; each number is followed by its places with -v
"""
import collections
import glob
import re
import sys

# The first way: lines that match. Test crates count too.
LINES = [
    ("1 refusals by let-true", r"^\s*let true = "),
    ("1 flags as fields", r"^\s*(pub(\(crate\))? )?\w+: bool,"),
    ("1 arms that give a number", r"=> [0-9]+,$"),
    ("3 while loops", r"^\s*while "),
    ("3 counts by hand", r"\+= 1;"),
    ("3 loops over a range", r"for \w+ in .*\.\."),
    ("4 conversions and comparisons by hand", r"\bfn (number|word|encode|of|same_as|is_within)\b"),
    ("4 text by hand", r"\bfn (\w+_text|\w+_line|push_\w+)\b"),
    ("5 heap and text together", r"heap: Global, text: &mut String|^\s*text: &mut String,"),
    ("5 a word's place handed down", r"\bplace: usize"),
    ("6 arrays of fixed length", r"\[[a-zA-Z0-9]+; [0-9A-Z]+\]"),
    ("6 vectors as fields", r"(: Vec<.*>,$)"),
    ("6 buffers and vectors lent", r"&mut Vec<|&mut \["),
    ("7 dyn, function pointers, a step picked by a match of two", r"\bdyn |: fn\(|match \("),
]


def functions(text):
    """Name, signature with its clauses, body."""
    text = re.sub(r"//[^\n]*", "", text)
    for found in re.finditer(r"\bfn\s+(\w+)", text):
        at = found.end()
        while at < len(text) and text[at] not in ";{":
            clause = re.match(r"\s(requires|ensures)\b[^{]*\{", text[at:])
            at += clause.end() if clause else 1
            depth = 1 if clause else 0
            while depth:
                depth += (text[at] == "{") - (text[at] == "}")
                at += 1
        if at >= len(text) or text[at] == ";":
            continue
        end, depth = at + 1, 1
        while depth:
            depth += (text[end] == "{") - (text[end] == "}")
            end += 1
        yield found.group(1), text[found.end() : at], text[at:end]


WORDS = set("let mut if else for in while match return self Ok Err Some None true false loop break continue".split())


def shape(body):
    tokens = re.findall(r"[A-Za-z_]\w*|\d\w*|[^\s\w]", body)
    plain = [t if t in WORDS or not re.match(r"\w", t) else ("0" if t[0].isdigit() else "x") for t in tokens]
    return " ".join(plain) if len(plain) >= 12 else None


def by_functions():
    """The second way: bodies of one shape, loops that index by what they count, text that is put together, bits that are taken out of a set."""
    shapes = collections.defaultdict(list)
    kinds = collections.OrderedDict(
        (k, []) for k in ("2 bodies of one shape", "3 indexing by a counted number", "4 functions that put text together", "5 bits taken out of a set")
    )
    for path in sorted(glob.glob("crates/*/src/*.rt")):
        if re.search(r"_tests/|_examples/|tests\.rt$", path):
            continue
        for name, signature, body in functions(open(path).read()):
            here = f"{path}:{name}"
            if shape(body):
                shapes[shape(body)].append(here)
            counted = re.findall(r"for\s+(\w+)\s+in\s+[^{]*\.\.", body) + re.findall(r"(\w+)\s*\+=\s*1", body)
            if any(re.search(r"\[[^\]]*\b" + v + r"\b[^\]]*\]", body) for v in counted):
                kinds["3 indexing by a counted number"].append(here)
            if "String" in signature and re.search(r"push|format!", body):
                kinds["4 functions that put text together"].append(here)
            if re.search(r"\.bits\(\)\s*(&|\||\^|<<|>>)|!\w+\.bits\(\)", body):
                kinds["5 bits taken out of a set"].append(here)
    kinds["2 bodies of one shape"] = [", ".join(v) for v in shapes.values() if len(v) > 1]
    return kinds.items()


def main():
    lines = [(path, line.rstrip("\n")) for path in sorted(glob.glob("crates/*/src/*.rt")) for line in open(path)]
    code = [(path, line) for path, line in lines if not line.strip().startswith("//")]
    print("by lines")
    rows = [(name, [f"{p}: {l.strip()}" for p, l in code if re.search(pattern, l)]) for name, pattern in LINES]
    for way, places in (("", rows), ("by functions", by_functions())):
        print(way) if way else None
        for name, found in places:
            print(f"{len(found):5} {name}")
            if "-v" in sys.argv:
                print("\n".join("        " + f for f in found))


main()
