#!/usr/bin/env python3
"""Lists the places in src/ that docs/DESIGN-PASS.md counts, point by point.

usage: python3 tools/places.py [FOLDER [POINT]]     FOLDER is a checkout (default: this one), POINT is 1 to 8 (default: the counts alone)
"""
import collections
import difflib
import itertools
import pathlib
import re
import sys

TOP = pathlib.Path(sys.argv[1] if len(sys.argv) > 1 else pathlib.Path(__file__).parent.parent)
FILES = sorted(TOP.glob("crates/*/src/**/*.rt"))
INTEGER = r"(?:u|i)(?:8|16|32|64|128|size)"


def lines():
    for file in FILES:
        for at, text in enumerate(file.read_text().splitlines(), 1):
            if not text.strip().startswith(("//", "ghost use")):
                yield f"{file.relative_to(TOP)}:{at}", text


def matching(pattern):
    return [f"{place}: {text.strip()}" for place, text in lines() if re.search(pattern, text)]


def functions():
    """Each function: its place, name, parameters, clauses and body."""
    head = re.compile(r"^( *)(?:pub(?:\(crate\))? )?fn (\w+)", re.M)
    for file in FILES:
        text = re.sub(r"^\s*//.*$", "", file.read_text(), flags=re.M)
        for found in head.finditer(text):
            indent = found.group(1)
            end = re.search(rf"^{indent}(?:\}}|\{{\}})|;$", text[found.start():], re.M)
            whole = text[found.start(): found.start() + end.end()] if end else text[found.start():]
            clauses = re.findall(r"^\s*(?:requires|ensures)\s*\w*\s*\{(.*)\}\s*;?$", whole, re.M)
            opening = re.search(rf"^{indent}\{{|\{{$", whole, re.M)
            signature = whole[: opening.start()] if opening else whole
            body = whole[opening.start():] if opening else ""
            parameters = re.search(r"\((.*?)\)\s*(?:->|$|requires|ensures|\n)", signature, re.S)
            names = re.findall(r"(\w+): ([^,()]+)", parameters.group(1)) if parameters else []
            place = f"{file.relative_to(TOP)}:{text[: found.start()].count(chr(10)) + 1} {found.group(2)}"
            yield place, names, clauses, body


def one():
    """Enums, flags, numbers for refusals."""
    return (
        matching(r"\benum \w+")
        + matching(r"\b\w+: bool\b")
        + matching(r"fn \w*number\w*\(.*-> u(?:8|16)\b")
        + matching(rf"Result<[^<>]*, {INTEGER}>")
    )


def two():
    """Functions whose bodies differ in names, types and numbers alone."""
    def shape(body):
        words = re.findall(r"\w+|[^\w\s]", body)
        return ["0" if word[0].isdigit() else "x" if re.match(r"[A-Za-z_]", word) and word not in KEPT else word for word in words]

    KEPT = {"if", "else", "match", "for", "while", "let", "return", "Some", "None", "Ok", "Err", "in", "mut"}
    shaped = [(place, shape(body)) for place, _, _, body in functions() if body]
    found = []
    for (a, x), (b, y) in itertools.combinations(shaped, 2):
        if min(len(x), len(y)) >= 14 and difflib.SequenceMatcher(None, x, y, autojunk=False).ratio() >= 0.93:
            found.append(f"{a} ~ {b}")
    return found


def three():
    """Loops over a number."""
    return matching(r"^\s*(?:while|loop)\b|\bfor \w+ in .*\.\.|\.enumerate\(\)")


def four():
    """Casts, bare derives, hand-written words and comparisons."""
    return (
        matching(rf"\bas {INTEGER}\b")
        + matching(r"derive\(Clone, Copy\)\]")
        + matching(r"fn \w*(?:name|differs|same|equal|worth_of|pair_of)\w*\(")
        + matching(r"=> \"\w+\"")
    )


def five():
    """Facts in the contracts of three functions or more, and pairs of parameters in as many."""
    facts = collections.defaultdict(set)
    pairs = collections.defaultdict(set)
    for place, names, clauses, _ in functions():
        for clause in clauses:
            for fact in re.split(r"\) × \(", clause.strip()):
                facts[re.sub(r"\s+", " ", fact.strip(" ()"))].add(place)
        for pair in itertools.combinations([f"{name}: {kind.strip()}" for name, kind in names], 2):
            pairs[pair].add(place)
    found = [f"{fact}: {len(where)} contracts" for fact, where in sorted(facts.items()) if len(where) >= 3]
    return found + [f"{a}, {b}: {len(where)} functions" for (a, b), where in sorted(pairs.items()) if len(where) >= 3]


def six():
    """Indices beside what they index, arithmetic on places, and fixed arrays."""
    return matching(r"\b(?:base|last|at|place|end): usize|\[\w+ \+ |\[[^\]]*; [0-9]+\]|\bmiddle\b|\.\.\w+\.len\(\)")


def seven():
    """Steps as enums, tables of functions, dyn."""
    return matching(r"\benum (?:Step|Piece)\b|\bdyn \b|: fn\(|\[fn\(")


def eight():
    """Proof files: answers, invariants and lemmas, with their lines."""
    found = []
    for file in sorted(TOP.glob("crates/*/proofs/**/*.antt")):
        found.append(f"{file.relative_to(TOP)}: {len(file.read_text().splitlines())} lines")
    return found


POINTS = [one, two, three, four, five, six, seven, eight]
if len(sys.argv) > 2:
    print("\n".join(POINTS[int(sys.argv[2]) - 1]()))
else:
    for number, point in enumerate(POINTS, 1):
        print(number, len(point()), point.__doc__)
