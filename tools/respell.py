#!/usr/bin/env python3
"""Brings the names that the repository's own specs/ and proofs/ declare to one spelling: words in snake case, facts, records and
variants' aliases in upper camel case.

usage: python3 tools/respell.py [FOLDER]     FOLDER has crates/; the folder above tools/ if none is given

Only names that are declared below crates/*/specs and crates/*/proofs, or given by an `as` there or in a `ghost use`, are turned;
goals keep theirs. Names of functions, of the kit and of strings stay. It stops before any writing where two names would fall
together."""
import collections
import glob
import os
import re
import sys

ROOT = os.path.abspath(sys.argv[1] if len(sys.argv) > 1 else os.path.join(os.path.dirname(__file__), ".."))
TOKEN = re.compile(r"[^\s(){}\[\].,;:|\"⌜⌝«»@]+")
SIGNATURE = re.compile(r"\s*(?:abbrev |unfoldable )?(?:pub )?(?:abbrev )?([^\s(){}:.,;|]+) : (.*)$")
TYPE = re.compile(r"\s*(?:pub )?(?:record|data) ([^\s(){}:]+)")
RULESET = re.compile(r"\s*(?:pub )?ruleset ([^\s(){}:]+)")
ALIAS = re.compile(r" as ([^\s(){},;]+)")


def texts(*ends):
    for p in sorted(glob.glob(os.path.join(ROOT, "crates", "*", "**", "*"), recursive=True)):
        if p.endswith(ends) and "/out/" not in p:
            yield p


def crate_names():
    return {os.path.basename(p) for p in glob.glob(os.path.join(ROOT, "crates", "*"))}


def declared():
    names = collections.defaultdict(set)
    for p in texts(".antt", ".rt"):
        with open(p, encoding="utf-8") as f:
            for line in f:
                if p.endswith(".antt"):
                    m = SIGNATURE.match(line)
                    if m and not m.group(2).startswith("goal.") and not m.group(1).startswith(("invariant-", "decreases-", "ghost-")):
                        names[m.group(1)].add(p)
                    for form in (TYPE, RULESET):
                        m = form.match(line)
                        if m:
                            names[m.group(1)].add(p)
                if line.startswith(("use ", "ghost use ")):
                    for a in ALIAS.findall(line):
                        names[a].add(p)
    return names


def turned(name):
    if name[0].isupper():
        if "-" not in name:
            return name
        return "".join(w[:1].upper() + w[1:] for w in name.split("-"))
    if "-" in name:
        return name.replace("-", "_")
    if re.match(r"[a-z][a-z0-9]*[A-Z]", name):
        return re.sub(r"([A-Z])", lambda m: "_" + m.group(1).lower(), name)
    return name


def foreign(line, own):
    """The names that a `use` line takes from the kit."""
    m = re.match(r"(?:ghost )?use ([^\s{]+)\.\{(.*)\}", line)
    if not m or re.match(r"Rattle\.(\w+)\.", m.group(1)) and re.match(r"Rattle\.(\w+)\.", m.group(1)).group(1) in own:
        return set()
    return {re.split(r" as ", n.strip())[0] for n in m.group(2).split(",")}


def main():
    own = crate_names()
    names = declared()
    table = {n: turned(n) for n in names if turned(n) != n}
    kit = collections.defaultdict(set)
    for p in texts(".antt", ".rt"):
        with open(p, encoding="utf-8") as f:
            for line in f:
                for n in foreign(line, own):
                    kit[n].add(p)
    bad = False
    for n in sorted(table):
        if n in kit:
            print(f"{n}: a name of the kit too, in {sorted(os.path.relpath(p, ROOT) for p in kit[n])}")
            bad = True
    for old, new in sorted(table.items()):
        for p in sorted(names[old] & names.get(new, set())):
            print(f"{old}: falls together with {new} in {os.path.relpath(p, ROOT)}")
            bad = True
    both = collections.defaultdict(set)
    for old, new in table.items():
        both[new].add(old)
    for new, olds in sorted(both.items()):
        if len(olds) > 1:
            print(f"{new}: from {sorted(olds)}")
            bad = True
    if bad:
        return 1
    changed = 0
    for p in texts(".antt", ".rt"):
        with open(p, encoding="utf-8") as f:
            text = f.read()
        new = TOKEN.sub(lambda m: table.get(m.group(0), m.group(0)), text)
        if new != text:
            with open(p, "w", encoding="utf-8") as f:
                f.write(new)
            changed += 1
    for old, new in sorted(table.items()):
        print(f"{old} {new}")
    print(f"{len(table)} names, {changed} files")
    return 0


if __name__ == "__main__":
    raise SystemExit(main())
