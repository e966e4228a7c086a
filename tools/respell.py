#!/usr/bin/env python3
"""Respells this repository's own names in specs/, proofs/ and clauses.

usage: respell.py [--check]        once, at the top of the repository

A definition, lemma, field or local name with a dash is respelled: a fact or a type in camel case, anything else in snake case.
In a lemma's name a dash stays where it joins the names of two functions, as in `length-words_of`. Names of the source, of std and of
Rattle's own making keep their spelling; two names that would fall together stop the script. --check prints the table and writes nothing."""

import collections
import glob
import os
import re
import sys

WORD = re.compile(r"[^\s(){}.;,:@\"«»\[\]|]+")
DASHED = re.compile(r"[\w']-[\w']")
HEAD = re.compile(r"^(\s*)(?:abbrev |unfoldable )*(?:pub )?(?:abbrev |unfoldable )*(record |data )?(?:pub )?([^\s(){}.;,:]+)(?= *:(?!=)| [({].*:)")
BOUND = re.compile(r"[({]((?:[^\s(){}.;,:]+ +)+): ")
LET = re.compile(r"\blet ([^\s(){}.;,:]+) [:=]")
LAMBDA = re.compile(r"λ ([^.]+)\.")
# functions on lists that a lemma's name may join
FUNCTIONS = {"length", "take", "drop", "map", "append", "set", "cons", "push"}
# names that would otherwise meet another one, or that hold an old word of std
OWN = {
    "rows-text": "text_of_rows",
    "getD-append-here": "get_or-append_here",
    "getD-pointers": "slice_index-pointers",
    "getD-words-now": "slice_index-words_now",
    "length-words-now": "length-words_now",
}
MADE = re.compile(
    r"^(returns|loop|invariant|decreases|overflow|bounds|slice-bounds|in|if|then|else|match|from|nonzero|prove|offset)(-|$)|-requires(-\d+)?$"
)


def code(line):
    return "" if line.startswith("--") else line.split(" -- ")[0]


def files():
    return sorted(glob.glob("crates/*/specs/**/*.antt", recursive=True) + glob.glob("crates/*/proofs/**/*.antt", recursive=True))


def is_answer(path):
    return os.path.basename(path) in ("Answers.antt", "Invariants.antt", "Proof.antt")


def camel(name):
    return "".join(p[:1].upper() + p[1:] for p in name.split("-"))


def snake(name, functions):
    """Joins the parts by `_`, but two functions' names by a dash."""
    parts, out, i = name.split("-"), [], 0
    while i < len(parts):
        n = next((n for n in range(len(parts), i, -1) if "_".join(parts[i:n]) in functions), i + 1)
        out.append("_".join(parts[i:n]))
        i = n
    text = out[0]
    for a, b in zip(out, out[1:]):
        joins = a in functions and b in functions and (a in FUNCTIONS or b in FUNCTIONS)
        text += ("-" if joins else "_") + b
    return text


def gather():
    specs, fields, others = set(), set(), set()
    for path in files():
        made = is_answer(path)
        lines = open(path, encoding="utf-8").read().split("\n")
        for line in map(code, lines):
            m = HEAD.match(line)
            if m and DASHED.search(m.group(3)):
                name = m.group(3)
                goal = "goal." in line
                if m.group(1):
                    (fields if not made else others).add(name)
                elif made and (goal or MADE.search(name)):
                    pass
                elif "/specs/" in path:
                    specs.add(name)
                else:
                    others.add(name)
            for pattern in (BOUND, LET, LAMBDA):
                for m in pattern.finditer(line):
                    others.update(w for w in WORD.findall(m.group(1)) if DASHED.search(w))
    return specs, fields, others


def table():
    specs, fields, others = gather()
    functions = FUNCTIONS | {s.replace("-", "_") for s in specs if s[0].islower()}
    for path in files():
        if "/specs/" in path:
            for line in open(path, encoding="utf-8"):
                m = re.match(r"^(?:abbrev |unfoldable )*(?:pub )([a-z][\w']*) :", line)
                if m:
                    functions.add(m.group(1))
    new = {}
    for name in specs | fields | others:
        if name in OWN:
            new[name] = OWN[name]
        elif name[0].isupper():
            new[name] = camel(name)
        elif name in specs or name in fields:
            new[name] = name.replace("-", "_")
        else:
            new[name] = snake(name, functions)
    return {old: name for old, name in new.items() if old != name}, fields


def clash(new):
    """Names that would fall together with another one of the same file's text."""
    bad = []
    for path in files():
        words = set(WORD.findall(open(path, encoding="utf-8").read()))
        after = collections.defaultdict(set)
        for w in words:
            after[new.get(w, w)].add(w)
        bad += [(path, k, v) for k, v in after.items() if len(v) > 1]
    turned = collections.defaultdict(set)
    for old, name in new.items():
        turned[name].add(old)
    return bad + [("", k, v) for k, v in turned.items() if len(v) > 1]


def respelled(text, new, fields):
    def turn(m):
        w = m.group(0)
        if w not in new:
            return w
        before = text[m.start() - 1] if m.start() else ""
        if before == "." and w not in fields:
            return w
        return new[w]

    return WORD.sub(turn, text)


def main():
    new, fields = table()
    bad = clash(new)
    for path, name, olds in bad:
        print(f"falls together: {path} {name}: {' '.join(sorted(olds))}")
    if "--check" in sys.argv:
        for old in sorted(new):
            print(f"{old}\t{new[old]}")
        return
    if bad:
        sys.exit(1)
    paths = files() + sorted(glob.glob("crates/*/src/**/*.rt", recursive=True))
    for path in paths:
        text = open(path, encoding="utf-8").read()
        after = respelled(text, new, fields)
        if after != text:
            open(path, "w", encoding="utf-8").write(after)


if __name__ == "__main__":
    main()
