#!/usr/bin/env python3
"""Spells this repository's own definitions and lemmas in snake case, as today's Rattle spells words: span-add and basisOf become span_add and basis_of.

usage: snake_names.py ROOT [--check]

It goes over specs/, proofs/, the .rt files (clauses and comments) and must-fail/ of each crate. A word is turned where it has a hyphen or an inner capital and begins
with a small letter, unless it is a name of the kit (imported from there in that file, or a word of the kit that no file here declares) or one that Rattle makes for a
proof (the files of proofs/FUNCTION/ keep such names). Two words that would fall together, or fall on a word that is there, are listed and left: see KEEP and SPECIAL.
--check prints what would be turned. A second run changes nothing.
"""
import collections
import glob
import os
import re
import sys

KIT = "/opt/rattle/rattle"
W = r"[^\s(){}.;,@\"«»\[\]\\`]+"
TOKEN = re.compile(r"--[^\n]*|\"(?:[^\"\\\n]|\\.)*\"|«[^»]*»|" + W)
WORD = re.compile(W)
OWN_HEAD = re.compile(r"^[a-zα-ωµ][\w₀-₉'′]*$")
# Where the plain spelling would fall on another name: what to write.
SPECIAL = {w: w.replace("-", "_") + "_law" for w in (
    "by-price catalogue-numbers check-numbers first-formula form-words forms-of formula-lines formula-of formula-room "
    "formula-text formulae-from formulae-numbers is-entry is-poly kind-named kind-numbered list-lines most-targets "
    "priced-shape products-from rank-numbers record-length record-size row-bit row-sum said-numbers same-vec "
    "shape-text sizes-in summed-numbers targets-few turned-numbers first-of second-of slot-of rows-from "
).split()}
SPECIAL.update({"bit-and": "bit_of_and", "bit-or": "bit_of_or", "bit-xor": "bit_of_xor", "bodyRun": "run_of_body", "in-W": "in_w"})
# Left as they are: names that Rattle makes, or that belong to the kit.
KEEP = set()


def turns(word):
    if "-" not in word and not re.match(r"^[a-z][a-z0-9]*[A-Z]", word):
        return False
    if not re.match(r"^[a-z]", word):
        return False
    return re.fullmatch(r"[A-Za-z0-9_₀-₉'′-]+", word) is not None and not word.endswith("-") and "--" not in word


def snake(word):
    if word in SPECIAL:
        return SPECIAL[word]
    w = word.replace("-", "_")
    w = re.sub(r"(?<=[a-z0-9])([A-Z])", lambda m: "_" + m.group(1), w)
    return w.lower() if not re.search(r"[′'₀-₉]", w) else "".join(ch.lower() if "A" <= ch <= "Z" else ch for ch in w)


def read(path):
    with open(path, encoding="utf-8", newline="") as it:
        return it.read()


def made(path):
    """Whether the file lies in the folder of a function's proof, where names are Rattle's own."""
    return re.search(r"/(Proof|Answers|Invariants)(\.antt|/)", path) is not None


def files(root):
    out = []
    for kind in ("specs/**/*.antt", "proofs/**/*.antt", "src/**/*.rt", "must-fail/*.edit"):
        out += glob.glob(os.path.join(root, "crates", "*", kind), recursive=True)
    return sorted(p for p in out if "/out/" not in p)


def kit_words():
    words = set()
    for path in glob.glob(KIT + "/**/*.antt", recursive=True):
        words.update(w for w in WORD.findall(read(path)) if turns(w))
    return words


def kit_imports(text):
    """The words that a file takes from the kit."""
    out = set()
    for m in re.finditer(r"(?m)^\s*(?:pub )?(?:ghost )?use ([^\n]*)", text):
        line = m.group(1)
        if not re.match(r"Rattle\.", line) or re.match(r"Rattle\.(std|core|io|os|libc)\.", line):
            out.update(WORD.findall(line))
    return out


def declared(text):
    out = set()
    for m in re.finditer(r"(?m)^\s*((?:(?:pub|abbrev|unfoldable|private) )*)(" + W + r"(?: " + W + r")*) :(?= |$)", text):
        out.update(m.group(2).split())
    return out


def comment(text, at):
    """Whether the place is in a comment of a source and not between backquotes: a word with a hyphen is plain English there."""
    line = text[text.rfind("\n", 0, at) + 1 : at]
    return "//" in line and line[line.index("//") :].count("`") % 2 == 0


def main(root, check):
    paths = files(root)
    texts = {p: read(p) for p in paths}
    kit = kit_words()
    decl = set()
    for p in paths:
        if p.endswith(".antt") and not made(p):
            decl |= declared(texts[p])
    used = collections.Counter()
    where = collections.defaultdict(set)
    every = collections.defaultdict(set)
    for p in paths:
        for t in TOKEN.findall(texts[p]):
            if t.startswith("--") or t.startswith('"'):
                continue
            every[t].add(p)
            if turns(t):
                used[t] += 1
                where[t].add(p)
    table = {}
    for w in used:
        if w in KEEP:
            continue
        outside = [p for p in where[w] if not made(p)]
        if w in decl:
            table[w] = snake(w)
        elif outside and w not in kit:
            table[w] = snake(w)
    by = collections.defaultdict(list)
    for w, n in table.items():
        by[n].append(w)
    for n, ws in sorted(by.items()):
        if len(ws) > 1:
            print("together:", n, ws, "declared:", [w for w in ws if w in decl])
    for w, n in sorted(table.items()):
        both = where[w] & every.get(n, set())
        both = {p for p in both if p.endswith(".antt")}
        if both:
            print("there:", w, "->", n, [os.path.relpath(p, root) for p in sorted(both)][:4])
    amb = [w for w in table if w in kit]
    print("also of the kit:", " ".join(sorted(amb)))
    left = [w for w in used if w not in table]
    print("left:", len(left), " ".join(sorted(left))[:6000])
    print("turned:", len(table))
    if check:
        return
    decl_elsewhere = decl
    with open(os.path.join(root, "tools", "snake_names.tsv"), "w", encoding="utf-8") as it:
        it.write("".join(f"{w}\t{n}\n" for w, n in sorted(table.items())))
    for p in paths:
        t = texts[p]
        mine = kit_imports(t) if p.endswith((".antt", ".rt")) else set()
        inside = made(p)

        def one(m):
            s = m.group(0)
            if inside and table.get(s) and "-" in s and s not in decl_elsewhere:
                return s
            if p.endswith(".rt") and "-" in s and comment(t, m.start()):
                return s
            if s.startswith('"'):
                return s
            if s.startswith("--") or s.startswith("«"):
                return re.sub(W, lambda k: table.get(k.group(0), k.group(0)) if k.group(0) not in mine else k.group(0), s) if s.startswith("--") else s
            if s in mine:
                return s
            return table.get(s, s)

        n = TOKEN.sub(one, t)
        if n != t:
            with open(p, "w", encoding="utf-8", newline="") as it:
                it.write(n)


if __name__ == "__main__":
    main(os.path.abspath(sys.argv[1]), "--check" in sys.argv)
