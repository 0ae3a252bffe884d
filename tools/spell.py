#!/usr/bin/env python3
"""Respells the repository's own definitions and lemmas as today's Rattle does: words in snake case, where they were in camel case or joined by dashes.

usage: python3 tools/spell.py        once, at the top, right after the kit's port.py; prints each name and its new spelling

It also names the crate hex hexing, since the kit has a library of that name.

Types, records and facts keep their capital, and a dash that joins a fact to a word stays. Functions of src/ aren't touched, nor names that
Rattle makes. A name whose new spelling is another's already gets `_lem`. Edits in must-fail/ are not turned.
"""

import collections
import glob
import os
import re
import sys

TOKEN = re.compile(r"[^\s(){}\[\].,;\"«»λ:|`]+")
WORDS = "abbrev|unfoldable|pub|data|record|mutual"
DECLARED = re.compile(r"(?m)^[ \t]*(?:\|[ \t]*)?(?:(?:%s)[ \t]+)*([^\s:(){}\[\]|=.λ,;]+)(?=[ \t][^\n]*:(?!=)|[ \t]*:(?!=))" % WORDS)
KEYWORDS = {"use", "let", "in", "where", "elim", "module", "open", "record", "data", "unfolding", "infixl", "infixr", "infix", "pub", "abbrev", "unfoldable", "--", "→", "record", "rw", "omega"}
# names that would be words of std or of the language, and lemmas that port.py gave the name that a definition gets here
BY_HAND = {"get_d_tabulate": "get_or_tabulate", "getD-same": "get_or_same", "first_of": "first_refusal", "storeIn": "stored_in"}
FIRST_OF = ("crates/machine/specs/Laws/Map/Again.antt", "crates/founding/proofs/Laying.antt")
LEMMAS = {"row_count", "row_words", "head_ok", "no_start", "parts_from", "index_in", "put_word", "start_word"}


def snake(name):
    if name in BY_HAND:
        return BY_HAND[name]
    if name in LEMMAS:
        return name + "_lem"
    if name[:1].isupper():
        return name
    name = re.sub(r"([a-z0-9₀-₉])([A-Z])(?![A-Z])", lambda m: m.group(1) + "_" + m.group(2).lower(), name)
    return name.replace("-", "_")


def made(path, text):
    """Names that a proof file declares for Rattle's own goals."""
    if not re.search(r"/proofs/.*/Proof\.antt$", path):
        return set()
    return set(re.findall(r"(?m)^[ \t]*(?:pub |abbrev )*(\S+) : (?:tie\.|\{M : Type 1\} → statement)", text))


def files():
    return sorted(glob.glob("crates/*/specs/**/*.antt", recursive=True) + glob.glob("crates/*/proofs/**/*.antt", recursive=True) + glob.glob("crates/*/src/**/*.rt", recursive=True))


def read(path):
    with open(path, encoding="utf-8") as f:
        return f.read()


def rename_crate(old, new):
    os.rename("crates/" + old, "crates/" + new)
    for p in files() + ["crates.txt"]:
        t = read(p)
        code = re.sub(r"(?m)^use %s::" % old, "use %s::" % new, t.replace("Rattle.%s." % old, "Rattle.%s." % new))
        if p == "crates.txt":
            code = re.sub(r"\b%s\b" % old, new, t)
        if code != t:
            with open(p, "w", encoding="utf-8") as f:
                f.write(code)


def main():
    rename_crate("hex", "hexing")
    texts = {p: read(p) for p in files()}
    crates = "|".join(sorted({p.split("/")[1] for p in texts}))
    std = set()
    for p, t in texts.items():
        for names in re.findall(r"(?m)^%suse (?!Rattle\.(?:%s)\.)[^\n]*\{([^}]*)\}" % ("ghost " if p.endswith(".rt") else "(?:pub )?", crates), t):
            std |= {n.split(" as ")[0].strip() for n in names.split(",")}
    declared = collections.Counter()
    for p, t in texts.items():
        if p.endswith(".rt"):
            continue
        skip = made(p, t)
        for n in DECLARED.findall(re.sub(r"(?m)--.*$", "", t)):
            if n not in skip and n not in KEYWORDS:
                declared[n] += 1
    # aliases of imports are names of ours too
    for p, t in texts.items():
        for n in re.findall(r" as ([^\s,}]+)", t):
            declared[n] += 0
    turned = {}
    taken = set(std) | {n for n in declared if snake(n) == n}
    camel = [n for n in declared if snake(n) != n and "-" not in n]
    dashed = [n for n in declared if snake(n) != n and "-" in n]
    for n in sorted(camel) + sorted(dashed):
        if n in std:
            print(f"left: {n} is a name of std too")
            continue
        to = snake(n)
        if to in taken:
            to += "_lem"
        if to in taken:
            print(f"left: {n}: {to} is taken")
            continue
        taken.add(to)
        turned[n] = to
    for p, t in texts.items():
        skip = made(p, t)
        mark = "//" if p.endswith(".rt") else "--"
        lines = []
        for line in t.split("\n"):
            m = re.search(r"(?:^|\s)%s" % mark, line)
            code, remark = (line[: m.start()], line[m.start() :]) if m else (line, "")

            def turn(m):
                w = m.group(0)
                if w == "first_of" and p in FIRST_OF:
                    return "first_picked"
                if w in LEMMAS and m.string[: m.start()].endswith("."):
                    return w
                return turned[w] if w in turned and w not in skip else w

            code = TOKEN.sub(turn, code)
            remark = re.sub(r"`[^`]*`", lambda m: TOKEN.sub(turn, m.group(0)), remark)
            lines.append(code + remark)
        new = "\n".join(lines)
        if new != t:
            with open(p, "w", encoding="utf-8") as f:
                f.write(new)
    for n, to in sorted(turned.items()):
        print(f"{n} {to}")


if __name__ == "__main__":
    sys.exit(main())
