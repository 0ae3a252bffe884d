#!/usr/bin/env python3
"""Counts the places of docs/DESIGN-PASS.md in crates/*/src.

    tools/places.py [COMMIT] [--list]

reads the working tree, or a commit of it. Each line of the answer is a point of the page, a rule that finds
candidates for it by text alone, and how many it finds; --list names each with its file and line. Which of them are
places, and why one stays, the page says.
"""
import collections
import re
import subprocess
import sys

args = [a for a in sys.argv[1:] if a != "--list"]
listing = "--list" in sys.argv
commit = args[0] if args else None


def run(*command):
    return subprocess.run(command, check=True, capture_output=True, text=True).stdout


def sources():
    if commit:
        names = run("git", "ls-tree", "-r", "--name-only", commit).split("\n")
    else:
        names = run("git", "ls-files").split("\n")
    for name in sorted(n for n in names if re.fullmatch(r"crates/\w+/src/\w+\.rt", n)):
        text = run("git", "show", f"{commit}:{name}") if commit else open(name).read()
        yield name, text


def functions(text):
    """Name, line, parameter names, result and body of each function with a body."""
    for m in re.finditer(r"^( *)(?:pub(?:\(crate\))? )?(?:extern \"C\" )?fn (\w+)[^(]*\(", text, re.M):
        depth, i = 1, m.end()
        while depth:
            depth += {"(": 1, ")": -1}.get(text[i], 0)
            i += 1
        head = text[m.end() : i - 1]
        params = re.findall(r"(?:^|,)\s*(?:mut )?&?(?:mut )?(\w+)\s*(?::|$|,)", re.sub(r"<[^<>]*>|\([^()]*\)|\[[^\[\]]*\]", "", head))
        indent = m.group(1)
        lines = text[i:].split("\n")
        start = 0 if lines[0].endswith(" {") else next((k for k, l in enumerate(lines) if l == indent + "{"), None)
        ends = [k for k, l in enumerate(lines) if l == indent + "}"]
        if start is not None and ends and ends[0] > start:
            result = re.match(r"\s*->\s*([^\n{]*)", text[i:])
            line = text.count("\n", 0, m.start()) + 1
            yield m.group(2), line, params, result.group(1) if result else "", "\n".join(lines[start + 1 : ends[0]])


found = collections.OrderedDict()


def add(point, name, line, what):
    found.setdefault(point, []).append((name, line, what))


POINTS = [
    "1 enums of src",
    "1 numbers of refusals and kinds",
    "1 flags with a value beside them",
    "2 functions of one body but for names and literals",
    "2 structs of the same fields but for a type",
    "3 while and loop",
    "4 conversions by hand",
    "5 functions of seven parameters and more",
    "5 tables passed one by one",
    "6 a buffer with a place beside it",
    "7 matches on which step to run",
]
for p in POINTS:
    found[p] = []

bodies = collections.defaultdict(list)
structs = collections.defaultdict(list)
for name, text in sources():
    for m in re.finditer(r"^(?:pub(?:\(crate\))? )?enum (\w+)", text, re.M):
        add(POINTS[0], name, text.count("\n", 0, m.start()) + 1, m.group(1))
    for m in re.finditer(r"^.*(?:\bRefused(?:After)?\(|return [0-9]+;|refused\(\w+, [0-9]+\)|\bno != 0|refusal != 0).*$", text, re.M):
        if not m.group(0).lstrip().startswith("//") and "ghost" not in m.group(0) and "ensures" not in m.group(0):
            add(POINTS[1], name, text.count("\n", 0, m.start()) + 1, m.group(0).strip())
    for m in re.finditer(r"^ +pub (some|refusal|found|ok): .*$", text, re.M):
        add(POINTS[2], name, text.count("\n", 0, m.start()) + 1, m.group(0).strip())
    for m in re.finditer(r"^(?:pub(?:\(crate\))? )?struct (\w+)[^{;]*\{\n(.*?)^\}", text, re.M | re.S):
        fields = tuple(re.findall(r"^ +pub (\w+):", m.group(2), re.M))
        structs[fields].append((name, text.count("\n", 0, m.start()) + 1, m.group(1)))
    for f, line, params, result, body in functions(text):
        if name.startswith("crates/corwystal"):
            continue
        plain = re.sub(r"//.*", "", body)
        shape = re.sub(r"\b(0x)?[0-9][0-9_]*\w*\b", "0", plain)
        shape = re.sub(r"\b(?!if|else|while|for|return|match|let|mut|in|as|Ok|Err|Some|None)[A-Za-z_]\w*\b", "x", shape)
        if len(plain.split("\n")) > 2:
            bodies[re.sub(r"\s+", " ", shape)].append((name, line, f))
        for m in re.finditer(r"^ *(while|loop)\b.*$", plain, re.M):
            add(POINTS[5], name, line + body.count("\n", 0, m.start()), f"{f}: {m.group(0).strip()}")
        if re.fullmatch(r"\s*\w+ as \w+\s*", plain) or re.search(r"^of_|^number$|^changed$|^answer_of$|^looked$", f):
            add(POINTS[6], name, line, f)
        if len(params) >= 7:
            add(POINTS[7], name, line, f"{f}: {len(params)}")
        if len({"count", "table", "helper", "stack", "cache", "link"} & set(params)) >= 4:
            add(POINTS[8], name, line, f)
        if {"out", "at"} <= set(params):
            add(POINTS[9], name, line, f)
        for m in re.finditer(r"\bmatch (\w+) \{", plain):
            if re.search(r"PageCall::|Request::|^ *[0-9]+ =>", plain, re.M):
                add(POINTS[10], name, line, f)
                break
for shape, where in bodies.items():
    if len(where) > 1:
        for w in where:
            add(POINTS[3], *w[:2], f"{w[2]} (of {len(where)})")
for fields, where in structs.items():
    if len(where) > 1 and fields:
        for w in where:
            add(POINTS[4], *w)

for point, places in found.items():
    print(f"{len(places):4}  {point}")
    if listing:
        for name, line, what in places:
            print(f"        {name}:{line}: {what}")
