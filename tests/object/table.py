"""Holds the table of calls in docs/KERNEL.md to the library: table.py CALLS STACK COUNTS DOCUMENT [write]

CALLS is what inspect.py tells: each call's bytes of stack and instructions at most, read off the object code, and which of memmove and memset it calls.
STACK is what `met stack` tells, and COUNTS a folder of callgrind's dumps of `met count`: the same as measured, in each situation of met.c. Nothing that was
measured may be more than what was read off. What memmove and memset run isn't counted: so a call's remark names those that it calls, and no other. With
`write` the document gets the table; without, it must have it already.
"""
import os
import re
import sys

sys.path.insert(0, os.path.join(os.path.dirname(os.path.abspath(__file__)), "..", "..", "bench"))
sys.dont_write_bytecode = True
import aims  # noqa: E402

# The calls in the table's order. {NAME} stands for the instructions of a situation, {NAME each} for what each page of a span of all frames adds to
# those of a page.
REMARKS = {
    "start": "and a `memset` of 4T bytes of counts and 8 bytes of each index word: too long to hold interrupts off",
    "mark": "{same word} for a page five pages after the last start",
    "drop": "",
    "touch": "{resident} for a resident page; if it maps, a `memset` of P bytes comes on top",
    "look": "{resident} for a resident page",
    "release": "whatever the region",
    "give_back": "{middle} for a page in the middle of its region's list, {newest} for the newest",
    "free_count": "",
    "translate": "{resident} for a resident page",
    "read": "{a byte} for a byte, {all frames each} for each page more, and a `memmove` of the bytes: long ones are too long to hold interrupts off",
    "write": "{a byte} for a byte, {all frames each} for each page more, and a `memmove`; for each new page a touch more, "
             "and a `memset` of its rest",
    "list": "two finds for each region: too long to hold interrupts off",
    "write_map": "{three pages} for a region with three pages and {frames} frames in the largest space: too long to hold interrupts off",
    "read_map": "{three pages} for that map, and a `memset` of counts, index and its own set of numbers: too long to hold interrupts off",
    "how_full": "",
    "sizes": "",
}
HEAD = ["Call", "Stack at most", "Instructions at most", "Stack met", "Instructions met", ""]
FRAMES = 64  # of met.c


def read_off(path):
    with open(path) as lines:
        rows = [line.split() for line in lines]
    return {name.removeprefix("corwystal_"): (int(stack), None if most == "-" else int(most), kernels) for name, stack, most, *kernels in rows}


def painted(path):
    met = {}
    with open(path) as lines:
        for line in lines:
            call, situation, used = re.match(r"(\w+)/(.+): (\d+)$", line).groups()
            met.setdefault(call, {})[situation] = int(used)
    return met


def counted(folder):
    met = {}
    for (what, _, _), functions in aims.dumps(folder).items():
        call, situation = what.split(" ", 1)
        met.setdefault(call, {})[situation] = int(functions["corwystal_" + call] - functions.get("memmove", 0) - functions.get("memset", 0))
    return met


def main():
    calls, stack, counts, document = read_off(sys.argv[1]), painted(sys.argv[2]), counted(sys.argv[3]), sys.argv[4]
    if not calls.keys() == stack.keys() == counts.keys() == REMARKS.keys():
        sys.exit(f"object: the library, met.c and table.py have other calls: {sorted(calls)}, {sorted(stack)}, {sorted(counts)}, {sorted(REMARKS)}: "
                 "give met.c its situations and table.py its row")
    wrong = []
    for call, (deepest, longest, kernels) in calls.items():
        if sorted(set(re.findall(r"`(mem\w+)`", REMARKS[call]))) != kernels:
            wrong.append(f"object: {call} calls {' and '.join(kernels) or 'neither memmove nor memset'}: its remark in table.py says other: {REMARKS[call]}")
        for situation, used in stack[call].items():
            if used > deepest:
                wrong.append(f"object: {call}, {situation}: {used} bytes of stack met, and {deepest} read off the object code: see stack_of in inspect.py")
        for situation, ran in counts[call].items():
            if longest is not None and ran > longest:
                wrong.append(f"object: {call}, {situation}: {ran} instructions met, and {longest} read off the object code: see longest_of in inspect.py")

    def figure(call, name):
        if name == "frames":
            return str(FRAMES)
        if name.endswith(" each"):
            return f"{(counts[call][name.removesuffix(' each')] - counts[call]['a page']) / (FRAMES - 1):.0f}"
        return f"{counts[call][name]:,}"

    lines = ["| " + " | ".join(HEAD) + " |", "|" + "---|" * len(HEAD)]
    for call, remark in REMARKS.items():
        deepest, longest, _ = calls[call]
        # without a bound the most that was met is only that of the longest span
        cells = [call, f"{deepest:,}", "-" if longest is None else f"{longest:,}", f"{max(stack[call].values()):,}",
                 "-" if longest is None else f"{max(counts[call].values()):,}", re.sub(r"{(.+?)}", lambda m: figure(call, m[1]), remark)]
        lines.append("| " + " | ".join(cells) + " |")
    with open(document) as f:
        text = f.read()
    made, places = re.subn(r"(<!-- calls -->\n).*?(<!-- end -->)", lambda m: m[1] + "\n".join(lines) + "\n" + m[2], text, flags=re.S)
    if places != 1:
        wrong.append(f"object: {document} has no place for the table of calls: a line <!-- calls --> and a line <!-- end -->")
    elif sys.argv[5:] == ["write"]:
        with open(document, "w") as f:
            f.write(made)
    elif made != text:
        kept = set(text.splitlines())
        wrong.append(f"object: {document} tells other numbers than the library; `bash tests/object/run.sh write` writes these rows:")
        wrong += [line for line in lines if line not in kept]
    if wrong:
        sys.exit("\n".join(wrong))
    print(f"object: {sum(map(len, counts.values()))} situations: no call used more stack or ran more instructions than its code has")


main()
