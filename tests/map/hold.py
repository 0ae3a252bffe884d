#!/usr/bin/env python3
"""Holds readers of map files to mapfile.py, on the files of files.py:

    hold.py self                          mapfile.py itself: of all files near the tiny ones it accepts those of sound states and no other
    hold.py each PROGRAM PLACES FRAMES    a process a file, its bytes on standard input; the program's tables have room for so many places and frames
    hold.py lines PROGRAM WORDS..         all files in one process, a line each: how long its index and six tables are, and the file in hex
    hold.py calls PROGRAM WORDS..         histories that begin with a map: a line is a reading, a call or `map`, its answer the session's but for index words
    hold.py full PROGRAM WORDS..          how full spaces are, by the fronts of files, all in one process: a line has the space and the bytes in hex
    hold.py spaces PROGRAM                the same, a process each, with the space as its argument and the bytes on standard input; and bad use
    hold.py write FOLDER                  the lines, the answers to come and what each file is, as lines, answers and kinds; of the histories calls and called;
                                          of how full spaces are asked and fullness

A program answers `no` and the refusal, or `ok`, a blank and in hex the map written back from its tables; in either way an LF and nothing else. A process
a file takes some milliseconds, so `each` takes every twentieth of the files that are many; `lines` takes all, and lends more or less than is needed.
"""
import os
import subprocess
import sys
import tempfile
from collections import Counter
from concurrent.futures import ThreadPoolExecutor

sys.dont_write_bytecode = True
import files  # noqa: E402
import mapfile  # noqa: E402

SHARE = 20
HISTORIES = 150
# what calls of the histories must be answered with
CALLED = ("read ok", "read no 12", "read no 1", "touch frame new", "touch frame old", "touch no 8", "touch no 4", "mark no 7", "drop ok", "release pages",
          "give ok", "give no 10", "give no 4")
SHOWN = 160  # characters of an answer that is told


def fail(what):
    print("map: " + what, file=sys.stderr)
    sys.exit(1)


def cut(text):
    return text if len(text) <= SHOWN else f"{text[:SHOWN]}.. ({len(text)} characters)"


def differ(kind, number, data, said, expected):
    why = ", ".join(mapfile.broken(data)) or "nothing"
    fail(f"{kind}, number {number}, {len(data)} bytes: {cut(data.hex())}\n  answered: {cut(said)!r}\n  expected: {cut(expected)!r}\n  broken: {why}")


def expected_of(data, lent, tally):
    """The line to come, counted by the group it belongs to."""
    expected = mapfile.line(data, lent)
    is_late = expected == "no 12" and mapfile.keeps(data, mapfile.SIZES)
    tally[expected.split()[0] + (" later" if is_late else " " + expected.split()[1] if expected.startswith("no") else "")] += 1
    return expected


def told(tally, *wanted):
    for group in wanted:
        if not tally[group]:
            fail(f"no file is answered `{group}`: draw others")
    return f"{sum(tally.values())} files, {tally['ok']} of them accepted, {tally['no 1']} refused with 1"


# ---- the reader itself

def near(data):
    yield from files.every_word(data)
    yield from files.every_end(data)


def fullness_wrong(data):
    """A space whose contents tell another number than its body has pairs, "for any file W-202's reading accepts"; none."""
    spaces = mapfile.take(data).state().spaces
    pairs = [sum(len(pairs) for pairs in regions.values()) for regions in spaces]
    wrong = [space for space, many in enumerate(pairs) if mapfile.how_full(data[:4 * mapfile.contents_words(len(spaces))], space) != f"pages {many}"]
    return wrong[0] if wrong else None


def hold_self():
    """Of the files near those of tiny states, also two words off, exactly those are accepted that are some state's, and each gives that state."""
    tried = 0
    for number, shape in enumerate(files.TINY):
        states = {mapfile.write(state): state for state in files.all_states(*shape)}
        draw = files.Draw(7_000_000 + number)
        for data, state in states.items():
            if mapfile.read(data) != state:
                fail(f"the map of a state of {shape} isn't read back: {data.hex()}")
        for count, data in enumerate(states):
            others = list(near(data)) if count % (1 + len(states) // 20) == 0 else []
            for other in others + list(files.two_words(draw, data, 4)) + list(files.nearby(draw, states[data], 2)):
                tried += 1
                # those of other sizes may be some other state's
                broken = mapfile.broken(other)
                if other[:16] == data[:16] and (broken == []) != (other in states):
                    fail(f"{other.hex()}: broken are {broken}, though it is {'one' if other in states else 'none'} of {shape}")
    alone = Counter()
    for kind, number, data in files.files():
        broken = mapfile.broken(data)
        if not broken and mapfile.write(mapfile.take(data).state()) != data:
            fail(f"{kind}, number {number}: read and written it is another file")
        if not broken and (full := fullness_wrong(data)) is not None:
            fail(f"{kind}, number {number}: space {full} has another number of pairs than its contents tell")
        if kind in dict(files.FAULTS) and not broken:
            fail(f"{kind}, number {number}: nothing is wrong with it")
        alone.update(broken if len(broken) == 1 else [])
    for name, _ in mapfile.RULES:
        if not alone[name]:
            fail(f"no file breaks this rule alone: {name}")
    print(f"map: {tried} files near tiny ones, {len(mapfile.RULES)} rules, each of which some file breaks alone")


# ---- a process a file

def run(program, data, *words):
    """What it answers, with its status if that isn't 0."""
    ended = subprocess.run([program, *words], input=data, stdout=subprocess.PIPE, stderr=subprocess.PIPE, timeout=60, check=False)
    said = ended.stdout.decode("ascii", "replace")
    return said if ended.returncode == 0 and not ended.stderr else f"status {ended.returncode} {ended.stderr[:80]!r} {said}"


def hold_each(program, places, frames):
    lent = [mapfile.index_words(places)] + [places] * 5 + [frames]
    tally = Counter()
    wanted = ["ok", "no 12", "no later"] + (["no 1"] if places < mapfile.MOST_PLACES or frames < mapfile.MOST_FRAMES else [])
    with ThreadPoolExecutor(os.cpu_count()) as pool:
        for kind, number, data, said in pool.map(lambda file: (*file, run(program, file[2])), list(files.files(SHARE))):
            expected = expected_of(data, lent, tally)
            if said != expected + "\n":
                differ(kind, number, data, said, expected)
    print(f"map: {os.path.basename(program)}: {told(tally, *wanted)}")


# ---- all files in one process

def lent_for(draw, data):
    """Lengths around those that the file's sizes need: all long enough, or one of them too short by an entry or by many."""
    if not mapfile.keeps(data, mapfile.SIZES):
        return [draw.among([0, 1, 2, 9]) for _ in mapfile.LENT]
    needed = mapfile.needed(mapfile.take(data).sizes)
    lent = [need + draw.among([0, 0, 0, 1, 5]) for need in needed]
    # the few files that are large are lent enough
    if draw.below(4) == 0 and len(data) < 100_000:
        short = draw.below(len(lent))
        lent[short] = draw.among([needed[short] - 1, needed[short] - 1, needed[short] // 2, 0])
    return lent


def all_lines(tally):
    """Each file with its kind, its number, its line and the answer to come."""
    draw = files.Draw(8_000_000)
    for kind, number, data in files.files():
        lent = lent_for(draw, data)
        yield kind, number, data, " ".join(map(str, lent)) + " " + data.hex(), expected_of(data, lent, tally)


def hold_lines(command):
    tally, asked = Counter(), []
    with tempfile.TemporaryFile("w+") as lines, tempfile.TemporaryFile("w+", errors="replace") as answers:
        for kind, number, data, line, expected in all_lines(tally):
            lines.write(line + "\n")
            asked.append((kind, number, data, expected))
        lines.seek(0)
        status = subprocess.run(command, stdin=lines, stdout=answers, timeout=600, check=False).returncode
        answers.seek(0)
        for kind, number, data, expected in asked:
            said = answers.readline()
            if said != expected + "\n":
                differ(kind, number, data, said or f"status {status}", expected)
        if status or answers.read():
            fail(f"{command[0]}: status {status}, or more lines than files")
    print(f"map: {os.path.basename(command[0])}: {told(tally, 'ok', 'no 12', 'no 1', 'no later')}")


def all_calls():
    return [(seed, line, answer) for seed in range(HISTORIES) for line, answer in files.history(seed)]


def hold_calls(command):
    script = all_calls()
    text = "".join(line + "\n" for _, line, _ in script)
    ended = subprocess.run(command + ["calls", str(files.PLACES), str(files.FRAMES)], input=text, stdout=subprocess.PIPE, text=True, timeout=600, check=False)
    said = ended.stdout.split("\n")
    for number, (seed, line, answer) in enumerate(script):
        if number >= len(said) or said[number] != answer:
            fail(f"history {seed}: {cut(line)}\n  answered: {cut(said[number]) if number < len(said) else ''}\n  expected: {cut(answer)}")
    if ended.returncode or said[len(script):] != [""]:
        fail(f"{command[0]}: status {ended.returncode}, or more lines than calls")
    kinds = Counter(line.split()[0] + " " + " ".join(word for word in answer.split() if not word.isdigit() or answer.startswith("no"))[:12]
                    for _, line, answer in script)
    for wanted in CALLED:
        if not kinds[wanted]:
            fail(f"no call is answered so: {wanted}")
    print(f"map: {os.path.basename(command[0])}: {HISTORIES} histories of {len(script)} lines, {kinds['read ok']} readings accepted in them")


# ---- how full a space is

def front_of(draw, data):
    """All of a file, its contents alone, those cut short, or any front of it."""
    spaces = int.from_bytes(data[:4], "little")
    contents = 4 * mapfile.contents_words(spaces)
    return data[:draw.among([len(data), contents, contents, contents - 1, contents - 4, contents + 1, contents + 4, draw.below(contents + 8), 3, 4, 0])]


def any_space(draw, data):
    spaces = int.from_bytes(data[:4], "little")
    return draw.among([0, draw.below(spaces or 1), draw.below(spaces or 1), spaces - 1, spaces, spaces + 1, 63, 64, 2 ** 31, 2 ** 32 - 1]) % 2 ** 32


def questions(share=1):
    """Each with its kind, its number, a space and the front of a file: of all files, and of contents whose words are any, with any S."""
    draw = files.Draw(9_900_000)
    for kind, number, data in files.files(share):
        if len(data) < 100_000:
            yield kind, number, any_space(draw, data), front_of(draw, data)
    for number in range(3_000 // share):
        data = files.any_contents(draw)
        yield "any contents", number, any_space(draw, data), front_of(draw, data)


def full_of(data, space, tally):
    """The line to come, counted by the group it belongs to."""
    expected = mapfile.how_full(data, space)
    tally["pages" if expected.startswith("pages") else expected] += 1
    return expected


def told_full(tally):
    for group in ("pages", "no 1", "no 2"):
        if not tally[group]:
            fail(f"no question is answered `{group}`: draw others")
    return f"{tally.total()} asked how full a space is, {tally['pages']} told, {tally['no 1']} refused with 1, {tally['no 2']} with 2"


def hold_full(command):
    asked = list(questions())
    text = "".join(f"{space} {data.hex()}\n" for _, _, space, data in asked)
    ended = subprocess.run(command + ["full"], input=text, stdout=subprocess.PIPE, text=True, timeout=600, check=False)
    said, tally = ended.stdout.split("\n"), Counter()
    for at, (kind, number, space, data) in enumerate(asked):
        expected = full_of(data, space, tally)
        if at >= len(said) or said[at] != expected:
            differ(f"space {space} of {kind}", number, data, said[at] if at < len(said) else f"status {ended.returncode}", expected)
    if ended.returncode or said[len(asked):] != [""]:
        fail(f"{command[0]}: status {ended.returncode}, or more lines than questions")
    print(f"map: {os.path.basename(command[0])}: {told_full(tally)}")


# what mapread takes for no space: it says so on standard error and answers nothing
BAD_USE = (["x"], [""], ["-1"], ["+1"], ["1 "], [" 1"], ["1x"], ["0x1"], ["1000000000"], ["0000000001"], ["1", "2"], ["1", ""])


def hold_spaces(program):
    tally = Counter()
    asked = [question for question in questions(SHARE) if question[2] < 10 ** 9]
    with ThreadPoolExecutor(os.cpu_count()) as pool:
        for kind, number, space, data, said in pool.map(lambda q: (*q, run(program, q[3], str(q[2]))), asked):
            expected = full_of(data, space, tally)
            if said != expected + "\n":
                differ(f"space {space} of {kind}", number, data, said, expected)
    data = mapfile.write(files.largest())
    for space in (0, 63, 64):
        if run(program, data, f"{space:09}") != mapfile.how_full(data, space) + "\n":
            fail(f"{program}: space {space} of the largest file: {run(program, data, f'{space:09}')!r}")
    for words in BAD_USE:
        ended = subprocess.run([program] + words, input=data[:40], stdout=subprocess.PIPE, stderr=subprocess.PIPE, timeout=60, check=False)
        if ended.returncode or ended.stdout or not ended.stderr.startswith(b"mapread: usage: "):
            fail(f"{program} {words}: status {ended.returncode}, {ended.stdout[:80]!r}, {ended.stderr[:80]!r}")
    print(f"map: {os.path.basename(program)}: {told_full(tally)}; {len(BAD_USE)} ways of bad use are told")


def write_lines(folder):
    with open(f"{folder}/lines", "w") as lines, open(f"{folder}/answers", "w") as answers, open(f"{folder}/kinds", "w") as kinds:
        for kind, number, _, line, expected in all_lines(Counter()):
            print(line, file=lines)
            print(expected, file=answers)
            print(f"{kind}, number {number}", file=kinds)
    with open(f"{folder}/calls", "w") as calls, open(f"{folder}/called", "w") as called:
        for _, line, answer in all_calls():
            print(line, file=calls)
            print(answer, file=called)
    with open(f"{folder}/asked", "w") as asked, open(f"{folder}/fullness", "w") as fullness:
        for _, _, space, data in questions():
            print(space, data.hex(), file=asked)
            print(mapfile.how_full(data, space), file=fullness)


def main():
    words = sys.argv[1:]
    if words == ["self"]:
        hold_self()
    elif words[:1] == ["each"] and len(words) == 4:
        hold_each(words[1], int(words[2]), int(words[3]))
    elif words[:1] == ["lines"] and len(words) > 1:
        hold_lines(words[1:])
    elif words[:1] == ["calls"] and len(words) > 1:
        hold_calls(words[1:])
    elif words[:1] == ["full"] and len(words) > 1:
        hold_full(words[1:])
    elif words[:1] == ["spaces"] and len(words) == 2:
        hold_spaces(words[1])
    elif words[:1] == ["write"] and len(words) == 2:
        write_lines(words[1])
    else:
        print(__doc__, file=sys.stderr)
        sys.exit(2)


main()
