"""What callgrind counted, and what the pager's instructions are to be: bench/report.py tells it, tests/costs/hold.py holds it."""
import collections
import glob
import re

# An aim: its name, the cases that it is about (the largest ratio counts), and how many hundredths of the instructions of C written by hand the pager may
# take at most, by engine. The C with the checks is "checked", that without any "method"; "clang_" stands before what clang compiled, the rest is gcc's.
Aim = collections.namedtuple("Aim", "name cases most")
# A case, as bench/count.c or bench/maps.c names it: what, its size, and the call that is counted. The size of a find is the index words that it reads.
WORDS = (1, 3, 5)
# Where in its region's list a page stands that is handed back; the neighbour is just before the newest.
POSITIONS = ("middle", "neighbour", "newest")
AIMS = [
    Aim("touch of a resident page", [("touch resident", 0, "touch")], {"checked": 100, "clang_checked": 110}),
    Aim("look at a resident page", [("look resident", 0, "look")], {"checked": 100, "clang_checked": 110}),
    Aim("translate", [("translate", 0, "translate")], {"checked": 100, "clang_checked": 110}),
    Aim("release", [("release", 1, "release")], {"checked": 100, "clang_checked": 120}),
    Aim("touch of an absent page", [("touch absent", words, "touch") for words in WORDS], {"checked": 125, "clang_checked": 135}),
    Aim("look at an absent page", [("look absent", words, "look") for words in WORDS], {"checked": 125, "clang_checked": 135}),
    Aim("give back of a page", [(f"give back {where}", 0, "give_back") for where in POSITIONS], {"checked": 115, "clang_checked": 125}),
    Aim("mark", [("mark", layers, "mark") for layers in (1, 2, 3)], {"checked": 115}),
    Aim("drop", [("drop", layers, "drop") for layers in (1, 2, 3)], {"checked": 115}),
    Aim("read of one byte", [("read", 1, "read")], {"method": 165}),
    Aim("write of one byte", [("write", 1, "write")], {"method": 165}),
    Aim("read of a page", [("read", 4096, "read")], {"method": 115}),
    Aim("write of a page", [("write", 4096, "write")], {"method": 115}),
    Aim("read of 64 KiB", [("read", 65536, "read")], {"method": 107}),
    Aim("write of 64 KiB", [("write", 65536, "write")], {"method": 107}),
    Aim("touch of a new page of 4,096 bytes", [("touch new", 4096, "touch")], {"checked": 110, "clang_checked": 110}),
    Aim("touch of a new page of 65,536 bytes", [("touch new", 65536, "touch")], {"checked": 110, "clang_checked": 110}),
    Aim("write of a new page", [("write new", 4096, "write")], {"checked": 110, "clang_checked": 110}),
    Aim("write of a page across two new ones", [("write new across", 4096, "write")], {"checked": 110, "clang_checked": 110}),
    Aim("write of 64 KiB of new pages", [("write new", 65536, "write")], {"checked": 110, "clang_checked": 110}),
    Aim("write of 1 MiB of new pages", [("write new", 1 << 20, "write")], {"checked": 110, "clang_checked": 110}),
    # counted by bench/maps.c, of the last space of a board's map
    Aim("how full a space is", [("full map board", size, "how_full") for size in (1084, 406300)], {"checked": 150, "clang_checked": 150}),
]
# The map file's two calls, at every file of bench/maps.c: what most of it is, and its bytes, from about 1 KiB to the largest.
FILES = {"regions": (972, 15132, 230172, 3670812), "pairs": (948, 16436, 262196, 524340), "pool": (1000, 16424, 262184), "board": (1084, 406300)}
MAPS = [Aim(f"{call} of a map", [(f"{call} map {what}", size, f"{call}_map") for what, sizes in FILES.items() for size in sizes],
            {"checked": 200, "clang_checked": 200}) for call in ("read", "write")]
# All actions of the source paper's workload together, with what their caller does, against the method without checks; each read and write copies 4 bytes,
# and the clearing of new pages is left out.
WORKLOAD = Aim("all actions of the workload", [], {"method": 200})
# The smallest write that maps a page, at its beginning or inside it, against one memset of the whole page.
SMALL = Aim("write of 16 bytes into a new page", [("write new", 16, "write"), ("write new inside", 16, "write")], {"plain": 130})
# What memcpy, memmove and memset run depends on the C library and the processor, and is the same for every engine. So that the ratios don't depend on them,
# it counts here, by case, as what it takes in glibc 2.36 with AVX2, by vector stores: callgrind counts each byte of the processor's block store as an
# instruction.
COPIED, ZEROED = {1: 15, 4: 14, 16: 10, 2048: 220, 4096: 410}, {2048: 126, 4080: 238, 4096: 238, 65536: 3598}
MOVED = {(call, size): cost for call in ("read", "write") for size, cost in ((1, COPIED[1]), (4096, COPIED[4096]), (65536, 16 * COPIED[4096]))}
MOVED |= {("write new", pages * 4096): pages * COPIED[4096] for pages in (1, 16, 256)}
MOVED |= {("touch new", size): ZEROED[size] for size in (4096, 65536)}
MOVED |= {("write new", 16): COPIED[16] + ZEROED[4080], ("write new inside", 16): COPIED[16] + 2 * ZEROED[2048],
          ("write new across", 4096): 2 * COPIED[2048] + 2 * ZEROED[2048]}
# A map's reading clears tables and sets of any length, not the same by hand as in the pager: there it counts by scale below.
# The clearing is left out of what is about the find and the mapping.
MOVED |= {("touch absent", words): 0 for words in WORDS}
# Why an aim is missed. A write makes a find for each page that it maps, where C with the checks makes one for the span and then tests one bit a page.
WHY = {name: "a find for each page, where C makes one for all" for name in (
    "write of a page across two new ones", "write of 64 KiB of new pages", "write of 1 MiB of new pages")}
WHY |= {name: "a find's answer goes through memory" for name in ("mark", "write of a new page")}
WHY[SMALL.name] = "vector stores clear a page in few instructions: time tells more"
# A line of a session, against a player of the same scripts by hand in C (bench/lines.sh counts both).
LINES = Aim("a line of a session", [], {"gcc": 250, "clang": 250})


def dumps(folder):
    """Instructions by case and function: the cost of each function with all that it calls, a counted action."""
    cases = collections.defaultdict(dict)
    for name in glob.glob(folder + "/*"):
        case, function = None, None
        cost = collections.Counter()
        with open(name) as lines:
            for line in lines:
                if line.startswith("desc: Trigger: Client Request: "):
                    case = line[len("desc: Trigger: Client Request: "):].strip()
                elif line.startswith("fn="):
                    function = line[3:].strip()
                elif re.match(r"\d+ \d+", line):
                    # its own lines, and after each `calls=` what that call cost
                    cost[function] += int(line.split()[1])
        if case:
            what, size, engine, count = case.rsplit("/", 3)
            for function, total in cost.items():
                cases[what, int(size), engine][function] = total / int(count)
    return cases


def inside(counts, what, size, engine, call):
    """Instructions of one call, in it and in all that it calls."""
    prefix = {"pager": "corwystal_"}.get(engine, engine + "_")
    return counts.get((what, size, engine), {}).get(prefix + call)


def zeroed(functions):
    """The instructions inside memset, whatever the C library calls the one that it chose."""
    return sum(cost for name, cost in functions.items() if re.match(r"_*memset(_|$)", name))


def moved(functions):
    """The same, and those inside memcpy and memmove."""
    return zeroed(functions) + sum(cost for name, cost in functions.items() if re.match(r"_*mem(cpy|move)(_|$)", name))


def scale(counts):
    """What memset's instructions are to be multiplied by to count as ZEROED has them: the same run's memset of the largest page tells."""
    return ZEROED[65536] / zeroed(counts["touch new", 65536, "plain"])


def alike(counts, what, size, engine, call):
    """Instructions of one call, what it copies and clears counted as MOVED has it, or by scale."""
    own = moved(counts[what, size, engine])
    to_count = own * scale(counts) if call.endswith("_map") else MOVED.get((what, size), own)
    return inside(counts, what, size, engine, call) - own + (to_count if own else 0)


def ratio(counts, aim, engine):
    """The largest ratio of the pager's instructions to an engine's, over an aim's cases."""
    return max(alike(counts, *case[:2], "pager", case[2]) / alike(counts, *case[:2], engine, case[2]) for case in aim.cases)


def page_ratio(counts):
    """The largest ratio of the pager's instructions to those of a memset of a page, over the cases of SMALL."""
    return max(alike(counts, *case[:2], "pager", case[2]) for case in SMALL.cases) / alike(counts, "touch new", 4096, "plain", "zero")


KINDS = ["allocation", "release", "read", "write"]
FUNCTIONS = {"allocation": "allocation", "release": "release", "read": "read_word", "write": "write_word"}


def actions(counts, engine):
    """For each kind of the workload's actions how many were played, and their instructions together."""
    for (what, _, who), functions in counts.items():
        if who == engine and what.startswith("workload "):
            return {kind: (int(many), functions[FUNCTIONS[kind]]) for kind, many in zip(KINDS, what.split()[1:])}
    return None


def workload_ratio(counts, engine):
    """The ratio of the pager's instructions to an engine's, all actions together."""
    together = {}
    for (what, _, who), functions in counts.items():
        if what.startswith("workload ") and who in ("pager", engine):
            each = actions(counts, who)
            copies = each["read"][0] + each["write"][0]
            together[who] = sum(total for _, total in each.values()) - moved(functions) + COPIED[4] * copies
    return together["pager"] / together[engine]
