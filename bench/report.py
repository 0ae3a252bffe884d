"""Makes the tables of docs/MEASUREMENTS.md and the plots of docs/measurements from what bench/run measured."""
import collections
import math
import re
import sys

sys.dont_write_bytecode = True
import aims  # noqa: E402

out, doc, plots = sys.argv[1:4]

ENGINES = ["pager", "method", "cleared"]
NAMES = {"pager": "pager", "method": "C, no checks", "cleared": "cleared table", "checked": "C with the checks", "plain": "memcpy"}
COLOURS = {"pager": "#1b6ca8", "method": "#d1752a", "cleared": "#4a8f3c", "checked": "#8a5aa5", "plain": "#777777"}
BY_HAND = ["checked", "method", "cleared"]


# ---- what was measured

def times(name):
    """Ticks by case and engine, and the ticks of a microsecond."""
    cases, rate = collections.defaultdict(dict), 1.0
    with open(name) as lines:
        for line in lines:
            words = line.split()
            if words[0] == "ticks-per-microsecond":
                rate = float(words[1])
            else:
                cases[words[0], int(words[1]), int(words[2]), words[3]][words[4]] = float(words[5])
    return cases, rate


def workload(name):
    """For each kind and engine the (pages, nanoseconds) of every action."""
    actions, rate = collections.defaultdict(list), 1.0
    with open(name) as lines:
        for line in lines:
            words = line.split()
            if words[0] == "ticks-per-microsecond":
                rate = float(words[1])
            elif words[0] != "slowest":
                actions[words[1], words[0]].append((int(words[2]), int(words[3]) * 1000 / rate))
    return actions


with open(out + "/lines") as line:
    lines_counted = dict(zip(("session_program", "gcc", "clang"), map(int, line.read().split())))
counts = aims.dumps(out + "/counts") | aims.dumps(out + "/mapped")
clocked, rate = times(out + "/times")
actions = workload(out + "/workload.played")
kinds_counted = aims.dumps(out + "/kinds")


def inside(what, size, engine, call):
    return aims.inside(counts, what, size, engine, call)


def with_arguments(what, size, call):
    """The same with the caller's handing over of head and buffers."""
    return counts[what, size, "pager"]["corwystal_board_" + call]


def clearing(what, size, engine):
    """What memset ran in it."""
    return aims.zeroed(counts[what, size, engine])


# ---- tables

def number(x):
    return "" if x is None else f"{x:,.0f}"


def ratio(a, b):
    return "" if a is None or not b else f"{a / b:.2f}"


def table(head, rows):
    lines = ["| " + " | ".join(head) + " |", "|" + "---|" * len(head)]
    return "\n".join(lines + ["| " + " | ".join(row) + " |" for row in rows])


def both(engine):
    """What one unit is called by either compiler."""
    return [engine, "clang_" + engine]


def named(engine):
    by = "clang" if engine.startswith("clang_") else "gcc"
    return f"{NAMES[engine.removeprefix('clang_')]}, {by}"


ALL_BY_HAND = [e for unit in BY_HAND for e in both(unit)]
COUNTED = ["pager", "with its arguments"] + [named(e) for e in ALL_BY_HAND] + [
    "pager / " + named(e) for e in both("checked") + both("method")]


def counted_row(name, what, size, call):
    engines = {e: inside(what, size, e, call) for e in ["pager"] + ALL_BY_HAND}
    arguments = with_arguments(what, size, call)
    return row_of(name, engines, arguments)


def uncleared_row(name, what, size, call):
    """The same without what memset ran."""
    engines = {e: inside(what, size, e, call) - clearing(what, size, e) for e in ["pager"] + ALL_BY_HAND}
    arguments = with_arguments(what, size, call) - clearing(what, size, "pager")
    return row_of(name, engines, arguments)


def row_of(name, engines, arguments):
    return ([name, number(engines["pager"]), number(arguments)] + [number(engines[e]) for e in ALL_BY_HAND]
            + [ratio(engines["pager"], engines[e]) for e in both("checked") + both("method")])


def table_a():
    return table(["resident pages"] + COUNTED,
                 [counted_row(number(n), "release", n, "release") for n in (1, 16, 256, 4096, 65536)])


def table_b():
    rows = [counted_row("touch, resident", "touch resident", 0, "touch"),
            counted_row("look, resident", "look resident", 0, "look"),
            counted_row("translate, resident", "translate", 0, "translate")]
    rows += [counted_row(f"give back, {words}", f"give back {where}", 0, "give_back") for where, words in zip(aims.POSITIONS, (
        "in the middle of its list", "just before the newest", "the newest"))]
    for call in ("touch", "look"):
        for words in (1, 3, 5):
            rows.append(uncleared_row(f"{call}, absent, {words} index word{'s' * (words > 1)}", f"{call} absent", words, call))
    for call in ("mark", "drop"):
        for words in (1, 2, 3):
            rows.append(counted_row(f"{call}, {words} index word{'s' * (words > 1)} changed", call, words, call))
    return table(["call"] + COUNTED, rows)


def table_b_time():
    rows = []
    engines = ["pager"] + ALL_BY_HAND
    for call in ("touch", "look", "translate"):
        for where in ("same", "spread"):
            case = clocked[call, 4096, 0, where]
            rows.append([f"{call}, resident", "one page" if where == "same" else "pages in turn"]
                        + [f"{case[e] * 1000 / rate:.1f}" for e in engines] + [ratio(case["pager"], case[e]) for e in both("checked")])
    return table(["call", "which page", "pager, ns"] + [named(e) for e in ALL_BY_HAND]
                 + ["pager / " + named(e) for e in both("checked")], rows)


# The cases of new pages, as bench/count.c and bench/time.c name them: in words, what, page size, bytes or 0, and the case's size in the counts.
NEW = [(f"touch, pages of {page:,}", "touch new", page, 0, page) for page in (256, 4096, 65536)] + [
    (f"write {name}", what, 4096, n, n) for name, what, n in (
        ("16 bytes", "write new", 16), ("16 bytes inside a page", "write new inside", 16), ("256 bytes", "write new", 256), ("a page", "write new", 4096),
        ("a page across two", "write new across", 4096), ("64 KiB", "write new", 65536), ("1 MiB", "write new", 1 << 20))]


def table_new():
    rows = [counted_row(name, what, size, what.split()[0]) + [number(counts["touch new", page, "plain"]["plain_zero"])] for name, what, page, _, size in NEW]
    return table(["new pages"] + COUNTED + ["memset of one page"], rows)


def table_new_time():
    rows = []
    for name, what, page, n, _ in NEW:
        row = [name]
        for where in ("same", "spread"):
            case = clocked[what.replace(" ", "-"), page, n, where]
            row += [f"{case['plain'] * 1000 / rate:,.0f}"] + [ratio(case[e], case["plain"]) for e in ENGINES] + [ratio(case["pager"], case["method"])]
        rows.append(row)
    head = ["new pages"]
    for where in ("the same frames", "frames in turn"):
        head += [f"{where}: memset and memcpy, ns", "pager / these", "C / these", "cleared / these", "pager / C"]
    return table(head, rows)


def small_time(where, engine="pager"):
    """The time of the smallest write that maps a page, in the slower of its two cases, to that of a memset of the page in the same rounds."""
    cases = [clocked[what, 4096, 16, where] for what in ("write-new", "write-new-inside")]
    return max(case[engine] / case["zero"] for case in cases)


SIZES = [(1, "1 byte"), (16, "16 bytes"), (4096, "a page"), (65536, "64 KiB"), (1 << 20, "1 MiB")]


def table_c():
    rows = []
    engines = both("method") + both("cleared")
    for call in ("read", "write"):
        for n, name in SIZES:
            pager = inside(call, n, "pager", call)
            # callgrind counts every byte of a `rep movsb`, which is what memcpy becomes for large spans
            plain = counts[call, n, "plain"]["plain_copy"] if n <= 4096 else None
            rows.append([f"{call} {name}", number(pager), number(with_arguments(call, n, call))]
                        + [number(inside(call, n, e, call)) for e in engines] + [number(plain)]
                        + [ratio(pager, inside(call, n, e, call)) for e in both("method")])
    return table(["call", "pager", "with its arguments"] + [named(e) for e in engines] + ["memcpy"]
                 + ["pager / " + named(e) for e in both("method")], rows)


def table_c_time():
    rows = []
    for call in ("read", "write"):
        for n, name in SIZES:
            row = [f"{call} {name}"]
            for where in ("same", "spread"):
                case = clocked[call, 4096, n, where]
                row += [f"{case['plain'] * 1000 / rate:,.0f}"] + [ratio(case[e], case["plain"]) for e in ENGINES]
            rows.append(row)
    head = ["call"]
    for where in ("one span", "spans in turn"):
        head += [f"{where}: memcpy, ns", "pager / memcpy", "C / memcpy", "cleared / memcpy"]
    return table(head, rows)


def table_c_pages():
    rows = []
    for page in (256, 65536):
        for call in ("read", "write"):
            for n, name in ((page, "a page"), (65536, "64 KiB"), (1 << 20, "1 MiB")):
                if n == page and name != "a page":
                    continue
                row = [number(page), f"{call} {name}"]
                for where in ("same", "spread"):
                    case = clocked[call, page, n, where]
                    row += [ratio(case["pager"], case["plain"]), ratio(case["method"], case["plain"])]
                rows.append(row)
    return table(["page size", "call", "one span: pager / memcpy", "C / memcpy", "spans in turn: pager / memcpy",
                  "C / memcpy"], rows)


def table_maps():
    rows = []
    engines = ["pager"] + both("checked")
    for aim in aims.MAPS:
        for what, size, call in aim.cases:
            whole = [inside(what, size, e, call) for e in engines]
            unset = [cost - clearing(what, size, e) if clearing(what, size, e) else None for cost, e in zip(whole, engines)]
            rows.append([what.replace(" map ", ", "), number(size)] + [cell for costs in (whole, unset) for cell in
                        [number(cost) for cost in costs] + [ratio(costs[0], cost) for cost in costs[1:]]])
    names = ["pager"] + [named(e) for e in both("checked")] + ["pager / " + named(e) for e in both("checked")]
    return table(["call, file", "bytes"] + names + ["the same without memset: pager"] + names[1:], rows)


def start_case():
    return next(case for key, case in clocked.items() if key[0] == "start")


def table_d():
    case = start_case()
    rows = []
    for e in ENGINES + ["plain"]:
        function = {"pager": "corwystal_start", "plain": "plain_clear"}.get(e, e + "_start")
        rows.append(["memset alone" if e == "plain" else NAMES[e], f"{case[e] / rate:.1f}",
                     ratio(case[e], case["plain"]), number(counts["start", 0, e][function])])
    return table(["start", "time, µs", "/ memset", "instructions"], rows)


KINDS, FUNCTIONS = aims.KINDS, aims.FUNCTIONS


def table_e():
    rows = []
    for kind in KINDS + ["all"]:
        kinds = KINDS if kind == "all" else [kind]
        for e in ENGINES[:2] + ["clang_method"] + ENGINES[2:]:
            counted = [aims.actions(kinds_counted, e)[k] for k in kinds]
            mean = sum(total for _, total in counted) / sum(many for many, _ in counted)
            row = [kind if e == "pager" else "", e if e == "pager" else named(e)]
            spent = [t for k in kinds for _, t in actions[k, e]]
            if spent:
                slowest = "" if kind == "all" else number(kinds_counted["slowest " + kind, 0, e][FUNCTIONS[kind]])
                row += [number(len(spent)) if e == "pager" else "", f"{sum(spent) / 1e6:.1f}", f"{sum(spent) / len(spent):.0f}",
                        f"{max(spent):,.0f}", number(mean), slowest]
            else:
                row += ["", "", "", "", number(mean), ""]  # clang's is counted only
            rows.append(row)
    return table(["action", "engine", "actions", "all, ms", "mean, ns", "largest, ns", "mean instructions",
                  "instructions of the slowest"], rows)


def met(yes, aim=None):
    return "met" if yes else f"missed; {aims.WHY[aim.name]}" if aim and aim.name in aims.WHY else "missed"


def aim_rows(aim, ratio_to):
    """A row for each engine that an aim names."""
    rows = []
    for engine, most in aim.most.items():
        is_met = ratio_to(engine) * 100 <= most + 1e-9
        rows.append([aim.name, f"at most {most / 100:.2f} x {named(engine)}", f"{math.ceil(ratio_to(engine) * 100 - 1e-9) / 100:.2f}", met(is_met, aim)])
    return rows


def line_ratio(by):
    return lines_counted["session_program"] / lines_counted[by]


def table_f():
    rows = [["session_program", number(lines_counted["session_program"]), ""]]
    rows += [[f"C, {by}", number(lines_counted[by]), f"{line_ratio(by):.2f} x"] for by in ("gcc", "clang")]
    return table(["player", "instructions a line", "session_program takes"], rows)


def table_aims():
    release = [inside("release", n, "pager", "release") for n in (1, 16, 256, 4096, 65536)]
    copies = {where: max(clocked[call, 4096, n, where]["pager"] / clocked[call, 4096, n, where]["plain"]
                         for call in ("read", "write") for n in (4096, 65536, 1 << 20)) for where in ("same", "spread")}
    large = max(clocked[call, 4096, n, where]["pager"] / clocked[call, 4096, n, where]["plain"]
                for call in ("read", "write") for n in (65536, 1 << 20) for where in ("same", "spread"))
    case = start_case()
    start = case["pager"] / case["plain"]
    rows = [["release", "the same from 1 to 65,536 pages", f"{number(min(release))} to {number(max(release))} instructions",
             met(min(release) == max(release))]]
    for aim in aims.AIMS + aims.MAPS:
        rows += aim_rows(aim, lambda engine: aims.ratio(counts, aim, engine))
    small, most = aims.page_ratio(counts), aims.SMALL.most["plain"]
    rows += [[aims.SMALL.name, f"at most {most / 100:.2f} x a memset of a page", f"{math.ceil(small * 100 - 1e-9) / 100:.2f}",
              met(small * 100 <= most, aims.SMALL)]]
    rows += aim_rows(aims.WORKLOAD, lambda engine: aims.workload_ratio(kinds_counted, engine))
    rows += [[aims.LINES.name, f"at most {most / 100:.2f} x a player in C, {by}", f"{math.ceil(line_ratio(by) * 100 - 1e-9) / 100:.2f}",
              met(line_ratio(by) * 100 <= most)] for by, most in aims.LINES.most.items()]
    rows += [[f"time of a {aims.SMALL.name}, {frames}", f"at most {most / 100:.2f} x a memset of a page",
              f"{small_time(where):.2f}; C without checks {small_time(where, 'method'):.2f}", met(small_time(where) * 100 <= most)]
             for where, frames in (("spread", "frames in turn"), ("same", "the same frames again and again"))]
    rows += [["time of a copy of a page and more, spans in turn", "at most 1.20 x memcpy", f"{copies['spread']:.2f}", met(copies["spread"] <= 1.2)],
             ["the same, one span again and again (a page then lies in the first cache)", "at most 1.20 x memcpy", f"{copies['same']:.2f}",
              met(copies["same"] <= 1.2)],
             ["time of a copy of 64 KiB and more, both ways", "at most 1.20 x memcpy", f"{large:.2f}", met(large <= 1.2)],
             ["time of a start", "at most 1.20 x memset", f"{start:.2f}", met(start <= 1.2)]]
    return table(["what", "aim", "measured", ""], rows)


def processor():
    with open("/proc/cpuinfo") as lines:
        return next(line.split(":")[1].strip() for line in lines if line.startswith("model name"))


# ---- plots

class Plot:
    """Panels side by side with one scale, logarithmic both ways."""

    def __init__(self, width, height):
        self.width, self.height, self.parts = width, height, []

    def text(self, x, y, words, size=12, anchor="middle", turn=None, colour="#222"):
        turned = f' transform="rotate({turn} {x:.1f} {y:.1f})"' if turn else ""
        self.parts.append(f'<text x="{x:.1f}" y="{y:.1f}" font-size="{size}" text-anchor="{anchor}" fill="{colour}"'
                          f'{turned}>{words}</text>')

    def line(self, x1, y1, x2, y2, colour="#222", width=1.0):
        self.parts.append(f'<path d="M{x1:.1f} {y1:.1f}L{x2:.1f} {y2:.1f}" stroke="{colour}" stroke-width="{width}" '
                          'fill="none"/>')

    def axes(self, box, xs, ys, xlabel, ylabel, title, xticks, yticks):
        """Returns where a value stands."""
        left, top, wide, high = box
        span = [(math.log(lo), math.log(hi)) for lo, hi in (xs, ys)]

        def at(x, y):
            fx = (math.log(max(x, xs[0])) - span[0][0]) / (span[0][1] - span[0][0])
            fy = (math.log(max(y, ys[0])) - span[1][0]) / (span[1][1] - span[1][0])
            return left + fx * wide, top + high - fy * high
        for tick, name in xticks:
            x, _ = at(tick, ys[0])
            self.line(x, top, x, top + high, "#e4e4e4")
            self.text(x, top + high + 16, name, 11)
        for tick, name in yticks:
            _, y = at(xs[0], tick)
            self.line(left, y, left + wide, y, "#e4e4e4")
            if name is not None:
                self.text(left - 6, y + 4, name, 11, "end")
        self.parts.append(f'<rect x="{left}" y="{top}" width="{wide}" height="{high}" fill="none" stroke="#222"/>')
        self.text(left + wide / 2, top + high + 36, xlabel)
        if ylabel:
            self.text(left - 52, top + high / 2, ylabel, turn=-90)
        self.text(left + wide / 2, top - 10, title, 13)
        return at

    def cloud(self, at, points, colour):
        """Points, those of one small square drawn once, the more the darker."""
        squares = collections.Counter()
        for x, y in points:
            px, py = at(x, y)
            squares[round(px / 2) * 2, round(py / 2) * 2] += 1
        for least, most, opacity in ((1, 3, 0.35), (3, 20, 0.6), (20, math.inf, 0.9)):
            d = "".join(f"M{x - 1} {y}h2" for (x, y), n in sorted(squares.items()) if least <= n < most)
            if d:
                self.parts.append(f'<path d="{d}" stroke="{colour}" stroke-width="2" stroke-opacity="{opacity}" fill="none"/>')

    def curve(self, at, points, colour, dash=""):
        spots = [at(x, y) for x, y in points]
        d = "M" + "L".join(f"{x:.1f} {y:.1f}" for x, y in spots)
        dashed = f' stroke-dasharray="{dash}"' if dash else ""
        self.parts.append(f'<path d="{d}" stroke="{colour}" stroke-width="2" fill="none"{dashed}/>')
        for x, y in spots:
            self.parts.append(f'<circle cx="{x:.1f}" cy="{y:.1f}" r="3.5" fill="{colour}"/>')

    def legend(self, x, y, engines):
        for k, (engine, name) in enumerate(engines):
            self.line(x, y + 18 * k, x + 22, y + 18 * k, COLOURS[engine], 3)
            self.text(x + 28, y + 18 * k + 4, name, 12, "start")

    def save(self, name):
        with open(name, "w") as f:
            f.write(f'<svg xmlns="http://www.w3.org/2000/svg" width="{self.width}" height="{self.height}" '
                    f'viewBox="0 0 {self.width} {self.height}" font-family="sans-serif">\n'
                    f'<rect width="{self.width}" height="{self.height}" fill="#fff"/>\n')
            f.write("\n".join(self.parts) + "\n</svg>\n")


def nanoseconds(t):
    return f"{t:g} ns" if t < 1000 else f"{t / 1000:g} µs"


def figure(kind, name):
    """One panel an engine: a point an action, its region's pages across, its time up."""
    plot = Plot(1120, 380)
    top = max(t for e in ENGINES for _, t in actions[kind, e])
    ys = (10, 10 ** math.ceil(math.log10(top)))
    ticks = [(m * 10 ** k, None if m != 1 else nanoseconds(10 ** k))
             for k in range(1, int(math.log10(ys[1])) + 1) for m in (1, 2, 5) if m * 10 ** k <= ys[1]]
    for k, e in enumerate(ENGINES):
        box = (76 + 346 * k, 40, 316, 280)
        at = plot.axes(box, (1, 4096), ys, "pages of the region", "time" if k == 0 else "", NAMES[e],
                       [(4 ** i, f"{4 ** i:,}") for i in range(7)],
                       [(t, n if k == 0 else None) for t, n in ticks])
        points = actions[kind, e]
        plot.cloud(at, points, COLOURS[e])
        worst = max(points, key=lambda p: p[1])
        x, y = at(*worst)
        plot.parts.append(f'<circle cx="{x:.1f}" cy="{y:.1f}" r="5" fill="none" stroke="#c00" stroke-width="1.5"/>')
        plot.text(box[0] + 8, 58, f"largest {worst[1]:,.0f} ns", 12, "start", colour="#c00")
    plot.save(f"{plots}/{name}.svg")


def figure_release():
    plot = Plot(680, 420)
    at = plot.axes((84, 40, 400, 310), (1, 65536), (10, 1e6), "resident pages of the region", "instructions of a release",
                   "release", [(16 ** i, f"{16 ** i:,}") for i in range(5)],
                   [(10 ** k, f"{10 ** k:,}") for k in range(1, 7)])
    engines = ["pager", "checked", "method", "cleared"]
    for e in engines:
        plot.curve(at, [(n, inside("release", n, e, "release")) for n in (1, 16, 256, 4096, 65536)], COLOURS[e],
                   "5 4" if e == "checked" else "")
    plot.legend(500, 60, [(e, NAMES[e]) for e in engines])
    plot.save(plots + "/release.svg")


def figure_copies():
    plot = Plot(1000, 420)
    most = 1.2 * max(clocked[call, 4096, n, where][e] / clocked[call, 4096, n, where]["plain"]
                     for call in ("read", "write") for n, _ in SIZES for where in ("same", "spread") for e in ENGINES)
    ticks = [(t, f"{t:g}") for t in (1, 1.2, 1.5, 2, 3, 5, 10, 20, 50) if t <= most]
    for k, (where, title) in enumerate((("same", "one span again and again"), ("spread", "spans of 8 MiB in turn"))):
        at = plot.axes((76 + 400 * k, 40, 350, 310), (1, 1 << 20), (0.8, most), "bytes", "" if k else "time / memcpy", title,
                       [(1, "1"), (16, "16"), (256, "256"), (4096, "4 KiB"), (65536, "64 KiB"), (1 << 20, "1 MiB")],
                       [(t, None if k else n) for t, n in ticks])
        for e in ENGINES:
            for call in ("read", "write"):
                plot.curve(at, [(n, clocked[call, 4096, n, where][e] / clocked[call, 4096, n, where]["plain"])
                                for n, _ in SIZES], COLOURS[e], "5 4" if call == "write" else "")
    plot.legend(850, 60, [(e, NAMES[e]) for e in ENGINES])
    plot.text(850, 130, "solid: read", 12, "start")
    plot.text(850, 148, "dashed: write", 12, "start")
    plot.save(plots + "/copies.svg")


figure("allocation", "allocation")
figure("release", "release-by-size")
figure_release()
figure_copies()

tables = {"machine": f"Processor: {processor()}. Compilers of the C: {sys.argv[4]}, `-O3`.",
          "aims": table_aims(), "a": table_a(), "b": table_b(), "b-time": table_b_time(), "c": table_c(),
          "c-time": table_c_time(), "c-pages": table_c_pages(), "new": table_new(), "new-time": table_new_time(),
          "d": table_d(), "e": table_e(), "f": table_f(), "maps": table_maps()}
with open(doc) as f:
    text = f.read()
for name, made in tables.items():
    text, n = re.subn(f"(<!-- {name} -->\n).*?(<!-- end -->)", lambda m: m[1] + made + "\n" + m[2], text, flags=re.S)
    if n != 1:
        sys.exit(f"{doc}: no place for the table {name}")
with open(doc, "w") as f:
    f.write(text)
