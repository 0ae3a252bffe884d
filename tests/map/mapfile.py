"""Map files read and written, from document 02's requests W-202 and W-203 alone, whose words stand in quotation marks; document 01 has the rules and limits.

A file is accepted if no rule of RULES is broken; the rules are looked at one by one, on a file taken apart as far as it goes, so that files.py can make
files that break one and no other. Numbers are Python's, and nothing wraps.
"""
import functools
import struct

# "Spaces S: 1 to 64. Pages per space N: 1 to 262,144. T = S x N, at most 262,144. Frames F: 1 to 65,536."
MOST_SPACES, MOST_PLACES, MOST_FRAMES = 64, 262_144, 65_536
# "nine powers of two, from 256 to 65,536 bytes"
PAGE_SIZES = [256 << k for k in range(9)]
# the lent buffers of a reading, in their order: "needs index and six tables"
LENT = ("index", "count", "table", "helper", "stack", "cache", "link")


class State:
    """All "but for the RAM": sizes S, N, F, P; for each space its regions, a list of (page, frame) for each start; the pool."""

    def __init__(self, sizes, spaces, pool):
        self.sizes, self.spaces, self.pool = tuple(sizes), spaces, pool

    def __eq__(self, other):
        return (self.sizes, self.spaces, self.pool) == (other.sizes, other.spaces, other.pool)


def packed(words):
    """In "32-bit little-endian words"."""
    return struct.pack(f"<{len(words)}I", *words)


def words_of(data):
    """The whole words of a file."""
    return list(struct.unpack(f"<{len(data) // 4}I", data[:len(data) // 4 * 4]))


def contents_words(spaces):
    """There are "S, N, F, P, then for each space and last for the pool three words"."""
    return 4 + 3 * (spaces + 1)


# ---- written

def laid(sizes, bodies, thirds):
    """A file of these bodies, the pool's last, "contents first, then bodies", which "follow in order with no gaps"; whether it is sound isn't asked."""
    words, at = list(sizes), contents_words(sizes[0])
    for body, third in zip(bodies, thirds):
        words += [at, len(body), third]
        at += len(body)
    for body in bodies:
        words += body
    return words


def body_of(state, regions):
    """It has "for each region ascending: start, length, resident count, then page and frame pairs in mapping order"."""
    starts, body = sorted(regions), []
    for start, end in zip(starts, starts[1:] + [state.sizes[1]]):
        body += [start, end - start, len(regions[start])]
        for page, frame in regions[start]:
            body += [page, frame]
    return body


def write(state):
    """The map file of a state."""
    bodies = [body_of(state, regions) for regions in state.spaces] + [state.pool]
    thirds = [sum(len(pairs) for pairs in regions.values()) for regions in state.spaces] + [len(state.pool)]
    return packed(laid(state.sizes, bodies, thirds))


# ---- taken apart

class Region:
    def __init__(self, start, length, resident, pairs):
        self.start, self.length, self.resident, self.pairs = start, length, resident, pairs


def regions_of(body):
    """A body's regions as far as they are whole, and whether that is all of it."""
    regions, at = [], 0
    while at + 3 <= len(body):
        start, length, resident = body[at:at + 3]
        end = at + 3 + 2 * resident
        if end > len(body):
            return regions, False
        regions.append(Region(start, length, resident, list(zip(body[at + 3:end:2], body[at + 4:end:2]))))
        at = end
    return regions, at == len(body)


class Taken:
    """A file whose contents are whole."""

    def __init__(self, data, words):
        self.data, self.words = data, words
        self.sizes = tuple(words[:4])
        self.s, self.n, self.f, self.p = self.sizes
        rows = words[4:contents_words(self.s)]
        self.rows = list(zip(rows[::3], rows[1::3], rows[2::3]))
        bodies = [words[at:at + length] for at, length, _ in self.rows]
        split = [regions_of(body) for body in bodies[:-1]]
        self.spaces, self.whole = [regions for regions, _ in split], [is_whole for _, is_whole in split]
        self.pool = bodies[-1]
        self.regions = [region for regions in self.spaces for region in regions]
        self.frames = [frame for region in self.regions for _, frame in region.pairs] + self.pool

    def state(self):
        return State(self.sizes, [{r.start: r.pairs for r in regions} for regions in self.spaces], self.pool)


@functools.lru_cache(maxsize=4)
def take(data):
    """None where the contents are cut short."""
    words = words_of(data)
    return Taken(data, words) if words and len(words) >= contents_words(words[0]) else None


# ---- the rules

def is_without_repeats(numbers):
    return len(set(numbers)) == len(numbers)


def bodies_in_order(t):
    at = contents_words(t.s)
    for start, length, _ in t.rows:
        if start != at:
            return False
        at += length
    return True


def lengths_match(t):
    for regions in t.spaces:
        ends = [region.start for region in regions[1:]] + [t.n]
        if any(region.start + region.length != end for region, end in zip(regions, ends)):
            return False
    return True


SIZES = [
    ("S from 1 to 64", lambda t: 1 <= t.s <= MOST_SPACES),
    ("N at least 1", lambda t: 1 <= t.n),
    ("T at most 262,144", lambda t: t.s * t.n <= MOST_PLACES),
    ("F from 1 to 65,536", lambda t: 1 <= t.f <= MOST_FRAMES),
    ("P one of nine", lambda t: t.p in PAGE_SIZES),
]

REST = [
    ("the file is whole words", lambda t: len(t.data) % 4 == 0),
    ("bodies follow in order with no gaps", bodies_in_order),
    ("the file ends with the last body", lambda t: len(t.words) == t.rows[-1][0] + t.rows[-1][1]),
    ("a space's body ends with a region", lambda t: all(t.whole)),
    ("starts ascend", lambda t: all(a.start < b.start for regions in t.spaces for a, b in zip(regions, regions[1:]))),
    ("starts are below N", lambda t: all(region.start < t.n for region in t.regions)),
    ("a region runs to the next start or the space's end", lengths_match),
    ("a page lies in its region", lambda t: all(r.start <= page < r.start + r.length for r in t.regions for page, _ in r.pairs)),
    ("no page stands twice", lambda t: all(is_without_repeats([page for r in regions for page, _ in r.pairs]) for regions in t.spaces)),
    ("frames are below F", lambda t: all(frame < t.f for frame in t.frames)),
    ("no frame stands twice", lambda t: is_without_repeats(t.frames)),
    ("no frame is missing", lambda t: len(t.frames) >= t.f),
    ("a space's third word is its resident pages", lambda t: all(row[2] == sum(r.resident for r in s) for row, s in zip(t.rows, t.spaces))),
    ("the pool's third word is its length", lambda t: t.rows[-1][2] == len(t.pool)),
]

RULES = SIZES + REST


def keeps(data, rules):
    taken = take(data)
    return taken is not None and all(holds(taken) for _, holds in rules)


def broken(data):
    """The names of the rules that a file breaks; none of them is known where the contents are cut short."""
    taken = take(data)
    return ["contents whole"] if taken is None else [name for name, holds in RULES if not holds(taken)]


def read(data):
    """The state that a file describes, or None: "Reading accepts exactly the files that describe a state in which every rule of the plain machine holds,
    each frame stands once and no page twice"."""
    return take(data).state() if keeps(data, RULES) else None


# ---- the call

def index_words(places):
    """By document 01 "layer 0 has ceil(T/64) words; each layer above has one bit for each word below .., until a layer has one word"."""
    layer = words = -(-places // 64)
    while layer > 1:
        layer = -(-layer // 64)
        words += layer
    return words


def needed(sizes):
    """The entries of each lent buffer, in the order of LENT."""
    places = sizes[0] * sizes[1]
    return [index_words(places)] + [places] * 5 + [sizes[2]]


def answer(data, lent):
    """The number of a reading's refusal, or the state: "contents cut short or sizes outside their limits give 12, then tables or index too short for
    those sizes 1, then any other fault 12"."""
    if not keeps(data, SIZES):
        return 12
    if any(have < need for have, need in zip(lent, needed(take(data).sizes))):
        return 1
    return take(data).state() if keeps(data, REST) else 12


def line(data, lent):
    """What the program mapread is to write for a file, without its LF: the refusal, or the map written back."""
    said = answer(data, lent)
    return f"no {said}" if isinstance(said, int) else "ok " + write(said).hex()


# ---- from the contents alone

def how_full(data, space):
    """W-203 on the first bytes of a file: `pages` and "the space's third word as it stands", or `no` and the refusal: "1 for contents cut short or S
    outside its limits, 2 for the space"."""
    words = words_of(data)
    if not words or not 1 <= words[0] <= MOST_SPACES or len(words) < contents_words(words[0]):
        return "no 1"
    if space >= words[0]:
        return "no 2"
    return f"pages {words[4 + 3 * space + 2]}"
