"""Files for whoever reads maps, by fixed seeds: every file has a kind and a number, and drawn files are the same in every run.

Sound ones are maps of states that calls lead to, of states that none lead to, and of every state of tiny sizes. Damaged ones break one rule on purpose
(`faults`), or are a sound file with bytes, words or bodies changed, lost or added. What a file is, is asked of mapfile.py and of nobody here.
"""
import itertools

import mapfile
from machine import Machine
from mapfile import State, laid, packed, words_of, write

WORD = 2 ** 32
# Where a word stands in for a number, one of these may be taken for another: signs, carries and products that are small in 32 bits.
NEAR = [WORD - 1, WORD - 2, WORD - 3, WORD - 4, WORD - 256, WORD // 2, WORD // 2 - 1, WORD // 2 + 1, WORD // 4, WORD // 3, WORD - 65_536, 65_536, 262_144]


class Draw:
    """splitmix64"""

    def __init__(self, seed):
        self.x = seed

    def next(self):
        self.x = (self.x + 0x9E3779B97F4A7C15) % 2 ** 64
        x = (self.x ^ self.x >> 30) * 0xBF58476D1CE4E5B9 % 2 ** 64
        x = (x ^ x >> 27) * 0x94D049BB133111EB % 2 ** 64
        return x ^ x >> 31

    def below(self, n):
        return self.next() % n

    def among(self, choices):
        return choices[self.below(len(choices))]

    def some(self, numbers, many):
        """So many of them, in any order."""
        left = list(numbers)
        for k in range(many):
            other = k + self.below(len(left) - k)
            left[k], left[other] = left[other], left[k]
        return left[:many]


# ---- sound states

# what a history's readings are lent: places and frames of the largest shape
PLACES, FRAMES = 130, 64
LENT = [mapfile.index_words(PLACES)] + [PLACES] * 5 + [FRAMES]
SHAPES = [(1, 1, 1), (1, 8, 3), (2, 4, 3), (3, 5, 7), (4, 16, 10), (1, 64, 20), (1, 65, 12), (64, 1, 5), (7, 9, 63), (2, 40, 1), (5, 13, 30), (1, 130, 64)]


def sizes(draw):
    spaces, pages, frames = draw.among(SHAPES)
    return spaces, pages, frames, draw.among(mapfile.PAGE_SIZES)


def call(draw, machine):
    """A call by chance, played: its line and its answer."""
    spaces, pages, _, _ = machine.state.sizes
    space, page = draw.below(spaces), draw.below(pages)
    starts = sorted(machine.state.spaces[space])
    start = draw.among(starts) if starts else page
    name = draw.among(["mark", "drop", "release", "look"] + 3 * ["give"] + 7 * ["touch"])
    if name in ("drop", "release"):
        page = start
    elif name in ("touch", "look", "give"):
        page = start + draw.below(6)
    if draw.below(40) == 0:
        space = spaces + draw.below(2)
    return f"{name} {space} {page}", getattr(machine, name)(space, page)


def reached(seed):
    """A state that some calls lead to, refused ones among them."""
    draw = Draw(1_000_000 + seed)
    machine = Machine(sizes(draw))
    for _ in range(draw.among([0, 4, 20, 60, 200])):
        call(draw, machine)
    return machine.state


def history(seed):
    """Lines and answers: a map is read, and calls go on from there; among them maps, refused readings and further accepted ones."""
    draw, machine = Draw(9_500_000 + seed), None
    for _ in range(draw.among([60, 150, 400])):
        if machine is None or draw.below(80) == 0:
            state = draw.among([reached, arbitrary])(draw.below(100_000))
            yield "read " + write(state).hex(), "ok"
            machine = Machine(state.sizes, state)
        elif draw.below(25) == 0:
            data = draw.among(FAULTS)[1](draw, draw.among([machine.state, arbitrary(draw.below(1_000))]))
            # tables for all shapes are lent, so there is no 1 but for other sizes
            if data is not None and not mapfile.keeps(data, mapfile.RULES) and len(data) < 10_000:
                said = mapfile.answer(data, LENT)
                yield "read " + data.hex(), f"no {said}"
        elif draw.below(12) == 0:
            yield "map", "map " + write(machine.state).hex()
        else:
            yield call(draw, machine)
    yield "map", "map " + write(machine.state).hex()


def filled(draw, sizes, starts, resident):
    """A state with these starts in each space and so many resident pages, where there is room: any pages, in any order, any frames, any pool."""
    spaces, pages, frames, _ = sizes
    places = [(space, page) for space in range(spaces) for page in range(pages) if starts[space] and page >= min(starts[space])]
    state = State(sizes, [{start: [] for start in starts[space]} for space in range(spaces)], [])
    frames = draw.some(range(frames), frames)
    chosen = draw.some(places, min(resident, len(places), len(frames)))
    for (space, page), frame in zip(chosen, frames):
        state.spaces[space][max(start for start in starts[space] if start <= page)].append((page, frame))
    state.pool = frames[len(chosen):]
    return state


def arbitrary(seed):
    """A sound state by chance, which calls may lead to or not."""
    draw = Draw(2_000_000 + seed)
    shape = sizes(draw)
    spaces, pages, frames, _ = shape
    starts = [draw.some(range(pages), draw.below(min(pages, draw.among([1, 2, 4, 8, pages])) + 1)) for _ in range(spaces)]
    return filled(draw, shape, starts, draw.among([0, 1, 2, frames // 2, frames, frames]))


def all_states(spaces, pages, frames):
    """Every sound state of these sizes, in its own way: starts, then a frame's owner for each frame, then every order of every list."""
    places = list(itertools.product(range(spaces), range(pages)))
    for marks in itertools.product([False, True], repeat=len(places)):
        starts = [[page for (s, page), is_start in zip(places, marks) if is_start and s == space] for space in range(spaces)]
        inside = [(space, page) for space, page in places if starts[space] and page >= starts[space][0]]
        for owners in itertools.product([None] + inside, repeat=frames):
            held = [owner for owner in owners if owner is not None]
            if len(set(held)) == len(held):
                yield from orders((spaces, pages, frames, 256), starts, owners)


def orders(sizes, starts, owners):
    lists = {(space, start): [] for space in range(sizes[0]) for start in starts[space]}
    pool = [frame for frame, owner in enumerate(owners) if owner is None]
    for frame, owner in enumerate(owners):
        if owner is not None:
            lists[owner[0], max(start for start in starts[owner[0]] if start <= owner[1])].append((owner[1], frame))
    for ways in itertools.product(*[itertools.permutations(pairs) for pairs in list(lists.values()) + [pool]]):
        spaces = [{} for _ in range(sizes[0])]
        for (space, start), pairs in zip(lists, ways):
            spaces[space][start] = list(pairs)
        yield State(sizes, spaces, list(ways[-1]))


TINY = [(1, 1, 1), (1, 1, 2), (1, 2, 1), (2, 1, 1), (1, 2, 2), (2, 1, 2), (2, 2, 1), (1, 3, 1), (1, 3, 2), (1, 2, 3), (2, 2, 2), (2, 3, 1), (2, 3, 2),
        (3, 1, 2)]


def largest():
    """The longest file that there is: 64 spaces of 4,096 pages, each a region of its own, and all 65,536 frames held."""
    draw = Draw(3)
    frames = draw.some(range(65_536), 65_536)
    spaces = [{page: [(page, frames.pop())] if page % 4 == space % 4 else [] for page in range(4_096)} for space in range(64)]
    return State((64, 4_096, 65_536, 65_536), spaces, frames)


def wide():
    """States at the limits of the sizes."""
    draw = Draw(4)
    yield filled(draw, (1, 262_144, 65_536, 256), [[0]], 65_536)
    yield filled(draw, (1, 262_144, 300, 512), [[5, 65_535, 65_536, 131_072, 262_143]], 290)
    yield filled(draw, (64, 4_096, 1, 65_536), [draw.some(range(4_096), 3) for _ in range(64)], 1)
    yield filled(draw, (63, 4_161, 65_536, 1_024), [[] for _ in range(63)], 0)
    yield filled(draw, (1, 4_097, 64, 256), [[0, 63, 64, 4_095, 4_096]], 64)
    yield filled(draw, (2, 131_072, 1_000, 256), [[], range(0, 131_072, 64)], 999)
    yield filled(draw, (1, 262_144, 300, 256), [[3]], 300)


# ---- files that break a rule

class Raw:
    """A state's bodies as lists that may be made wrong before they are laid out: each space's regions as [start, length, pairs], and the pool."""

    def __init__(self, state):
        self.sizes = list(state.sizes)
        self.spaces = []
        for regions in state.spaces:
            starts = sorted(regions)
            ends = starts[1:] + [state.sizes[1]]
            self.spaces.append([[start, end - start, [list(pair) for pair in regions[start]]] for start, end in zip(starts, ends)])
        self.pool = list(state.pool)

    def regions(self):
        return [region for regions in self.spaces for region in regions]

    def pairs(self):
        return [pair for region in self.regions() for pair in region[2]]

    def bodies(self):
        of_space = [[n for start, length, pairs in regions for n in [start, length, len(pairs), *itertools.chain(*pairs)]] for regions in self.spaces]
        return of_space + [list(self.pool)]

    def thirds(self):
        return [sum(len(region[2]) for region in regions) for regions in self.spaces] + [len(self.pool)]

    def file(self):
        return packed([word % WORD for word in laid(self.sizes, self.bodies(), self.thirds())])

    def end_of(self, region):
        """The next start of its space, or the space's end."""
        regions = next(regions for regions in self.spaces if any(other is region for other in regions))
        later = [other[0] for other in regions if other[0] > region[0]]
        return min(later, default=self.sizes[1])


def laid_out(change):
    """A fault of a state's parts: they are laid out as if nothing were wrong."""
    def make(draw, state):
        raw = Raw(state)
        return raw.file() if change(draw, raw) is not False else None
    return make


def in_words(change):
    """A fault of a file's words."""
    def make(draw, state):
        words = words_of(write(state))
        return packed([word % WORD for word in words]) if change(draw, words, state) is not False else None
    return make


def page_twice(draw, raw):
    many = [region for region in raw.regions() if len(region[2]) > 1]
    if not many:
        return False
    one, other = draw.some(draw.among(many)[2], 2)
    one[0] = other[0]


def page_elsewhere(draw, raw):
    """In its space and no page twice, but of another region or below all."""
    choices = []
    for regions in raw.spaces:
        taken = {pair[0] for region in regions for pair in region[2]}
        for start, length, pairs in regions:
            choices += [(pair, page) for pair in pairs for page in range(raw.sizes[1]) if not start <= page < start + length and page not in taken]
    if not choices:
        return False
    pair, page = draw.among(choices)
    pair[0] = page


def page_outside(draw, raw):
    if not raw.pairs():
        return False
    draw.among(raw.pairs())[0] = draw.among([raw.sizes[1], raw.sizes[1] + 1, WORD - 1, WORD // 2])


def frame_twice(draw, raw):
    """One held twice, or held and in the pool, or twice there; the one whose place it takes is missing."""
    places = [(pair, 1) for pair in raw.pairs()] + [(raw.pool, k) for k in range(len(raw.pool))]
    if len(places) < 2:
        return False
    (one, k), (other, j) = draw.some(places, 2)
    one[k] = other[j]


def frame_more(draw, raw):
    """F + 1 frames, one of them twice, and none missing."""
    raw.pool.insert(draw.below(len(raw.pool) + 1), draw.below(raw.sizes[2]))


def frame_outside(draw, raw):
    places = [(pair, 1) for pair in raw.pairs()] + [(raw.pool, k) for k in range(len(raw.pool))]
    one, k = draw.among(places)
    one[k] = draw.among([raw.sizes[2], raw.sizes[2] + 1, 65_535, 65_536, WORD - 1, WORD - 65_536, WORD // 2]) or 1
    return one[k] >= raw.sizes[2]


def frame_missing(draw, raw):
    if raw.pool and (not raw.pairs() or draw.below(2)):
        raw.pool.pop(draw.below(len(raw.pool)))
        return True
    held = [region for region in raw.regions() if region[2]]
    if not held:
        return False
    pairs = draw.among(held)[2]
    pairs.pop(draw.below(len(pairs)))


def frames_more(_, raw):
    """F is one more than there are."""
    raw.sizes[2] += 1


def frames_less(_, raw):
    raw.sizes[2] -= 1
    return raw.sizes[2] > 0


def starts_swapped(draw, raw):
    some = [regions for regions in raw.spaces if len(regions) > 1]
    if not some:
        return False
    regions = draw.among(some)
    k = draw.below(len(regions) - 1)
    regions[k], regions[k + 1] = regions[k + 1], regions[k]


def start_twice(draw, raw):
    """A region of no pages before one with the same start."""
    some = [regions for regions in raw.spaces if regions]
    if not some:
        return False
    regions = draw.among(some)
    k = draw.below(len(regions))
    regions.insert(k, [regions[k][0], 0, []])


def start_outside(draw, raw):
    """A region of no pages at the space's end, or with a length that is right in 32 bits."""
    beyond = draw.among([0, 0, 1, 7, WORD - 1 - raw.sizes[1]])
    draw.among(raw.spaces).append([raw.sizes[1] + beyond, -beyond % WORD, []])


def length_wrong(draw, raw):
    if not raw.regions():
        return False
    region = draw.among(raw.regions())
    region[1] = (region[1] + draw.among([1, -1, 2, WORD // 2, 65_536, -region[1]])) % WORD
    return region[0] + region[1] != raw.end_of(region)


def pages_less(_, raw):
    """Of a state without any region another N is sound too."""
    raw.sizes[1] -= 1
    return any(raw.spaces)


def pages_more(_, raw):
    raw.sizes[1] += 1
    return any(raw.spaces)


def size_wrong(place, choices):
    def change(draw, raw):
        raw.sizes[place] = draw.among(choices)
    return change


def no_space(_, raw):
    raw.sizes[0], raw.spaces = 0, []
    raw.pool = list(range(raw.sizes[2]))


def spaces_many(draw, raw):
    many = draw.among([65, 66, 100])
    raw.sizes[0], raw.sizes[1] = many, 2
    raw.spaces = [[] for _ in range(many)]
    raw.pool = list(range(raw.sizes[2]))


def no_page(_, raw):
    raw.sizes[1] = 0
    raw.spaces = [[] for _ in raw.spaces]
    raw.pool = list(range(raw.sizes[2]))


def no_frame(_, raw):
    raw.sizes[2], raw.pool = 0, []
    for region in raw.regions():
        region[2] = []


def places_many(draw, raw):
    """More places than there may be, some of them few in 32 bits."""
    spaces = raw.sizes[0]
    raw.sizes[1] = draw.among([n for n in (262_144 // spaces + 1, 262_145, WORD // spaces + 1, -(-WORD // spaces), WORD - 1, 16_777_217) if n < WORD])
    raw.spaces = [[] for _ in raw.spaces]
    raw.pool = list(range(raw.sizes[2]))


def third(draw, words, state):
    words[6 + 3 * draw.below(state.sizes[0])] += draw.among([1, -1, 2, WORD // 2])


def pool_third(draw, words, state):
    words[6 + 3 * state.sizes[0]] += draw.among([1, -1, 2, WORD // 2])


def row_start(draw, words, state):
    words[4 + 3 * draw.below(state.sizes[0] + 1)] += draw.among([1, -1, 2, -2, 3, WORD // 2])


def row_length(draw, words, state):
    words[5 + 3 * draw.below(state.sizes[0] + 1)] += draw.among([1, -1, 2, -2, 3, WORD // 2])


def border_moved(draw, words, state):
    """A body's border some words off, in both rows."""
    k, by = draw.below(state.sizes[0]), draw.among([1, -1, 2, -2, 3, -3])
    words[5 + 3 * k] += by
    words[7 + 3 * k] += by
    words[8 + 3 * k] -= by


def gap(draw, words, state):
    """Some words between two bodies, or between contents and bodies, and every later place is right for them."""
    spaces, many = state.sizes[0], 1 + draw.below(3)
    k = draw.below(spaces + 1)
    at = words[4 + 3 * k]
    for later in range(k, spaces + 1):
        words[4 + 3 * later] += many
    words[at:at] = [draw.below(3)] * many


def overlap(draw, words, state):
    """A body that begins in the one before it."""
    k = draw.below(state.sizes[0])
    if words[5 + 3 * k] == 0:
        return False
    for later in range(k + 1, state.sizes[0] + 1):
        words[4 + 3 * later] -= 1


def bodies_swapped(draw, words, state):
    """Two bodies in each other's place in the file; the rows say where."""
    raw = Raw(state)
    bodies, thirds = raw.bodies(), raw.thirds()
    k, j = sorted(draw.some(range(len(bodies)), 2))
    if not bodies[k] or not bodies[j]:
        return False
    order = list(range(len(bodies)))
    order[k], order[j] = j, k
    at, starts = mapfile.contents_words(state.sizes[0]), {}
    for body in order:
        starts[body] = at
        at += len(bodies[body])
    words[4:] = [n for b in range(len(bodies)) for n in (starts[b], len(bodies[b]), thirds[b])] + [n for b in order for n in bodies[b]]


def pool_before(draw, words, state):
    """The pool's body and row before the spaces'."""
    raw = Raw(state)
    bodies, thirds = raw.bodies(), raw.thirds()
    if not state.pool:
        return False
    words[:] = laid(state.sizes, bodies[-1:] + bodies[:-1], thirds[-1:] + thirds[:-1])


def resident_wrong(draw, words, state):
    """A region's resident count, and with it what the words after it are."""
    at, heads = mapfile.contents_words(state.sizes[0]), []
    for regions in Raw(state).spaces:
        for _, _, pairs in regions:
            heads.append(at)
            at += 3 + 2 * len(pairs)
    if not heads:
        return False
    words[draw.among(heads) + 2] += draw.among([1, -1, 2, WORD // 2, WORD // 2 - 1, WORD - 1])


def body_cut(by):
    """Words fewer at a body's end, and later places right for that; or some more that are no whole region."""
    def change(draw, words, state):
        raw = Raw(state)
        bodies, thirds = raw.bodies(), raw.thirds()
        k = draw.below(state.sizes[0])
        if len(bodies[k]) + by < 0:
            return False
        bodies[k] = bodies[k][:by] if by < 0 else bodies[k] + [state.sizes[1] - 1] * by
        words[:] = laid(state.sizes, bodies, thirds)
    return change


def more_words(draw, words, _):
    words += [draw.among([0, 1, WORD - 1, words[-1]])] * (1 + draw.below(3))


def more_bytes(draw, state):
    return write(state) + bytes([draw.among([0, 0, 10, 255])] * (1 + draw.below(3)))


def last_pool_lost(draw, words, state):
    """The last frame isn't there, though the contents say so."""
    return bool(state.pool) and words.pop() is not None


# What is wrong, and how to make it of a state; None where that state has no such place.
FAULTS = [
    ("page twice", laid_out(page_twice)),
    ("page of another region", laid_out(page_elsewhere)),
    ("page outside its space", laid_out(page_outside)),
    ("frame twice, one missing", laid_out(frame_twice)),
    ("frame twice, none missing", laid_out(frame_more)),
    ("frame not below F", laid_out(frame_outside)),
    ("frame missing", laid_out(frame_missing)),
    ("F one more", laid_out(frames_more)),
    ("F one less", laid_out(frames_less)),
    ("starts swapped", laid_out(starts_swapped)),
    ("start twice", laid_out(start_twice)),
    ("start not below N", laid_out(start_outside)),
    ("length wrong", laid_out(length_wrong)),
    ("N one less", laid_out(pages_less)),
    ("N one more", laid_out(pages_more)),
    ("S wrong", laid_out(size_wrong(0, [0, 65, 256, 65_536, WORD - 1, WORD // 3, WORD // 3 * 2, 1_431_655_764]))),
    ("N wrong", laid_out(size_wrong(1, [0, 262_145, WORD // 64, WORD // 2, WORD - 1]))),
    ("F wrong", laid_out(size_wrong(2, [0, 65_537, 131_072, WORD - 1]))),
    ("P wrong", laid_out(size_wrong(3, [0, 1, 8, 16, 128, 255, 257, 384, 513, 65_535, 131_072, WORD - 256, WORD // 2]))),
    ("no space", laid_out(no_space)),
    ("65 spaces and more", laid_out(spaces_many)),
    ("no page", laid_out(no_page)),
    ("no frame", laid_out(no_frame)),
    ("T above its limit", laid_out(places_many)),
    ("a space's third word wrong", in_words(third)),
    ("the pool's third word wrong", in_words(pool_third)),
    ("a body's place wrong", in_words(row_start)),
    ("a body's length wrong", in_words(row_length)),
    ("a border moved", in_words(border_moved)),
    ("a gap", in_words(gap)),
    ("an overlap", in_words(overlap)),
    ("bodies swapped", in_words(bodies_swapped)),
    ("the pool first", in_words(pool_before)),
    ("a resident count wrong", in_words(resident_wrong)),
    ("a body a word short", in_words(body_cut(-1))),
    ("a body two words short", in_words(body_cut(-2))),
    ("a body a word long", in_words(body_cut(1))),
    ("a body two words long", in_words(body_cut(2))),
    ("words after the end", in_words(more_words)),
    ("bytes after the end", more_bytes),
    ("the last word lost", in_words(last_pool_lost)),
]


def faults(rounds):
    """Every fault, in states by chance."""
    for number, (name, make) in enumerate(FAULTS):
        made = 0
        for seed in range(20 * rounds):
            state = (reached, arbitrary)[seed % 2](seed)
            data = make(Draw(3_000_000 + 1_000 * number + seed), state)
            if data is not None:
                yield name, seed, data
                made += 1
            if made == rounds:
                break


# ---- damage of any kind

def every_word(data):
    """Each word a little off, or near the largest; two neighbours swapped; a word lost, twice or more."""
    words = words_of(data)
    for k, word in enumerate(words):
        for by in (1, -1, 2, -2):
            yield packed(words[:k] + [(word + by) % WORD] + words[k + 1:])
        for other in [0, NEAR[k % len(NEAR)], NEAR[(5 * k + 1) % len(NEAR)], (word + WORD // 2) % WORD]:
            yield packed(words[:k] + [other] + words[k + 1:])
        yield packed(words[:k] + words[k + 1:])
        yield packed(words[:k] + words[k + 2:])
        yield packed(words[:k] + [word] + words[k:])
        yield packed(words[:k] + [0] + words[k:])
        yield packed(words[:k] + words[k + 1:k + 2] + [word] + words[k + 2:])


def every_bit(data):
    for k in range(8 * len(data)):
        yield data[:k // 8] + bytes([data[k // 8] ^ 1 << k % 8]) + data[k // 8 + 1:]


def every_end(data):
    """Cut at every byte; some bytes more."""
    for k in range(len(data)):
        yield data[:k]
    for more in (b"\0", b"\n", b"\0\0", b"\0\0\0", b"\0\0\0\0", b"\xff" * 4, b"\0" * 8, data):
        yield data + more
    yield data[1:]
    yield data[4:]
    yield b"\0" + data


def two_words(draw, data, many):
    """Two words of a file changed: one of them may make the other right."""
    for _ in range(many):
        words = words_of(data)
        for _ in range(2):
            k = draw.below(len(words))
            words[k] = draw.among([(words[k] + draw.among([1, -1, 2, -2, 3])) % WORD, draw.among(words), draw.below(6), draw.among(NEAR)])
        yield packed(words)


def nearby(draw, state, many):
    """Numbers of a file exchanged where they may be: the result is often sound again."""
    for _ in range(many):
        words = words_of(write(state))
        first = mapfile.contents_words(state.sizes[0])
        if len(words) - first > 1:
            k, j = draw.some(range(first, len(words)), 2)
            words[k], words[j] = words[j], words[k]
        yield packed(words)


def noise(seed):
    """Bytes by chance, and words that could be a file's."""
    draw = Draw(5_000_000 + seed)
    if seed % 2:
        return bytes(draw.below(256) for _ in range(draw.below(120)))
    return packed([draw.among([0, 1, 2, 3, 4, 7, 10, 13, 256, draw.below(30)]) for _ in range(draw.below(40))])


def any_contents(draw):
    """Contents of words that may be any, with an S within its limits or outside, and what may follow them."""
    spaces = draw.among([0, 1, 2, 3, 8, 63, 64, 65, 66, draw.below(70), 256, WORD // 2, WORD - 1])
    words = [draw.among([draw.below(9), draw.below(WORD), draw.among(NEAR)]) for _ in range(mapfile.contents_words(min(spaces, 70)) - 1 + draw.below(3))]
    return packed([spaces] + words) + bytes(draw.below(4))


# ---- all of them

SMALL = [State((1, 1, 1, 256), [{0: [(0, 0)]}], []), State((2, 4, 3, 256), [{0: [], 2: [(3, 1), (2, 0)]}, {}], [2]),
         State((1, 8, 3, 65_536), [{0: [(1, 2), (0, 0)], 4: [(7, 1)]}], []), State((3, 2, 2, 1_024), [{1: []}, {}, {0: [(0, 1)], 1: []}], [0])]


def files(share=1):
    """Kind, number and bytes of each file. With a share of k every k-th of the many kinds is left, all of the faults and the few large ones stay."""
    def part(kind, many):
        return ((kind, number, data) for number, data in enumerate(many) if number % share == 0)
    yield from part("reached", (write(reached(seed)) for seed in range(400)))
    yield from part("arbitrary", (write(arbitrary(seed)) for seed in range(600)))
    for shape in TINY:
        yield from part("all of %d, %d, %d" % shape, (write(state) for state in all_states(*shape)))
    yield from faults(5 if share > 1 else 40)
    for number, state in enumerate(SMALL):
        data, draw = write(state), Draw(4_000_000 + number)
        yield from part(f"words of small file {number}", every_word(data))
        yield from part(f"bits of small file {number}", every_bit(data))
        yield from part(f"ends of small file {number}", every_end(data))
        yield from part(f"two words of small file {number}", two_words(draw, data, 2_000))
        yield from part(f"exchanges in small file {number}", nearby(draw, state, 1_000))
    for seed in range(0, 60):
        data, draw = write(arbitrary(seed)), Draw(6_000_000 + seed)
        yield from part(f"two words of file {seed}", two_words(draw, data, 100))
        yield from part(f"exchanges in file {seed}", nearby(draw, arbitrary(seed), 60))
    yield from part("noise", (noise(seed) for seed in range(2_000)))
    yield from large()


def large():
    """Few, and each takes a while."""
    for number, state in enumerate(wide()):
        yield "wide", number, write(state)
        # wherever a reader's set of pages has its borders
        for seed in range(30 if state.sizes[2] == 300 else 1):
            raw = Raw(state)
            if page_twice(Draw(9_000_000 + seed), raw) is not False:
                yield f"page twice in wide {number}", seed, raw.file()
    data = write(largest())
    yield "largest", 0, data
    yield "largest and a byte", 0, data + b"\0"
    yield "largest and a word", 0, data + b"\0\0\0\0"
    yield "largest without its last byte", 0, data[:-1]
    yield "largest without its last word", 0, data[:-4]
    words = words_of(data)
    at = words[4 + 3 * 63] + words[5 + 3 * 63] - 1
    while words[at - 2] == 0:
        at -= 3
    yield "largest with its last frame twice", 0, packed(words[:at] + [words[at] ^ 1] + words[at + 1:])
    yield "F = 65,537", 0, packed(laid((1, 1, 65_537, 256), [[], list(range(65_537))], [0, 65_537]))
    yield "T = 262,145", 0, packed(laid((5, 52_429, 1, 256), [[], [], [], [], [], [0]], [0, 0, 0, 0, 0, 1]))
    yield "nothing", 0, b""
