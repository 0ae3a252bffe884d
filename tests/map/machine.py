"""The plain machine of document 01 as far as a map shows it: starts, pairs and pool, no RAM, no table, no index. Written from the document alone,
and W-205's hand-back from document 02.

Each call answers as a session's line does, but for the index words, and a hand-back as a mark does: by their numbers the two are one answer.
"""
from mapfile import State


class Machine:
    """After an accepted start: "no starts, pool 0, 1, .., F-1"; or in the state of an accepted map."""

    def __init__(self, sizes, state=None):
        self.state = state or State(sizes, [{} for _ in range(sizes[0])], list(range(sizes[2])))

    def outside(self, space, page):
        """Refusals 2 and 3."""
        if space >= self.state.sizes[0]:
            return "no 2"
        return "no 3" if page >= self.state.sizes[1] else None

    def region(self, space, page):
        """The start of a page's region: the greatest one at most it."""
        return max((start for start in self.state.spaces[space] if start <= page), default=None)

    def mark(self, space, page):
        """It "adds a start. A region that it cuts must have no resident page"."""
        if self.outside(space, page):
            return self.outside(space, page)
        regions, cut = self.state.spaces[space], self.region(space, page)
        if cut == page:
            return "no 6"
        if cut is not None and regions[cut]:
            return "no 7"
        regions[page] = []
        return "ok"

    def drop(self, space, page):
        """It "removes a start whose region has no resident page"."""
        if self.outside(space, page):
            return self.outside(space, page)
        regions = self.state.spaces[space]
        if page not in regions:
            return "no 5"
        if regions[page]:
            return "no 7"
        del regions[page]
        return "ok"

    def look(self, space, page):
        if self.outside(space, page):
            return self.outside(space, page)
        start = self.region(space, page)
        if start is None:
            return "no 4"
        frame = dict(self.state.spaces[space][start]).get(page)
        return "absent" if frame is None else f"resident {frame}"

    def touch(self, space, page):
        """Of an absent page "the first frame of the pool is taken, the pair goes to the end of the region's list"."""
        found = self.look(space, page)
        if found != "absent":
            return found.replace("resident", "frame") + " old" * found.startswith("resident")
        if not self.state.pool:
            return "no 8"
        frame = self.state.pool.pop(0)
        self.state.spaces[space][self.region(space, page)].append((page, frame))
        return f"frame {frame} new"

    def release(self, space, page):
        """It "empties the region's list, puts its frames at the front of the pool, newest mapped first"."""
        if self.outside(space, page):
            return self.outside(space, page)
        regions = self.state.spaces[space]
        if page not in regions:
            return "no 5"
        pairs, regions[page] = regions[page], []
        self.state.pool[:0] = [frame for _, frame in reversed(pairs)]
        return f"pages {len(pairs)}"

    def give(self, space, page):
        """W-205: the page "leaves its region's list, the region's newest page takes its position there, and the frame goes to the front of the pool"."""
        found = self.look(space, page)
        if not found.startswith("resident"):
            return found.replace("absent", "no 10")
        pairs = self.state.spaces[space][self.region(space, page)]
        position = [one for one, _ in pairs].index(page)
        frame, newest = pairs[position][1], pairs.pop()
        if position < len(pairs):
            pairs[position] = newest
        self.state.pool.insert(0, frame)
        return "ok"
