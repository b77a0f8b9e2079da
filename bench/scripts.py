"""Kinds of random scripts for `treetool`: each gives lines without end, for a source of random numbers.

A kind that removes never asks for `depth` and `spare`, which no rule fixes then. `clear` starts from nothing, so any kind may have it.
"""
LARGEST = 2**64 - 1
ODD_LINES = (
    b"",
    b" ",
    b"?",
    b"len ",
    b" len",
    b"Len",
    b"len\r",
    b"len\t",
    b"len 1",
    b"iter iter",
    b"insert",
    b"insert 1",
    b"insert 1 ",
    b"insert  1 2",
    b"insert 1  2",
    b"insert 1 2 3",
    b"insert 01 2",
    b"insert 1 02",
    b"insert -1 2",
    b"insert +1 2",
    b"insert 1.0 2",
    b"insert 0x1 2",
    b"insert 1_0 2",
    b"insert 1 a",
    b"insert 18446744073709551616 1",
    b"insert 1 18446744073709551616",
    b"upsert 99999999999999999999 1",
    b"upsert 100000000000000000000 1",
    b"upsert 1\t2",
    b"peek \xd9\xa1",
    b"peek \xff",
    b"peek 1\x00",
    b"\xc3\x28",
    b"remove",
    b"remove [1",
    b"remove 1 1",
    b"remove_if 1",
    b"removeif 1 1",
    b"remove_range",
    b"remove_range -",
    b"remove_range - - -",
    b"remove_range 1 2",
    b"remove_range [1 2]",
    b"remove_range [ (",
    b"remove_range [01 -",
    b"remove_range -1 -",
    b"remove_range -- -",
    b"remove_range [18446744073709551616 -",
    b"range )1 -",
    b"range [1",
    b"range [1 [2 [3",
    b"locate -",
    b"clear -",
    b"depth 0",
    b"spare 0",
    b"back\x0b",
    b"storm 1 1",
)


class Lines:
    """Writes lines over the keys that a script draws."""

    def __init__(self, random, draw):
        self.random = random
        self.draw = draw

    def insert(self):
        return f"insert {self.draw()} {self.random.randrange(100)}"

    def write(self):
        return self.insert() if self.random.random() < 0.6 else self.upsert()

    def upsert(self):
        return f"upsert {self.draw()} {self.random.randrange(100)}"

    def removal(self):
        if self.random.random() < 0.3:
            return f"remove_if {self.draw()} {self.random.randrange(100)}"
        return f"remove {self.draw()}"

    def look_up(self):
        call = self.random.choice(("peek", "contains", "locate"))
        return f"{call} {self.draw()}"

    def locate(self):
        return f"locate {self.draw()}"

    def measure(self):
        return self.random.choice(("depth", "spare", "spare", "len"))

    def length(self):
        return "len"

    def bound(self):
        kind = self.random.choice("[[((-")
        return kind if kind == "-" else f"{kind}{self.draw()}"

    def bounds(self):
        """Two bounds, of which either may be the larger one."""
        return f"{self.bound()} {self.bound()}"

    def near_bounds(self):
        """Two bounds around a few keys, or around none."""
        low = self.draw()
        high = min(low + self.random.randrange(40), LARGEST)
        return f"{self.random.choice('[(')}{low} {self.random.choice('[(')}{high}"

    def cut(self):
        return f"remove_range {self.near_bounds()}"

    def wide_cut(self):
        return "clear" if self.random.random() < 0.1 else f"remove_range {self.bounds()}"

    def part(self):
        return f"range {self.near_bounds()}"

    def walk(self):
        call = self.random.choice(("iter", "back", "range", "range", "range"))
        return f"{call} {self.bounds()}" if call == "range" else call

    def odd(self):
        """A line that the grammar doesn't have, or one close to it."""
        if self.random.random() < 0.8:
            return self.random.choice(ODD_LINES)
        length = self.random.choice((200, 254, 255, 256, 257, 258, 300, 511, 512, 513, 2000))
        return (b"peek 1" + b" " * length)[:length] if self.random.random() < 0.5 else b"9" * length


def mixed(shares):
    """Lines of which each comes from one of some makers, as often as its share says."""
    makers, weights = zip(*shares)
    random = makers[0].__self__.random
    while True:
        yield random.choices(makers, weights)[0]()


def dense(random):
    size = random.choice((3, 20, 60, 200, 1000, 10000))
    lines = Lines(random, lambda: random.randrange(size))
    return mixed([(lines.write, 60), (lines.look_up, 20), (lines.measure, 20)])


def sparse(random):
    ends = (0, 1, LARGEST - 1, LARGEST, 2**63, 2**63 - 1, 2**32, 2**32 - 1)
    lines = Lines(random, lambda: random.choice(ends) if random.random() < 0.05 else random.randrange(2**64))
    return mixed([(lines.write, 60), (lines.look_up, 20), (lines.measure, 15), (lines.odd, 1)])


def running(random, sign):
    """Writes that run one way, with a few out of the run."""
    strays = random.choice((0.0, 0.0, 0.0, 0.02, 0.2))
    measures = random.choice((0.02, 0.3))
    key, gap = 2**40, random.choice((1, 2, 5))
    lines = Lines(random, lambda: max(0, key + random.randrange(-2000, 2000)))
    while True:
        if random.random() < measures:
            yield lines.measure()
        elif random.random() < strays:
            yield lines.write()
        else:
            key += sign * random.randrange(1, gap + 1)
            yield f"{random.choice(('insert', 'insert', 'upsert'))} {key} {random.randrange(100)}"


def ascending(random):
    return running(random, 1)


def descending(random):
    return running(random, -1)


def churn(random):
    size = random.choice((10, 50, 300, 3000))
    lines = Lines(random, lambda: random.randrange(size))
    writes = random.choice((30, 40, 50))
    return mixed([(lines.write, writes), (lines.removal, 40), (lines.look_up, 15), (lines.length, 5)])


def cuts(random):
    size = random.choice((10, 40, 200, 1000, 5000, 2**64))
    lines = Lines(random, lambda: random.randrange(size))
    wide = random.choice((0.1, 1, 5))
    shares = [(lines.write, 60), (lines.cut, 5), (lines.wide_cut, wide), (lines.removal, 5), (lines.look_up, 5)]
    return mixed(shares + [(lines.part, 5), (lines.length, 5)])


def few_keys(random):
    """Upserts of so few keys that leaves are built anew."""
    keys = [random.randrange(1000) for _ in range(random.randrange(1, 30))]
    lines = Lines(random, lambda: random.choice(keys))
    return mixed([(lines.upsert, 60), (lines.measure, 30), (lines.look_up, 10)])


def bad_lines(random):
    lines = Lines(random, lambda: random.randrange(50))
    return mixed([(lines.odd, 60), (lines.write, 20), (lines.removal, 5), (lines.walk, 5), (lines.look_up, 10)])


def nearest(random):
    """Nearest keys among keys that lie apart."""
    gap = random.choice((2, 3, 10, 1000))
    writes = Lines(random, lambda: random.randrange(1, 500) * gap)
    reads = Lines(random, lambda: max(0, random.randrange(501) * gap + random.randrange(-2, 3)))
    removals = random.choice((0.0, 10.0))
    return mixed([(writes.write, 25), (writes.removal, removals), (reads.locate, 60), (reads.part, 10)])


def walks(random):
    size = random.choice((5, 40, 300))
    lines = Lines(random, lambda: random.randrange(size))
    return mixed([(lines.write, 60), (lines.removal, 15), (lines.cut, 1), (lines.walk, 10), (lines.part, 15)])


KINDS = (dense, sparse, ascending, descending, churn, cuts, few_keys, bad_lines, nearest, walks)
