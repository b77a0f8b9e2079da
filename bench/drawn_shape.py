"""The model of tree_shape.py with removals, by the rules of docs/STRUCTURE.md, as a picture of `treedraw` shows it.

A picture is a leaf, `("leaf", slots)`, or a node, `("node", separators, children)`. Slots are in order of arrival, and each is a key,
SPENT or UNUSED. A retired node has no child.
"""
from tree_shape import Array, Node, TreeShape

SPENT, UNUSED = "///", " "


class DrawnArray(Array):
    """An array that can lose keys, and is retired with its last one."""

    retired = False

    def is_full(self):
        return self.retired or super().is_full()

    def remove(self, key):
        """Removes a key. Its slot is spent."""
        self.keys.remove(key)
        self.arrivals[self.arrivals.index(key)] = None
        self.retired = not self.keys

    def picture(self):
        """The slots in order of arrival."""
        slots = [SPENT if it is None else it for it in self.arrivals]
        return tuple(slots + [UNUSED] * (self.slots - len(slots)))


class DrawnShape(TreeShape):
    """The nodes and leaves of an index whose keys are written and removed."""

    def array(self, keys=()):
        return DrawnArray(self.slots, keys)

    def counted(self, leaf):
        return leaf

    def write(self, key):
        if self.root and self.root.unbounded is None:
            self.root = None
        super().write(key)

    def make_room(self, node, place):
        child = node.child(place)
        if not child.array.divides():
            child.array = self.array(child.array.keys)
            return True
        return super().make_room(node, place)

    def leaf_of(self, key):
        """The leaf that a key goes to."""
        part = self.root
        while isinstance(part, Node):
            part = part.child(part.place_for(key))
        return part

    def has(self, key):
        leaf = self.leaf_of(key)
        return leaf is not None and key in leaf.keys

    def remove(self, key):
        """Removes a key, if it is present. The root is lowered if the key was the last one of its leaf."""
        if not self.has(key):
            return
        leaf = self.leaf_of(key)
        leaf.remove(key)
        if not leaf.keys:
            self.drop_emptied(self.root, key)
            self.lower_root()

    def drop_emptied(self, node, key):
        """Drops the leaf of a key, which is empty, and each node that is left without a child. True if this one is."""
        place = node.place_for(key)
        if node.level == 1:
            if place < len(node.children):
                take_keyed(node, place)
            if not node.children and node.unbounded.retired:
                node.unbounded = None
        elif self.drop_emptied(node.child(place), key):
            if place < len(node.children):
                take_keyed(node, place)
            else:
                node.unbounded = take_keyed(node, place - 1) if node.children else None
        return node.unbounded is None

    def remove_range(self, is_within):
        """Removes the keys that are within bounds."""
        if self.root and self.root.unbounded is not None:
            cut(self.root, is_within)
            self.lower_root()

    def lower_root(self):
        """Gives the place of a root over nodes without a keyed child to its unbounded child."""
        while self.root and self.root.level > 1 and not self.root.children:
            self.root = self.root.unbounded

    def clear(self):
        self.root = None

    def picture(self):
        """The whole tree, or None without a root."""
        return picture_of(self.root)

    def levels(self):
        """Of each level, the root's first: its number, its arrays, their keys, their spent slots and their slots."""
        parts, level = [self.root], self.depth()
        while parts:
            arrays = [it.array if isinstance(it, Node) else it for it in parts]
            spent = sum(it.arrivals.count(None) for it in arrays)
            yield level, len(arrays), sum(len(it.keys) for it in arrays), spent, len(arrays) * self.slots
            parts, level = [it for part in parts if isinstance(part, Node) for it in (*part.children, part.unbounded)], level - 1


def take_keyed(node, place):
    """Takes a keyed child out of its node, and returns it."""
    node.array.remove(node.array.keys[place])
    return node.children.pop(place)


def cut(part, is_within):
    """Removes the keys within bounds from a part. A keyed child that is left without a key is dropped. True if no key is left."""
    if isinstance(part, Array):
        for key in [it for it in part.keys if is_within(it)]:
            part.remove(key)
        return not part.keys
    for place in range(len(part.children) - 1, -1, -1):
        if cut(part.children[place], is_within):
            take_keyed(part, place)
    return cut(part.unbounded, is_within) and not part.children


def picture_of(part):
    """A part of a tree as a picture shows it."""
    if isinstance(part, Array):
        return ("leaf", part.picture())
    if part is None:
        return None
    children = [] if part.unbounded is None else [*part.children, part.unbounded]
    return ("node", tuple(part.array.keys), tuple(map(picture_of, children)))


def skeleton_of(picture):
    """A picture without its keys."""
    return picture and (picture[0] == "leaf" or tuple(map(skeleton_of, picture[2])))


def paint_of(before, now):
    """The paint of a picture after a line: True for each slot or separator that the line changed. False if it changed the skeleton."""
    if skeleton_of(before) != skeleton_of(now):
        return False
    if now is None:
        return None
    if now[0] == "leaf":
        return ("leaf", tuple(new not in (old, UNUSED) for old, new in zip(before[1], now[1])))
    return ("node", tuple(key not in before[1] for key in now[1]), tuple(map(paint_of, before[2], now[2])))


def within(low, high):
    """The test of two bounds, as a line has them."""
    tests = {"[": lambda key, end: key >= end, "(": lambda key, end: key > end}

    def meets(key, bound, sign):
        return bound == "-" or tests[bound[0]](sign * key, sign * int(bound[1:]))

    return lambda key: meets(key, low, 1) and meets(key, high, -1)


def apply(shape, line):
    """Applies a line to the model."""
    call, *words = line.split(" ")
    if call == "clear":
        shape.clear()
    elif call == "remove_range":
        shape.remove_range(within(*words))
    elif call == "remove":
        shape.remove(int(words[0]))
    elif call == "upsert" or call == "insert" and not shape.has(int(words[0])):
        shape.write(int(words[0]))


def expected_of(lines, slots):
    """After each line the picture of the model, and its paint if the line changed no more than slots and separators."""
    shape = DrawnShape(slots)
    before = shape.picture()
    for line in lines:
        apply(shape, line)
        now = shape.picture()
        yield now, paint_of(before, now)
        before = now
