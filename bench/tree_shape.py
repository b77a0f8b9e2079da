"""A model of the tree's shape under writes, by the rules of docs/STRUCTURE.md: which leaf and node divide where.

It knows no values, and no removals. Each array is its entries in key order and the list of its arrivals, in which a spent slot holds None.
"""
from bisect import bisect_left

# The most entries with which a full array is not divided, for each number of slots.
LIMITS = {15: 11, 7: 5}


class Array:
    """An array of keys with a fixed number of slots."""

    def __init__(self, slots, keys=()):
        self.slots = slots
        self.keys = list(keys)
        self.arrivals = list(keys)

    def is_full(self):
        return len(self.arrivals) == self.slots

    def divides(self):
        """Whether a split is due once no slot is free."""
        return len(self.keys) > LIMITS[self.slots]

    def add(self, key):
        """Takes a slot for a key; where the key is present, the slot that it had is spent."""
        place = bisect_left(self.keys, key)
        if self.keys[place : place + 1] == [key]:
            self.arrivals[self.arrivals.index(key)] = None
        else:
            self.keys.insert(place, key)
        self.arrivals.append(key)

    def rises(self):
        """How many neighbours in the order of arrival rise."""
        kept = [key for key in self.arrivals if key is not None]
        return sum(first < second for first, second in zip(kept, kept[1:]))

    def boundary(self):
        """How many entries go to the lower half of a split."""
        rises = self.rises()
        return rises + 1 if 2 * rises + 1 < len(self.keys) else rises

    def is_ascending(self):
        """Whether all slots hold an entry, and these arrived in ascending order."""
        return self.rises() == self.slots - 1

    def spare(self):
        """How many writes are sure to find a slot here, or a rebuild in place."""
        unused = self.slots - len(self.arrivals)
        return self.slots - len(self.keys) if len(self.keys) + unused <= LIMITS[self.slots] else unused


class Node:
    """A node over leaves or nodes: a keyed child for each separator, in their order, and the unbounded child."""

    def __init__(self, level, array, children, unbounded):
        self.level = level
        self.array = array
        self.children = children
        self.unbounded = unbounded

    def place_for(self, key):
        """The place of the child that a key goes to; the unbounded child stands behind the keyed ones."""
        return bisect_left(self.array.keys, key)

    def child(self, place):
        return self.children[place] if place < len(self.children) else self.unbounded

    def put_child(self, place, child):
        if place < len(self.children):
            self.children[place] = child
        else:
            self.unbounded = child

    def add_before(self, place, key, child):
        """Adds a keyed child before the one at a place."""
        self.array.add(key)
        self.children.insert(place, child)


class TreeShape:
    """The nodes and leaves of an index, with so many slots in each array, into which keys were written."""

    def __init__(self, slots):
        self.slots = slots
        self.root = None
        self.spares = [0] * (slots + 1)

    def array(self, keys=()):
        """An array into which these keys came in ascending order."""
        return Array(self.slots, keys)

    def depth(self):
        return self.root.level if self.root else 0

    def spare(self):
        """The least spare of a leaf, 0 without a leaf."""
        return next((spare for spare, leaves in enumerate(self.spares) if leaves), 0)

    def write(self, key):
        """Writes a key that is absent, or replaces one that is present."""
        if self.root is None:
            self.root = Node(1, self.array(), [], self.counted(self.array()))
        while not self.write_below(self.root, key):
            self.root = Node(self.root.level + 1, self.array(), [], self.root)
            self.make_room(self.root, 0)

    def write_below(self, node, key):
        """Writes a key below a node; false, with nothing changed at the node, where the node answers that it is full."""
        if node.level == 1:
            return self.write_to_leaf(node, key)
        while not self.write_below(node.child(node.place_for(key)), key):
            if not self.make_room(node, node.place_for(key)):
                return False
        return True

    def write_to_leaf(self, node, key):
        """Writes a key to a leaf of a leaf node, which is split or built anew where it has no room."""
        place = node.place_for(key)
        leaf = node.child(place)
        if leaf.is_full():
            if leaf.divides() and node.array.is_full():
                return False
            self.split_leaf(node, place, leaf, key)
            leaf = node.child(node.place_for(key))
        self.spares[leaf.spare()] -= 1
        leaf.add(key)
        self.counted(leaf)
        return True

    def split_leaf(self, node, place, leaf, key):
        """Splits a full leaf of a node, or builds it anew."""
        keys = leaf.keys
        self.spares[leaf.spare()] -= 1
        if not leaf.divides():
            node.put_child(place, self.counted(self.array(keys)))
            return
        is_last = place == len(node.children)
        whole = leaf.is_ascending() and is_last and key > keys[-1]
        end = self.slots if whole else leaf.boundary()
        node.put_child(place, self.counted(self.array(keys[end:])))
        node.add_before(place, keys[end - 1], self.counted(self.array(keys[:end])))

    def make_room(self, node, place):
        """Splits a full child of a node over nodes; false where the node has no room for a separator. No slot of it is spent."""
        child = node.child(place)
        if node.array.is_full():
            return False
        keys, children, end = child.array.keys, child.children, child.array.boundary()
        lower = Node(child.level, self.array(keys[:end]), children[:end], children[end])
        node.put_child(place, Node(child.level, self.array(keys[end + 1 :]), children[end + 1 :], child.unbounded))
        node.add_before(place, keys[end], lower)
        return True

    def counted(self, leaf):
        """Counts a leaf among those of its spare."""
        self.spares[leaf.spare()] += 1
        return leaf
