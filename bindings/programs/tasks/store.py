"""The example of the site's page on files. Those in C, C++ and Rust beside it write the same lines. A store is served by the program
`storetool`, as a child."""
import sys

from tree_index import TreeIndex
from tree_index.store import open_store


def save(file, pairs):
    """Stores pairs in a file, so that they survive a crash."""
    with open_store(file) as store:
        store.update(pairs)


def save_one(file, price, quantity):
    """Stores a pair in a file. It is on the disk once the assignment is done."""
    with open_store(file) as store:
        store[price] = quantity


def load(file):
    """Returns an index of the pairs of a file."""
    with open_store(file) as store:
        return TreeIndex(store.items())


def main():
    save(sys.argv[1], [(101, 5), (104, 1)])
    save_one(sys.argv[1], 102, 7)
    save_one(sys.argv[1], 104, 3)
    for price, quantity in load(sys.argv[1]).items():
        print(f"{quantity} at {price}")


if __name__ == "__main__":
    main()
