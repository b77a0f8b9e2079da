"""What crates.txt says of the crates of this repository, where their edits are, and sums of their text."""
import hashlib
import os

TOP = os.path.dirname(os.path.dirname(os.path.abspath(__file__)))


def libraries_in(path):
    """The crates that a file in the form of crates.txt names, each with the libraries that it uses."""
    found = {}
    with open(path, encoding="utf-8") as lines:
        for line in lines:
            name, colon, below = line.partition("#")[0].partition(":")
            if colon:
                found[name.split()[0]] = below.split()
    return found


def libraries_of_each():
    """The crates that crates.txt names, each with the libraries that it uses: other crates, and those of the toolchain."""
    return libraries_in(os.path.join(TOP, "crates.txt"))


def below_each():
    """The same with those of this repository alone."""
    found = libraries_of_each()
    return {name: [it for it in below if it in found] for name, below in found.items()}


def all_below(names, below):
    """The crates that these stand on, at whatever remove."""
    found = set()
    left = list(names)
    while left:
        news = set(below[left.pop()]) - found
        found |= news
        left += news
    return found


def edits_of(crate, folder):
    """The names of the edits in a folder of a crate, `must-fail` or `wrong-bodies`."""
    path = os.path.join(TOP, "crates", crate, folder)
    return sorted(it for it in os.listdir(path) if it.endswith(".edit")) if os.path.isdir(path) else []


def files_in(crate, part):
    """The files of a part of a crate, in one order everywhere."""
    for at, folders, files in os.walk(os.path.join(TOP, "crates", crate, part)):
        folders.sort()
        for file in sorted(files):
            yield os.path.join(at, file)


def text_of(path):
    """The text of a file, without the lines of source that are comments: no verdict rests on them."""
    with open(path, "rb") as text:
        lines = text.read().split(b"\n")
    return b"\n".join(it for it in lines if not path.endswith(".rt") or not it.lstrip().startswith(b"//"))


def sum_of_files(parts, others=()):
    """A sum of the text of some parts of crates, and of other files."""
    told = hashlib.sha256()
    for path in [*(path for crate, part in parts for path in files_in(crate, part)), *others]:
        told.update(repr((os.path.relpath(path, TOP), text_of(path))).encode())
    return told.hexdigest()[:16]
