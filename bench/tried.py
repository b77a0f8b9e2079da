"""Puts the tests that are tried, and not proved, into a copy of the repository.

bench/tried/CRATE has them, as modules of that crate, or as a crate of its own if crates.txt has no line for it; bench/tried/libraries.txt names
what they need besides. No proof says anything of the requests for memory that bench/refusals refuses them, and clauses say what the calls
answer that they make. C can't call the exports of `tree_index_c` in a program that `rt try --test` builds, so those are tested in Rattle.
"""
import os
import re
import shutil

from crates import TOP, below_each, libraries_in, libraries_of_each

TRIED = os.path.join(TOP, "bench", "tried")
EXPORTS = "tree_index_c"


def libraries():
    """What the tests of each crate need besides what crates.txt names."""
    return libraries_in(os.path.join(TRIED, "libraries.txt"))


def own_crates():
    """The crates that have nothing but tests that are tried, and what these share."""
    return [name for name in libraries() if name not in libraries_of_each()]


def files_of(crate):
    """The files of the tests of a crate that are tried, in one order everywhere."""
    found = (os.path.join(at, name) for at, _, names in os.walk(os.path.join(TRIED, crate)) for name in names)
    return sorted(found)


def built_from(crate):
    """What the tests of a crate are built from besides the crates below it: crates of the repository, and files that are tried."""
    found, left = set(), [crate]
    while left:
        name = left.pop()
        if name not in found:
            found.add(name)
            left += libraries().get(name, [])
    files = [path for name in sorted(found) if name == crate or name in own_crates() for path in files_of(name)]
    return [name for name in found if name in below_each()], files


def edited(path, form, text):
    """Writes a text for each place of a form in a file."""
    with open(path, encoding="utf-8") as file:
        old = file.read()
    with open(path, "w", encoding="utf-8") as file:
        file.write(re.sub(form, text, old, flags=re.M))


def put_files(room, crate):
    """Copies the tests of a crate into it, as modules of it unless it has nothing else."""
    source = os.path.join(room, "crates", crate, "src")
    for path in files_of(crate):
        to = os.path.join(source, os.path.relpath(path, os.path.join(TRIED, crate)).removesuffix(".rs") + ".rt")
        os.makedirs(os.path.dirname(to), exist_ok=True)
        shutil.copy(path, to)
    if crate not in own_crates():
        modules = sorted(it.removesuffix(".rs") for it in os.listdir(os.path.join(TRIED, crate)) if it.endswith(".rs"))
        with open(os.path.join(source, "lib.rt"), "a", encoding="utf-8") as text:
            text.writelines(f"\n#[cfg(test)]\nmod {name};\n" for name in modules)


def put_into(room):
    """Adds the tests to their crates, with the libraries that they need, and lets those of the exports call what is private to a module."""
    listed = os.path.join(room, "crates.txt")
    for crate, names in libraries().items():
        put_files(room, crate)
        if crate in own_crates():
            with open(listed, "a", encoding="utf-8") as lines:
                lines.write(f"{crate}: {' '.join(names)}\n")
        else:
            edited(listed, rf"^({crate}\b[^:\n]*: .*)$", rf"\1 {' '.join(names)}")
    for name in ("bytes.rt", "numbers.rt"):
        edited(os.path.join(room, "crates", EXPORTS, "src", name), r"^mod ", "pub mod ")
