"""The words of a check by the compiler itself, over the libraries that `rt ci` has left in crates/*/out."""
import functools
import os
import subprocess

from crates import TOP, libraries_of_each


@functools.cache
def kit():
    """The folder of the toolchain."""
    told = subprocess.run(["rt", "doc"], stdout=subprocess.PIPE, text=True, check=True)
    return os.path.dirname(told.stdout.strip())


def root_of(folder):
    """The first file of a crate."""
    return next(it for it in ("src/main.rt", "src/lib.rt") if os.path.exists(os.path.join(folder, it)))


def words_of(crate, folder, top=TOP):
    """The words that check a crate which stands in a folder: its root, its libraries, which a gate has left in the crates below a folder, and the logic."""
    libraries = libraries_of_each()
    own = {name: os.path.join(top, "crates", name, "out", "rlib", f"{name}.rlib") for name in libraries}
    words = ["--crate-name", crate, root_of(folder), "-L", f"dependency={kit()}/rlibs"]
    for name in libraries:
        words += ["-L", f"dependency={os.path.dirname(own[name])}"] if os.path.isdir(own[name]) else []
    for name in ["std", *(it for it in libraries[crate] if it != "std")]:
        words += ["--extern", f"{name}={own.get(name, f'{kit()}/rlibs/{name}.rlib')}"]
    words += ["--links", f"{crate}=", "--antt-project", f"{kit()}/rattle/logic/antt-project.json", "--logic-built", f"{kit()}/logic_built"]
    return [f"{kit()}/bin/rattle", "check", *words]
