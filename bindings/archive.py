"""The archive of bindings/dist: how it is built, and of which text it is."""
import hashlib
import os
import pathlib
import re
import shutil
import subprocess
import sys
import tempfile

TOP = pathlib.Path(__file__).resolve().parent.parent
sys.dont_write_bytecode = True
sys.path.insert(0, str(TOP / "bench"))
from checks import kit, words_of
from crates import all_below, below_each, sum_of_files

CRATE = "tree_index_c"
FOLDER = TOP / "bindings/dist/x86_64-linux-gnu"
ARCHIVE = FOLDER / f"lib{CRATE}.a"
SUMS = FOLDER / "SHA256SUMS"
MADE_FROM = FOLDER / "made-from.txt"


class Failed(Exception):
    pass


def crates():
    """The library and the crates that it is made of."""
    return sorted({CRATE, *all_below([CRATE], below_each())})


def text_sum(others=()):
    """A sum of the text of these crates, and of other files."""
    return sum_of_files([(name, part) for name in crates() for part in ("src", "specs", "proofs")], others)


def sum_of(archive):
    return hashlib.sha256(archive.read_bytes()).hexdigest()


def call(words, **given):
    done = subprocess.run([str(word) for word in words], stdin=subprocess.DEVNULL, stdout=subprocess.PIPE, stderr=subprocess.STDOUT, text=True, errors="replace", **given)
    if done.returncode:
        raise Failed(f"{' '.join(map(str, words))}: status {done.returncode}\n{done.stdout[-3000:]}")
    return done.stdout


def copy_into(room):
    """Makes a folder the top of a repository that has the crates of the library alone."""
    names = crates()
    for name in names:
        shutil.copytree(TOP / "crates" / name, room / "crates" / name, ignore=shutil.ignore_patterns("out"))
    lines = (TOP / "crates.txt").read_text().splitlines(True)
    (room / "crates.txt").write_text("".join(line for line in lines if re.split(r"[\s:]", line)[0] in names))
    shutil.copy(TOP / "HANDLES", room)
    (room / ".git").mkdir()


def joined(room, library):
    """One archive of the library and of the heap that it calls, with neither times nor owners."""
    parts = room / "parts"
    parts.mkdir()
    for archive in (library, f"{kit()}/c/liblibc_c.a"):
        call(["ar", "x", archive], cwd=parts)
    made = room / ARCHIVE.name
    call(["ar", "rcsD", made, *sorted(os.listdir(parts))], cwd=parts)
    return made


def build(room, jobs, anew):
    """Proves the library in a folder of its own, builds it over what the gate has proved there, and returns the archive."""
    copy_into(room)
    call(["rt", "ci", *["--anew"] * anew], cwd=room, env={**os.environ, "RT_JOBS": str(jobs)})
    folder = room / "crates" / CRATE
    rattle, _, *words = words_of(CRATE, folder, room)
    words += ["--crate-type", "staticlib", "--toolchain", f"{kit()}/toolchain", "--backend", "llvm", "--jobs", jobs]
    said = call([rattle, "build", *words, "-o", room / "library.a"], cwd=folder)
    if not re.search(r"^logic=proved ", said, re.M):
        raise Failed(f"rattle build doesn't say that the library is proved:\n{said[-3000:]}")
    return joined(room, room / "library.a")


def write(archive):
    FOLDER.mkdir(parents=True, exist_ok=True)
    shutil.copyfile(archive, ARCHIVE)
    SUMS.write_text(f"{sum_of(ARCHIVE)}  {ARCHIVE.name}\n")
    MADE_FROM.write_text(f"text {text_sum()}\ntoolchain {call(['rt', 'version']).strip()}\n")


def build_twice(jobs, anew):
    """Builds the archive in two folders, and writes it if both are the same."""
    was = sum_of(ARCHIVE) if ARCHIVE.exists() else None
    with tempfile.TemporaryDirectory(prefix="one-") as one, tempfile.TemporaryDirectory(prefix="another-of-a-longer-name-") as other:
        archives = []
        for room in (one, other):
            archives.append(build(pathlib.Path(room), jobs, anew))
            print(f"{sum_of(archives[-1])} built in {room}", flush=True)
        if sum_of(archives[0]) != sum_of(archives[1]):
            raise Failed("the two archives differ")
        write(archives[0])
    print(f"{ARCHIVE.relative_to(TOP)} {'is the same as before' if sum_of(ARCHIVE) == was else 'is new'}: {ARCHIVE.stat().st_size} bytes")


def flaws():
    """What is wrong with the archive of bindings/dist."""
    if not all(path.exists() for path in (ARCHIVE, SUMS, MADE_FROM)):
        yield "bindings/dist has no archive"
    elif SUMS.read_text().split()[0] != sum_of(ARCHIVE):
        yield "bindings/dist: the archive has another sum than SHA256SUMS tells"
    elif f"text {text_sum()}\n" not in MADE_FROM.read_text():
        yield "bindings/dist: the archive is of another text than the present one"


def files():
    """The files of bindings/ as a clone has them."""
    listed = subprocess.run(["git", "ls-files", "-co", "--exclude-standard", "bindings"], cwd=TOP, capture_output=True, text=True, check=True).stdout.splitlines()
    return sorted(TOP / name for name in listed if (TOP / name).is_file())
