"""Runs a built `storetool` over files in a folder of its own, for the programs that try it."""
import os
import random
import subprocess
import tempfile
import time
from typing import NamedTuple

SECONDS = 60
# The names of a store's files, behind the name that the program is given.
ENDINGS = ("", "-wal")
# The keys of random lines are below this.
KEYS = 3000


class Ran(NamedTuple):
    """What a run ended with."""

    status: int
    output: bytes
    errors: bytes


class Store:
    """A store's name in a new folder."""

    def __init__(self, program, folder=None, before=()):
        self.program = os.path.abspath(program)
        self.before = before
        self.room = tempfile.TemporaryDirectory(prefix="storetool-", dir=folder)
        self.path = os.path.join(self.room.name, "f")

    def __enter__(self):
        return self

    def __exit__(self, *_):
        self.room.cleanup()

    def run(self, lines=b"", *words, path=None, before=(), **options):
        """Runs the program to its end on lines, after the words of another command if there are any."""
        command = [*before, *self.before, self.program, path or self.path, *words]
        done = subprocess.run(command, input=lines, capture_output=True, timeout=SECONDS, check=False, **options)
        return Ran(done.returncode, done.stdout, done.stderr)

    def start(self, *words):
        """Starts the program with pipes."""
        return subprocess.Popen([*self.before, self.program, self.path, *words], stdin=subprocess.PIPE, stdout=subprocess.PIPE, stderr=subprocess.PIPE, bufsize=0)

    def files(self):
        """The bytes of each of the files that are there."""
        found = {}
        for ending in ENDINGS:
            if os.path.exists(self.path + ending):
                with open(self.path + ending, "rb") as file:
                    found[ending] = file.read()
        return found

    def put(self, files):
        """Writes the files, and takes away those that are not among them."""
        for ending in ENDINGS:
            if ending in files:
                with open(self.path + ending, "wb") as file:
                    file.write(files[ending])
            elif os.path.exists(self.path + ending):
                os.remove(self.path + ending)


def read_lines(stream, count, seconds=10):
    """Reads so many lines of a pipe, or fewer if the time is over."""
    os.set_blocking(stream.fileno(), False)
    text, end = b"", time.monotonic() + seconds
    while text.count(b"\n") < count and time.monotonic() < end:
        piece = stream.read(1 << 16)
        if piece is None:
            time.sleep(0.002)
        elif piece == b"":
            break
        else:
            text += piece
    return text


class Model:
    """A plain map of the pairs, and how many keys it has other values at than a listing."""

    def __init__(self):
        self.values = {}
        self.listed = None
        self.wrong = set()

    def compare(self, listed):
        """Begins to compare with a listing."""
        self.listed = listed
        self.wrong = {key for key in self.values.keys() | listed.keys() if self.values.get(key) != listed.get(key)}

    def set(self, key, value):
        """Sets the value of a key, or takes the key away."""
        if value is None:
            self.values.pop(key, None)
        else:
            self.values[key] = value
        if self.listed is not None:
            (self.wrong.discard if self.values.get(key) == self.listed.get(key) else self.wrong.add)(key)

    def apply(self, line):
        """Applies a line and gives its answer."""
        name, *numbers = line
        if name == "insert" and numbers[0] in self.values:
            return b"duplicate"
        if name in ("insert", "upsert"):
            self.set(*numbers)
            return b"ok"
        if name in ("remove", "remove_if"):
            found = self.values.get(numbers[0])
            if found is None or (name == "remove_if" and found != numbers[1]):
                return b"false"
            self.set(numbers[0], None)
            return b"true"
        low, high = numbers if numbers else (0, KEYS)
        for key in range(low, high):
            if key in self.values:
                self.set(key, None)
        return b"ok"


def line_of():
    """A random line, as its name and numbers."""
    turn, key, value = random.random(), random.randrange(KEYS), random.randrange(1 << 40)
    if turn < 0.45:
        return "insert", key, value
    if turn < 0.75:
        return "upsert", key, value
    if turn < 0.92:
        return "remove", key
    if turn < 0.95:
        return "remove_if", key, value
    return ("clear",) if turn > 0.9995 else ("remove_range", key, min(KEYS, key + random.randrange(60)))


def spelled(line):
    """A line as its bytes."""
    name, *numbers = line
    if name == "remove_range":
        return b"remove_range [%d (%d\n" % tuple(numbers)
    return (" ".join([name, *map(str, numbers)]) + "\n").encode()


def listing(store):
    """The pairs of a store, or why it can't be listed."""
    ran = store.run(b"", "dump")
    if ran.status != 0:
        return None, ran.errors.decode(errors="replace").strip()
    return dict(tuple(map(int, line.split())) for line in ran.output.splitlines()), ""
