"""Runs `treetool`, or another program that reads its lines, on scripts, for the programs that compare what it writes.

A script is the bytes of its requests. Without a program, `rt try` builds the crate, unproved and with checks of each access, and runs
it on all scripts of a call. It leaves no program behind, so each call builds once, which takes about half a minute.
"""
import os
import subprocess
import sys
import tempfile
from typing import NamedTuple

TOP = os.path.dirname(os.path.dirname(os.path.abspath(__file__)))
SECONDS = 600


class Tool(NamedTuple):
    """A built program, or a crate of crates/ if none is given, whether it has the index of seven slots, and its other options."""

    program: str | None = None
    small: bool = False
    crate: str = "treetool"
    options: tuple = ()

    def slots(self):
        """How many slots an array of its index has."""
        return 7 if self.small else 15

    def arguments(self):
        """The arguments after the program's name."""
        return [*self.options, *(["--small"] if self.small else [])]

    def runs(self, scripts):
        """Runs the program once on each script, and gives each run."""
        return [run(self, script) for script in scripts] if self.program else tries(self, scripts)


class Ran(NamedTuple):
    """What a run wrote to standard output, and how it ended: `status=0` where all is well."""

    output: bytes
    end: str


def run(tool, script):
    """Runs a built program on a script."""
    done = subprocess.run([tool.program, *tool.arguments()], input=script, stdout=subprocess.PIPE, timeout=SECONDS, check=False)
    return Ran(done.stdout, f"status={done.returncode}")


def tries(tool, scripts):
    """Builds a crate by `rt try`, and runs it on each script."""
    with tempfile.TemporaryDirectory(prefix="treetool-") as folder:
        names = [f"{place:06}" for place in range(len(scripts))]
        os.mkdir(os.path.join(folder, "cases"))
        for name, script in zip(names, scripts):
            with open(os.path.join(folder, "cases", name), "wb") as file:
                file.write(script)
        with open(os.path.join(folder, "output"), "w+b") as output:
            command = ["rt", "try", "--seconds", str(SECONDS), "--cases", os.path.join(folder, "cases")]
            command += ["--", *tool.arguments()]
            home = os.path.join(TOP, "crates", tool.crate)
            done = subprocess.run(command, cwd=home, stdout=output, stderr=subprocess.PIPE, check=False)
            output.seek(0)
            outputs = outputs_of(output.read(), names)
    ends = ends_of(done.stderr.decode(errors="replace"))
    if not ends:
        sys.exit(f"bench: rt try did not run {tool.crate}:\n{done.stderr.decode(errors='replace')}")
    return [Ran(outputs.get(name, b""), ends.get(name, "no end was told")) for name in names]


def outputs_of(told, names):
    """The output of each case, of what `rt try` wrote: a line `== NAME` stands before each output."""
    outputs = {}
    starts = [(told.find(b"== %s\n" % name.encode()), name) for name in names]
    starts = sorted(it for it in starts if it[0] >= 0)
    for place, (start, name) in enumerate(starts):
        end = starts[place + 1][0] if place + 1 < len(starts) else len(told)
        outputs[name] = told[start + len(name) + 4 : end]
    return outputs


def ends_of(told):
    """How each case ended, of the lines `case=NAME run=ended status=0 ..` of `rt try`."""
    ends = {}
    for line in told.splitlines():
        words = line.split()
        if words and words[0].startswith("case="):
            ended = words[1:2] == ["run=ended"] and len(words) > 2
            ends[words[0][len("case=") :]] = words[2] if ended else " ".join(words[1:])
    return ends
