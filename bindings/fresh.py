"""Installs the wrapper of each language by the commands of its page, where no toolchain is, and runs the page's program.

A Copy is a copy of bindings/ as a clone has it, with a HOME and a TMPDIR of its own and a PATH that has no `rt`.
"""
import math
import os
import pathlib
import re
import shutil
import subprocess
import sys
import time

from archive import TOP, Failed, files

PATH = "/usr/bin:/bin"
# What a Python must have to build the package without a network.
CAN_BUILD = """
import os, setuptools, sysconfig, venv
assert os.path.exists(os.path.join(sysconfig.get_paths()["include"], "Python.h"))
if tuple(map(int, setuptools.__version__.split(".")[:2])) < (70, 1): import wheel
"""


def block(page, language, at=0):
    """A block of the page of a language."""
    return re.findall(rf"^```{language}\n(.*?)^```$", (TOP / "bindings" / page / "README.md").read_text(), re.M | re.S)[at]


def builder():
    """A Python that can build the package."""
    for python in dict.fromkeys((sys.executable, "/usr/bin/python3")):
        if os.path.exists(python) and subprocess.run([python, "-c", CAN_BUILD], capture_output=True, check=False).returncode == 0:
            return python
    raise Failed("no Python has setuptools, wheel, venv and Python.h: install the packages python3-dev, python3-venv, python3-setuptools and python3-wheel")


class Copy:
    def __init__(self, room):
        self.clone = room / "clone"
        for path in files():
            to = self.clone / path.relative_to(TOP)
            to.parent.mkdir(parents=True, exist_ok=True)
            shutil.copy(path, to)
        self.env = {"PATH": PATH, "HOME": str(room / "home"), "TMPDIR": str(room / "temporary"), "CLONE": str(self.clone), "LANG": "C.UTF-8", "PIP_NO_INDEX": "1", "PIP_DISABLE_PIP_VERSION_CHECK": "1"}
        for name in ("HOME", "TMPDIR"):
            pathlib.Path(self.env[name]).mkdir(parents=True)
        if shutil.which("rt", path=PATH):
            raise Failed(f"{PATH} has the toolchain")

    def tell(self, name, last, script, **more):
        """Runs a script in the clone, which must print a last line, and says how long that took."""
        begun = time.monotonic()
        done = subprocess.run(["/bin/sh", "-ec", script], cwd=self.clone, env={**self.env, **more}, stdin=subprocess.DEVNULL, capture_output=True, text=True, check=False)
        if done.returncode or done.stdout.rstrip("\n").split("\n")[-1] != last:
            raise Failed(f"{name} doesn't print {last!r} at last: status {done.returncode}\n{done.stdout[-2000:]}{done.stderr[-2000:]}")
        return f"{name} in {math.ceil(time.monotonic() - begun)} s"

    def in_c(self):
        (self.clone / "ten.c").write_text(block("c", "c"))
        return [self.tell("C", "57: 19", block("c", "sh") + block("c", "sh", 1))]

    def in_cpp(self):
        (self.clone / "ten.cpp").write_text(block("cpp", "cpp"))
        return [self.tell("C++", "the largest square up to 200 is 196", block("c", "sh") + block("cpp", "sh"))]

    def in_rust(self):
        (self.clone / "main.rs").write_text(block("rust", "rust"))
        rust = subprocess.run(["rustc", "--print", "sysroot"], capture_output=True, text=True, check=True).stdout.strip()
        script = f"cd $HOME; cargo new -q ten; cd ten; cp $CLONE/main.rs src\n{block('rust', 'sh')}cargo run -q"
        return [self.tell("Rust", "Some((9, 3))", script, PATH=f"{rust}/bin:{PATH}")]

    def in_python(self):
        """Installs from the clone, and then a wheel of it where there is no compiler."""
        (self.clone / "ten.py").write_text(block("python", "python"))
        last, python = "TreeIndex({103: 'two', 104: 'one'})", builder()
        own = f"{python} -m venv --system-site-packages $HOME/own; $HOME/own/bin/pip install -q --no-build-isolation ./bindings/python; $HOME/own/bin/python ten.py"
        told = [self.tell("Python", last, own)]
        wheel = f"{python} -m venv $HOME/bare; $HOME/own/bin/pip wheel -q --no-deps --no-build-isolation -w wheels ./bindings/python"
        self.tell("a wheel", "", wheel)
        bare = self.env["HOME"] + "/bare/bin"
        return [*told, self.tell("a wheel of it where there is no compiler", last, f"{bare}/pip install -q wheels/*.whl; {bare}/python ten.py", PATH=bare)]
