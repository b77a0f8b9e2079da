"""Runs of tests whose requests for memory and for threads are refused: how the tests are built, and each run of them."""
import os
import re
import shutil
import struct
import subprocess
import tempfile
import time
from typing import NamedTuple

import tried
from crates import TOP

WAYS = ("REFUSE_AT", "REFUSE_FROM")
SHARE = 3
# What refuse.c keeps of a run and of each call, and of how many calls.
COUNTS, CALL = struct.Struct("3q"), struct.Struct("72s3q")
CALLS = 400
PIPES = {"stdin": subprocess.DEVNULL, "stdout": subprocess.PIPE, "stderr": subprocess.STDOUT}


class Ran(NamedTuple):
    """How many requests a run made and how many were refused, how long it took, what its calls were refused and answered, and what was
    wrong with it, if something was."""

    requests: int
    refused: int
    seconds: float
    calls: dict
    flaw: str


class Test:
    """A test of a program, the run of it in which nothing is refused, and the others, each with its way."""

    def __init__(self, crate, program, name):
        self.crate, self.program, self.name = crate, program, name
        self.first, self.runs = None, []


class Job(NamedTuple):
    """A run that refuses the request of a number alone, or each from it on."""

    test: Test
    way: str
    number: int


def copy_into(room):
    """Copies what the tests are built from, without what earlier builds left, and adds the tests that are tried."""
    shutil.copytree(os.path.join(TOP, "crates"), os.path.join(room, "crates"), ignore=shutil.ignore_patterns("out"))
    for name in ("crates.txt", "HANDLES"):
        shutil.copy(os.path.join(TOP, name), room)
    tried.put_into(room)


def built(room, crate):
    """Builds the tests of a crate, and gives the program, or what was said if there is none."""
    home, program = os.path.join(room, "crates", crate), os.path.join(room, crate)
    os.mkdir(os.path.join(home, "c"))
    shutil.copy(os.path.join(TOP, "bench", "refuse.c"), os.path.join(home, "c"))
    words = {"RT_ALLOW_C": crate, "CFLAGS": f'-DKEPT=\\"{program}\\"'}
    # The program copies itself and ends, so rt says that it doesn't list its tests.
    done = subprocess.run(["rt", "try", "--test"], cwd=home, env={**os.environ, **words}, check=False, **PIPES)
    return program, "" if os.path.isfile(program) else done.stdout.decode(errors="replace")


def names_in(program):
    """The names of the tests of a program."""
    told = subprocess.run([program, "--list"], stdout=subprocess.PIPE, check=True).stdout.decode()
    return re.findall(r"^(\S+): test$", told, re.M)


def tests_of(pool, room, crates):
    """Builds the tests of these crates. Gives them, and how many crates have none."""
    tests, without = [], 0
    for crate, (program, said) in zip(crates, pool.map(lambda crate: built(room, crate), crates)):
        names = [] if said else names_in(program)
        if not names:
            print(f"{crate}: no tests were built\n{said}", flush=True)
            without += 1
        tests += [Test(crate, program, name) for name in names]
    return tests, without


def calls_in(table):
    """The calls in a table of refuse.c, each with its requests, refusals and answers."""
    found = (CALL.unpack_from(table, at) for at in range(0, len(table), CALL.size))
    return {name.rstrip(b"\0").decode(): tuple(numbers) for name, *numbers in found if name[0]}


def ran(test, seconds, words):
    """Runs a test with these words of its environment."""
    with tempfile.NamedTemporaryFile() as file:
        file.truncate(COUNTS.size + CALLS * CALL.size)
        start = time.monotonic()
        try:
            environment = {**words, "REFUSALS": file.name}
            done = subprocess.run([test.program, test.name], env=environment, timeout=seconds, check=False, **PIPES)
            said, end = done.stdout.decode(errors="replace"), f"status {done.returncode}" if done.returncode else ""
        except subprocess.TimeoutExpired:
            said, end = "", f"no end within {seconds} seconds"
        table = file.read()
    requests, refused, held = COUNTS.unpack_from(table)
    if not end and "test result: ok" not in said:
        end = "no result"
    if not end and held > 0:
        end = f"{held} blocks kept"
    asked = " ".join(f"{name}={value}" for name, value in words.items()) or "no refusal"
    flaw = f"{test.name}, {asked}: {end}\n{said}" if end else ""
    return Ran(requests, refused, time.monotonic() - start, calls_in(table[COUNTS.size :]), flaw)


def first_jobs(tests, share):
    """Each request that a test makes if none is refused, and one more: both ways. With a share only the numbers that leave it."""
    for test in tests:
        requests = test.first.requests
        for number in range(1, requests + 2 if requests else 1):
            if share is None or number % SHARE == share:
                yield from (Job(test, way, number) for way in WAYS)


def next_jobs(runs, share):
    """Goes on with each test and way whose last run met a refusal: its threads asked for more than in the run without one."""
    last = {(job.test, job.way): (job.number, run.refused) for job, run in sorted(runs, key=lambda it: it[0].number)}
    step = 1 if share is None else SHARE
    return [Job(test, way, number + step) for (test, way), (number, refused) in last.items() if refused]


def sweep(pool, tests, seconds, share=None, limit=float("inf")):
    """Runs each test without a refusal and then with each, quick tests first. No run with a refusal begins more than so many seconds
    after those without. Gives how many runs were left out for it."""
    for test, first in zip(tests, pool.map(lambda test: ran(test, seconds, {}), tests)):
        test.first = first
    end = time.monotonic() + limit

    def run(job):
        return None if time.monotonic() > end else ran(job.test, seconds, {job.way: str(job.number)})

    left = 0
    jobs = sorted(first_jobs(tests, share), key=lambda job: job.test.first.seconds)
    while jobs:
        runs = [(job, done) for job, done in zip(jobs, pool.map(run, jobs)) if done]
        for job, done in runs:
            job.test.runs.append((job.way, done))
        left += len(jobs) - len(runs)
        jobs = next_jobs(runs, share)
    return left
