"""The words, the answers and the statuses, one after another, on a cluster that is up."""
import base64
import pathlib
import re
import resource
import shutil
import subprocess
import sys
import time
from typing import Iterable, List, Optional

from trial.clients import Line
from trial.cluster import Cluster
from trial.processes import HERE, Node, Replica
from trial.recorder import Recorder, b64

WRONG, BEHIND, REFUSED = 1, 3, 4
TOP = 2**64 - 1


def ended(replica: Replica, seconds: float = 15) -> Optional[int]:
    """The status with which a replica ends."""
    until = time.monotonic() + seconds
    while replica.is_running and time.monotonic() < until:
        time.sleep(0.02)
    return replica.status()


def expect(replica: Replica, status: int, *words: str) -> Iterable[str]:
    """A replica ends with this status and a line with these words."""
    found = ended(replica)
    line = replica.said().rstrip("\n").rsplit("\n", 1)[-1]
    if found != status or not all(word in line for word in words):
        yield f"{replica.name}: status {found} and {line!r}, and not status {status} with {words}"
    replica.kill()


def answers(replica: Replica) -> Iterable[str]:
    """Lines with the answers that they have."""
    wanted = {
        "clear": "ok", "insert 5 50": "ok", "insert 5 51": "duplicate", "upsert 7 70": "ok", "locate 6": "between 5=50 7=70",
        "local": "ok", "peek 5": "50", "linear": "ok", "range [5 (7": "5=50", "back": "7=70 5=50", "spare": "0", "remove_if 5 51": "false",
        "": "?", "insert 05 1": "?", "insert 5": "?", "linear ": "?", f"peek {TOP + 1}": "?", "peek " + "1" * 300: "?", "forget": "?",
        "forget a b": "?", f"upsert {TOP} 9": "ok", f"locate {TOP}": f"exact {TOP}=9", "remove_range (7 -": "ok", "iter": "5=50 7=70",
        "forget nobody": "ok", "remove 7": "true", "contains 7": "false", "len": "1", "locate 9": "smaller 5=50", "locate 4": "larger 5=50",
    }  # fmt: skip
    found = replica.ask(*wanted) or []
    for line, answer in zip(wanted, found):
        if answer != wanted[line]:
            yield f"{line!r} is answered {answer!r}, and not {wanted[line]!r}"
    if len(found) != len(wanted):
        yield "the lines of the grammar aren't answered"


def page_program(replica: Replica) -> Iterable[str]:
    """The program of the page writes what the page shows."""
    replica.ask("clear")
    program, shown = re.findall(r"```(?:python|text)\n(.*?)```", (HERE / "README.md").read_text(), re.S)[:2]
    words = [sys.executable, "-c", program.replace("7070", str(replica.port))]
    said = subprocess.run(words, capture_output=True, text=True)
    if said.stdout != shown:
        yield f"the page's program writes {said.stdout!r} {said.stderr[-300:]}"


def put_to_rest(replica: Replica) -> None:
    """Kills a replica, and waits until its child has closed the file."""
    replica.kill()
    until = time.monotonic() + 10
    while subprocess.run([replica.tool, str(replica.store), "stat"], capture_output=True).returncode and time.monotonic() < until:
        time.sleep(0.02)


def listed(tool: str, store: pathlib.Path) -> List[List[int]]:
    """The pairs in a replica's file, with those that say how far it is."""
    said = subprocess.run([tool, str(store), "dump"], capture_output=True, text=True, check=True).stdout
    return [[int(word) for word in line.split(" ")] for line in said.splitlines()]


def moved_area(replica: Replica) -> Iterable[str]:
    """Pairs are stored at the keys at which the file has its number, and at the key that points there."""
    put_to_rest(replica)
    place = listed(replica.tool, replica.store)[-1][1]
    replica.start()
    replica.await_answer(10)
    replica.ask("clear", f"upsert {TOP} 8", *(f"upsert {place + at} {at + 1}" for at in range(-1, 6)))
    wanted = (replica.ask("iter") or [""])[0]
    if len(wanted.split(" ")) != 8:
        yield f"pairs at the place of the number: {wanted!r}"
    for _ in range(2):
        replica.kill()
        replica.start()
        replica.await_answer(10)
        found = replica.ask("iter")
        if found != [wanted]:
            yield f"pairs at the place of the number are {found} after a restart, and not {wanted!r}"
    replica.ask(f"remove {TOP}")


def compacted(replica: Replica) -> Iterable[str]:
    """A file that was written anew by `storetool` is shorter, and has the same pairs."""
    wanted = replica.ask("iter", "status")
    put_to_rest(replica)
    before = size_of(replica)
    subprocess.run([replica.tool, str(replica.store), "compact"], check=True)
    if size_of(replica) >= before:
        yield f"the files have {size_of(replica)} bytes after `compact`, and had {before}"
    replica.start()
    replica.await_answer(10)
    if replica.ask("iter", "status") != wanted:
        yield "the pairs are others after `compact`"


def size_of(replica: Replica) -> int:
    """The bytes of a replica's files."""
    return sum(path.stat().st_size for path in replica.folder.glob(f"{replica.store.name}*"))


def other_files(cluster: Cluster, replica: Replica) -> Iterable[str]:
    """A file that is open, one of another log, and one that is no replica's."""
    other = cluster.replica("other")
    other.store = replica.store
    other.start()
    yield from expect(other, WRONG, "another process")
    other.store = other.folder / "plain.db"
    subprocess.run([other.tool, str(other.store)], input=b"insert 1 2\n", capture_output=True, check=True)
    before = other.store.read_bytes()
    other.start()
    yield from expect(other, WRONG, "no replica's")
    if other.store.read_bytes() != before:
        yield "a store that is no replica's was changed"
    put_to_rest(replica)
    shutil.copytree(replica.folder, other.folder / "copy")
    other.store = other.folder / "copy" / replica.store.name
    place = listed(other.tool, other.store)[-1][1]
    subprocess.run([other.tool, str(other.store)], input=f"upsert {place + 1} 77\n".encode(), capture_output=True, check=True)
    other.start()
    yield from expect(other, WRONG, "000000000000004d", "another file")
    replica.start()
    replica.await_answer(10)


def behind_the_trim(cluster: Cluster, replica: Replica, recorder: Recorder) -> Iterable[str]:
    """A new replica needs a copy of a stopped one's folder. What is forgotten doesn't hold the log."""
    for turn in range(300):
        replica.ask(f"upsert 1 {turn}")
    late = cluster.replica("late")
    late.start()
    yield from expect(late, BEHIND, "copy of its folder")
    time.sleep(1.5)
    put_to_rest(replica)
    for path in replica.folder.glob(f"{replica.store.name}*"):
        shutil.copy(path, late.folder)
    replica.start()
    late.start()
    if not replica.await_answer(10) or not late.await_answer(10) or late.ask("iter") != replica.ask("iter"):
        yield f"a replica with a copy doesn't have the pairs: {late.said()[-300:]}"
    late.kill()
    for turn in range(300):
        replica.ask(f"upsert 1 {turn}")
    held = first_of(cluster)
    if replica.ask("forget late") != ["ok"]:
        yield "forget isn't answered ok"
    recorder.read()
    recorder.tell()
    until = time.monotonic() + 10
    while first_of(cluster) == held and time.monotonic() < until:
        replica.ask("upsert 1 0")
        time.sleep(0.5)
    if first_of(cluster) == held:
        yield "the log isn't trimmed after a replica was forgotten"


def first_of(cluster: Cluster) -> int:
    """The number of the log's first entry."""
    body = {"key": b64("registry/log/"), "range_end": b64("registry/log0"), "limit": "1", "keys_only": True}
    found = cluster.nodes[0].call("kv/range", body) or {"kvs": []}
    return int(base64.b64decode(found["kvs"][0]["key"])[-20:]) if found["kvs"] else -1


def without_memory(replica: Replica, other: Replica) -> Iterable[str]:
    """A replica that can't allocate while it applies what another one appended ends."""
    assert replica.child is not None
    status = pathlib.Path(f"/proc/{replica.child.pid}/status").read_text()
    size = 1024 * int(status.split("VmData:")[1].split()[0])
    resource.prlimit(replica.child.pid, resource.RLIMIT_DATA, (size, size))
    line, key = Line(other), 10**12
    while replica.is_running and key < 10**12 + 200_000:
        line.call([f"upsert {key + at} 1" for at in range(400)])
        key += 400
    line.close()
    yield from expect(replica, REFUSED, "allocat")


def without_etcd(cluster: Cluster, replica: Replica) -> Iterable[str]:
    """Without etcd a replica answers local reads, and one that starts waits."""
    nodes: List[Node] = cluster.nodes
    for node in nodes:
        node.kill()
    if replica.ask("local", "len", "linear", "len", "upsert 1 2", seconds=40) is None:
        yield "nothing is answered without etcd"
    replica.kill()
    replica.start()
    time.sleep(1)
    if not replica.is_running or replica.ask("local") is not None:
        yield "a replica doesn't wait for etcd"
    for node in nodes:
        node.start()
    cluster.await_nodes(20)
    if not replica.await_answer(20):
        yield "a replica that waited for etcd doesn't answer"


def problems_of_words(cluster: Cluster, recorder: Recorder) -> Iterable[str]:
    """All of it."""
    one, two, three = cluster.replicas
    yield from answers(one)
    yield from page_program(one)
    yield from moved_area(two)
    yield from compacted(two)
    yield from other_files(cluster, three)
    yield from behind_the_trim(cluster, two, recorder)
    yield from without_etcd(cluster, one)
    yield from without_memory(three, one)
    three.start()
    if not three.await_answer(15) or three.ask("iter") != one.ask("iter"):
        yield "the replicas differ at the end"
