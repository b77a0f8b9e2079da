"""How a replica ends, and the point at which a trial stops it."""
import os
import threading
from typing import Dict, NoReturn

WRONG = 1  # the words, the file or its log are wrong
BEHIND = 3  # the log begins after the file's end
REFUSED = 4  # an allocation failed, or the store ended
INTERRUPTED = 130  # by Ctrl-C

_name = "replica"
_commits: Dict[str, int] = {"left": int(os.environ.get("REPLICA_STOP", "0"))}
_lock = threading.Lock()


def call_me(name: str) -> None:
    """Sets the name with which the last line begins."""
    global _name
    _name = f"replica {name}"


def end(status: int, why: str) -> NoReturn:
    """Ends the process at once, in whichever thread, with one line on standard error."""
    try:
        os.write(2, f"{_name}: {why}\n".encode())
    except (OSError, MemoryError):
        pass
    os._exit(status)


def stop_point() -> None:
    """Ends the process after as many commits to the file as REPLICA_STOP says. It is there for trials."""
    with _lock:
        _commits["left"] -= 1
        if _commits["left"] == 0:
            os._exit(9)
