"""The threads that a replica can't be without. If one of them ends, the replica does."""
import threading
from typing import Callable, List

from ending import REFUSED, end

_threads: List[threading.Thread] = []
# Given back when memory is short, so that the last line can be written.
_reserve = [bytearray(1 << 20)]


def begin(name: str, run: Callable[[], None]) -> None:
    """Starts a thread."""
    thread = threading.Thread(target=run, daemon=True, name=name)
    _threads.append(thread)
    thread.start()


def end_by(error: threading.ExceptHookArgs) -> None:
    """Ends the process by what ended a thread."""
    _reserve.clear()
    if isinstance(error.exc_value, MemoryError):
        end(REFUSED, "an allocation failed: start it again with more memory")
    end(REFUSED, f"{error.thread.name if error.thread else 'a thread'} failed: {error.exc_value!r}")


def look() -> None:
    """Ends the process if a thread ended without a word."""
    if not all(thread.is_alive() for thread in _threads):
        _reserve.clear()
        end(REFUSED, "an allocation failed, and ended a thread: start it again with more memory")


threading.excepthook = end_by
