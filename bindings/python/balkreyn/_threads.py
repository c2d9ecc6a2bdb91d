"""Threads that are used again: a job takes an idle one, or starts one."""

from __future__ import annotations

import _thread
import os
import threading
from typing import Callable, List, Optional

#: How long an idle thread waits for its next job, in seconds.
IDLE_SECONDS = 10.0


class _Worker:
    """A thread, which waits at its own lock while it is idle."""

    def __init__(self, job: Callable[[], None]) -> None:
        self.job: Optional[Callable[[], None]] = job
        self.bell = _thread.allocate_lock()
        self.bell.acquire()

    def run(self) -> None:
        while self.job is not None:
            job, self.job = self.job, None
            job()
            del job
            _idle.append(self)
            if not self.bell.acquire(True, IDLE_SECONDS):
                try:
                    _idle.remove(self)
                except ValueError:
                    self.bell.acquire()  # somebody took it just now, and rings


_idle: List[_Worker] = []
# a child of fork(2) has none of its parent's threads
os.register_at_fork(after_in_child=_idle.clear)


def run(job: Callable[[], None], name: str) -> None:
    """Runs the job, which raises nothing, on a thread of its own. A RuntimeError if no thread is to be had."""
    try:
        worker = _idle.pop()
    except IndexError:
        worker = _Worker(job)
        threading.Thread(target=worker.run, name=name, daemon=True).start()
        return
    worker.job = job
    worker.bell.release()


class Bell:
    """Where one thread waits: whoever rings wakes it, from a signal's handler too. A ring before the wait counts."""

    def __init__(self) -> None:
        self._lock = _thread.allocate_lock()
        self._lock.acquire()

    def ring(self) -> None:
        try:
            self._lock.release()
        except RuntimeError:
            pass  # it was rung before

    def wait(self, seconds: Optional[float]) -> None:
        """Waits for a ring, so long at most."""
        self._lock.acquire(True, -1 if seconds is None else min(max(seconds, 0), threading.TIMEOUT_MAX))
