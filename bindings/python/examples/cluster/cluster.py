"""Scopes whose jobs are functions on the workers of a Dask cluster. The scopes are the client's; only leaves go out.

    cluster = Cluster(client)
    async with scope(ANY, within=3) as s:
        for shop in shops:
            s.fork(cluster.call, ask, shop)
        best = await s.join()

README.md beside this file says what holds, and what can't. The scheduler wants `allowed-failures: 0`, or else a function
whose worker died runs a second time; and a `worker-ttl`, after which a silent worker is given up.
"""

from __future__ import annotations

import asyncio
import itertools
import threading
import uuid
from collections import OrderedDict
from concurrent.futures import CancelledError as GivenUp
from typing import Any, Callable, Dict, Optional, Set, TypeVar

from balkreyn import shielded

T = TypeVar("T")
_TOPIC = "balkreyn"
_LOOK = 0.1  # how often a wait looks whether the scheduler is still there, in seconds

# In a worker: the calls that run, and the last ones that the client cancelled.
_lock = threading.Lock()
_running: Set[str] = set()
_cancelled: OrderedDict[str, None] = OrderedDict()
_MARKS = 100_000
_here = threading.local()


class Cancelled(Exception):
    """In a function on a worker: its scope is cancelled."""


class Lost(Exception):
    """The call was given up: its worker died or fell silent, or the scheduler is gone. The function may run on."""


def checkpoint() -> None:
    """In a function on a worker: raises `Cancelled` if its scope is cancelled. It asks nobody."""
    if _here.key in _cancelled:
        raise Cancelled


def _work(key: str, function: Callable[..., T], arguments: Any) -> T:
    """Runs a call on a worker, unless it was cancelled before; and tells the client when it ends."""
    from distributed import get_worker

    with _lock:
        if key in _cancelled:
            raise Cancelled
        _running.add(key)
    _here.key = key
    try:
        return function(*arguments)
    finally:
        with _lock:
            _running.discard(key)
        get_worker().log_event(_TOPIC, key)


def _cancel(key: str) -> bool:
    """Marks a call on a worker: whether it runs there. One that does not never will."""
    with _lock:
        _cancelled[key] = None
        while len(_cancelled) > _MARKS:
            _cancelled.popitem(last=False)
        return key in _running


class Cluster:
    """Calls of functions on the workers of an asynchronous client of Dask."""

    def __init__(self, client: Any) -> None:
        self._client = client
        self._keys = (f"balkreyn-{uuid.uuid4().hex}-{number}" for number in itertools.count(1))
        self._ended: Dict[str, asyncio.Event] = {}
        self._left: Set[str] = set()
        client.subscribe_topic(_TOPIC, self._hear_end)
        client.subscribe_topic("all", self._hear_worker)

    def _hear_end(self, event: Any) -> None:
        call = self._ended.get(event[1])
        if call is not None:
            call.set()

    def _hear_worker(self, event: Any) -> None:
        if event[1].get("action") == "remove-worker":
            self._left.add(event[1]["worker"])

    async def call(self, function: Callable[..., T], *arguments: Any) -> T:
        """Runs the function on some worker. It is to be forked; a cancel of the job is one of the call, and the job ends
        once the function has, or its worker was given up. Raises what the function raised, or `Lost`."""
        key = next(self._keys)
        self._ended[key] = asyncio.Event()
        future = self._client.submit(_work, key, function, arguments, key=key, pure=False, retries=0)
        try:
            value: T = await future
            return value
        except asyncio.CancelledError:
            async with shielded():
                await self._end(key, future)
            raise
        except GivenUp:  # Dask tells so that it forgot the call.
            raise Lost("the scheduler is gone, or forgot the call") from None
        except Exception as error:
            if type(error).__name__ in ("KilledWorker", "CommClosedError"):
                raise Lost(type(error).__name__) from error
            raise
        finally:
            del self._ended[key]

    async def _end(self, key: str, future: Any) -> None:
        """What has not begun never begins; what runs is told, and waited for."""
        said = await self._or_gone(self._told(key, future))
        at = next((worker for worker, runs in (said or {}).items() if runs), None)
        while at is not None and at not in self._left and not self._ended[key].is_set() and self._has_scheduler():
            await asyncio.wait({asyncio.ensure_future(self._ended[key].wait())}, timeout=_LOOK)

    async def _told(self, key: str, future: Any) -> Any:
        """Tells the scheduler, and each worker: which run it."""
        await future.cancel(force=True)
        return await self._client.run(_cancel, key, on_error="ignore")

    async def _or_gone(self, asked: Any) -> Optional[Any]:
        """Waits for an answer, or until the scheduler is gone."""
        task = asyncio.ensure_future(asked)
        while not task.done() and self._has_scheduler():
            await asyncio.wait({task}, timeout=_LOOK)
        if not task.done():
            task.cancel()
        try:
            return await task
        except (asyncio.CancelledError, OSError, ValueError):
            return None

    def _has_scheduler(self) -> bool:
        comm = getattr(self._client, "scheduler_comm", None)
        return comm is not None and not comm.comm.closed()
