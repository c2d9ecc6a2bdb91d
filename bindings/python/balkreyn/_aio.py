"""The engine for asyncio: a job is a task of the loop. A cancel reaches every job whose innermost scope is cancelled, again
and again until it leaves (as Trio's do), so shields hold."""

from __future__ import annotations

import asyncio
from typing import TYPE_CHECKING, Any, Awaitable, Coroutine, Optional, Set

from ._core import Actor, Notes, Realm
from ._words import Cancelled

if TYPE_CHECKING:
    from ._async import Scope, Task


class ScopeCancelled(Cancelled, asyncio.CancelledError):
    """`Cancelled`, as asyncio knows it."""


class AioRealm(Realm):
    """A realm on one event loop."""

    cancelled_types = (asyncio.CancelledError,)

    def __init__(self, notes: Optional[Notes]) -> None:
        self.loop = asyncio.get_running_loop()
        self.clock = self.loop.time
        self.actors: Set[Any] = set()
        self._timer: Optional[asyncio.TimerHandle] = None
        self._sends = False
        super().__init__(notes)

    current_task = staticmethod(asyncio.current_task)

    @staticmethod
    def sleep(seconds: float) -> Awaitable[None]:
        return asyncio.get_running_loop().create_future() if seconds == float("inf") else asyncio.sleep(seconds)

    @staticmethod
    def checkpoint() -> Awaitable[None]:
        return asyncio.sleep(0)

    def rearm(self) -> None:
        if self._timer is not None:
            self._timer.cancel()
            self._timer = None
        if self.next is not None:
            self._timer = self.loop.call_at(self.began + self.next / 1000 + 0.0005, self._on_time)

    def _on_time(self) -> None:
        self.pass_deadlines()
        if self.is_due():  # the limit of load refused the tick: it is tried again
            self._timer = self.loop.call_later(0.001, self._on_time)

    def hear_cancel(self, scope: Any) -> None:
        if scope._left or not scope._closing:
            self._send_soon()

    def _send_soon(self) -> None:
        if not self._sends:
            self._sends = True
            self.loop.call_soon(self._send)

    def _send(self) -> None:
        self._sends = False
        for actor in list(self.actors):
            if not actor.around or not actor.around[-1].is_cancelled:
                continue
            if actor.bell is not None:
                self.ring(actor)
            else:
                if actor.task._fut_waiter is not None:
                    actor.task.cancel()
                    actor.sent += 1
                self._send_soon()

    @staticmethod
    def ring(actor: Any) -> None:
        """Wakes the actor, if it waits in a join or a close."""
        if actor.bell is not None and not actor.bell.done():
            actor.bell.set_result(None)

    async def wait(self, actor: Any) -> None:
        """Waits for a ring."""
        actor.bell = self.loop.create_future()
        try:
            await actor.bell
        finally:
            actor.bell = None

    async def open_block(self, scope: Scope[Any]) -> None:
        """Begins the block of the scope, which is open."""
        self.actors.add(scope._owner)

    def spawn(self, scope: Scope[Any], task: Task[Any], job: Coroutine[Any, Any, None], name: str) -> None:
        """Runs the job of a task of the scope beside others."""
        runs = self.loop.create_task(job)
        scope._jobs[runs] = task  # (the loop itself holds no task that waits)
        runs.add_done_callback(scope._done)

    def begin(self, actor: Actor) -> None:
        self.actors.add(actor)

    def end_of(self, actor: Actor) -> None:
        self.actors.discard(actor)

    async def raise_cancel(self, scope: Scope[Any]) -> None:
        """Raises the cancel of the scope that the caller is in."""
        raise ScopeCancelled(f"{scope.name} is cancelled")

    async def outcome_wait(self, scope: Scope[Any], actor: Any) -> None:
        """Waits until something changed for a join."""
        await self.wait(actor)

    def is_cut(self, scope: Scope[Any], error: Optional[BaseException]) -> bool:
        """Whether the block was left by a cancel of ours."""
        actor: Any = scope._owner
        return isinstance(error, asyncio.CancelledError) and (bool(actor.sent) or isinstance(error, Cancelled))

    async def close_block(self, scope: Scope[Any], error: Optional[BaseException]) -> Optional[BaseException]:
        """Waits until the scope is quiet. Gives the error that leaves it: the one that came, or a cancel from outside."""
        outside: Optional[BaseException] = None
        while scope._left:
            try:
                await self.wait(scope._owner)
            except asyncio.CancelledError as cancelled:  # it is kept until all have ended
                outside = cancelled
        return outside or error

    def left_block(self, scope: Scope[Any], left: Optional[BaseException]) -> Optional[BaseException]:
        """The block is left: by the error, or by none. Takes back the cancels that end here, and gives what goes on."""
        actor: Any = scope._owner
        if not isinstance(left, asyncio.CancelledError):
            while actor.sent:
                actor.sent -= 1
                getattr(actor.task, "uncancel", int)()
        if actor.around and actor.around[-1].is_cancelled:
            self._send_soon()
        if not actor.around:
            self.actors.discard(actor)
            if self._timer is not None:
                self._timer.cancel()
        return left
