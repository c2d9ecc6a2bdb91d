"""The engine for Trio: each scope is a nursery, and what the realm cancels, the nursery's cancel scope cancels."""

from __future__ import annotations

from typing import TYPE_CHECKING, Any, Awaitable, Coroutine, List, Optional

import trio

from ._core import Actor, Notes, Realm

if TYPE_CHECKING:
    from ._async import Scope, Task


def _leaves(error: Optional[BaseException]) -> List[BaseException]:
    """The errors that a group holds, or the error itself."""
    if error is None:
        return []
    parts = getattr(error, "exceptions", None)
    return [error] if parts is None else [leaf for part in parts for leaf in _leaves(part)]


def _is_cancel(error: Optional[BaseException]) -> bool:
    """Whether the error is a cancel of Trio's, or a group of such."""
    return error is not None and all(isinstance(leaf, trio.Cancelled) for leaf in _leaves(error))


class TrioRealm(Realm):
    """A realm in one run of Trio. Its time is Trio's clock."""

    cancelled_types = (trio.Cancelled,)

    def __init__(self, notes: Optional[Notes]) -> None:
        self.clock = trio.current_time
        super().__init__(notes)

    current_task = staticmethod(trio.lowlevel.current_task)

    @staticmethod
    def sleep(seconds: float) -> Awaitable[None]:
        slept: Awaitable[None] = trio.sleep_forever() if seconds == float("inf") else trio.sleep(seconds)
        return slept

    checkpoint = staticmethod(trio.lowlevel.checkpoint)

    def hear_cancel(self, scope: Any) -> None:
        if scope._nursery is not None and (scope._left or not scope._closing):
            scope._nursery.cancel_scope.cancel()

    def rearm(self) -> None:
        """Each open scope's nursery has the deadline that Trio keeps for it."""
        for scope in self.scopes.values():
            nursery = scope._nursery  # type: ignore[attr-defined]
            if nursery is not None and not scope.is_cancelled:
                until = self.book.until(scope.number)
                nursery.cancel_scope.deadline = float("inf") if until is None else self.began + until / 1000 + 0.0005

    @staticmethod
    def ring(actor: Any) -> None:
        """Wakes the actor, if it waits in a join."""
        if actor.bell is not None:
            actor.bell.set()

    async def open_block(self, scope: Scope[Any]) -> None:
        """Begins the block of the scope, which is open."""
        scope._manager = trio.open_nursery()
        scope._nursery = await scope._manager.__aenter__()
        scope._nursery.cancel_scope.shield = scope._shield
        if scope.is_cancelled:
            scope._nursery.cancel_scope.cancel()
        self.rearm()

    def spawn(self, scope: Scope[Any], task: Task[Any], job: Coroutine[Any, Any, None], name: str) -> None:
        """Runs the job of a task of the scope beside others. (Trio takes each job's first step.)"""
        scope._nursery.start_soon(lambda: job, name=name)

    def begin(self, actor: Actor) -> None:
        pass

    end_of = begin

    async def raise_cancel(self, scope: Scope[Any]) -> None:
        """Raises the cancel of the scope that the caller is in."""
        await trio.lowlevel.checkpoint()

    async def outcome_wait(self, scope: Scope[Any], actor: Any) -> None:
        """Waits until something changed for a join."""
        actor.bell = trio.Event()
        try:
            await actor.bell.wait()
        except trio.Cancelled:
            self.pass_deadlines()
            if not scope.is_cancelled:  # a cancel from outside: the realm is told
                scope._cancel()
                raise
        finally:
            actor.bell = None

    def is_cut(self, scope: Scope[Any], error: Optional[BaseException]) -> bool:
        """Whether the block was left by a cancel; one from outside is told to the realm."""
        if not _is_cancel(error):
            return False
        self.pass_deadlines()
        if not scope.is_cancelled:
            scope._cancel()
            return False
        return True

    async def close_block(self, scope: Scope[Any], error: Optional[BaseException]) -> Optional[BaseException]:
        """Waits until the scope is quiet. Gives the error that leaves it: the one that came, or a cancel from outside."""
        given = error if any(isinstance(leaf, trio.Cancelled) for leaf in _leaves(error)) else None
        try:
            absorbed = await scope._manager.__aexit__(type(given) if given else None, given, given and given.__traceback__)
        except BaseException as left:
            return left
        return None if given is not None and absorbed else error

    def left_block(self, scope: Scope[Any], left: Optional[BaseException]) -> Optional[BaseException]:
        """The block is left: by the error, or by none."""
        return left
