"""Scopes on an event loop, asyncio's or Trio's, found by what runs."""

from __future__ import annotations

import asyncio
import inspect
import sys
from contextlib import contextmanager
from contextvars import ContextVar
from types import CoroutineType, TracebackType
from typing import TYPE_CHECKING, Any, Awaitable, Callable, Dict, Generic, Iterable, Iterator, List, Optional, Type, TypeVar, overload

from . import _words as words
from ._aio import AioRealm
from ._core import Actor, Notes, ScopeCore, TaskCore
from ._words import ANY, AWAIT, AWAIT_OK, Joiner, Outcome

if TYPE_CHECKING:
    from typing_extensions import ParamSpec

    P = ParamSpec("P")

T = TypeVar("T")
U = TypeVar("U")
R = TypeVar("R")
_here: ContextVar[Optional[_Actor]] = ContextVar("balkreyn", default=None)
_NONE: Dict[str, Any] = {}


class _Actor(Actor):
    """Who acts, on one task of the engine's."""

    realm: Any
    __slots__ = ("task", "sent", "bell")

    def __init__(self, realm: Any, number: int, around: List[ScopeCore[Any]]) -> None:
        self.realm, self.number, self.around = realm, number, around
        self.task = realm.current_task()
        # how often asyncio was told to cancel it, and where it waits in a join or a close
        self.sent, self.bell = 0, None


def _engine() -> Any:
    """The engine whose loop runs here."""
    loop = asyncio._get_running_loop()
    if loop is not None and asyncio.current_task(loop) is not None:
        return AioRealm
    trio = sys.modules.get("trio")
    if trio is not None:
        try:
            trio.lowlevel.current_task()
        except RuntimeError:
            pass
        else:
            from ._on_trio import TrioRealm

            return TrioRealm
    raise RuntimeError("neither asyncio nor Trio runs here; balkreyn.sync has scopes on threads")


def _actor() -> Optional[_Actor]:
    me = _here.get()
    if me is None or not me.around:
        return None
    try:
        return me if me.task is me.realm.current_task() else None
    except RuntimeError:
        return None


class Task(TaskCore[T], Generic[T]):
    """A task that was forked in a scope."""

    __slots__ = ()

    def result(self) -> T:
        """The value, read by the owner of the scope behind the join. Raises what the task raised, or `Refused` if no
        result counts: it came too late, or never ran."""
        scope = self._scope
        assert isinstance(scope, Scope)
        return self._read(scope._me().number)


class Scope(ScopeCore[R], Generic[R]):
    """A scope: an `async with` block. It may be made, and cancelled, before its block begins."""

    realm: Any

    def __init__(self, *given: Any) -> None:
        super().__init__(*given)
        self._jobs: Dict[Any, Task[Any]] = {}
        self._done = self._is_done
        # how many of its tasks wait or run
        self._left = 0
        self._manager: Any = None
        self._nursery: Any = None
        self._token: Any = None

    def _me(self) -> _Actor:
        me, realm = _here.get(), self.realm
        if me is None or me.realm is not realm or me.task is not realm.current_task():
            raise RuntimeError("this task is neither the scope's owner nor one of its tasks")
        return me

    async def __aenter__(self) -> Scope[R]:
        if self.number:
            raise RuntimeError("a scope is one block: make another")
        me = _actor()
        if me is None:
            me = _Actor(_engine()(self._notes), 0, [])
            self._token = _here.set(me)
        self._open(me)
        await self.realm.open_block(self)
        return self

    def fork(self, function: Callable[P, Awaitable[U]], /, *arguments: P.args, **named: P.kwargs) -> Task[U]:
        """Forks a task, which awaits the function, unless its scope is cancelled before."""
        return self._fork_labelled(getattr(function, "__name__", "task"), None, function, arguments, named)

    def fork_measured(
        self, measure: Callable[[U], int], function: Callable[P, Awaitable[U]], /, *arguments: P.args, **named: P.kwargs
    ) -> Task[U]:
        """As `fork`; the measure of its value, a number of 64 bits, is what `until_sum` adds up."""
        return self._fork_labelled(getattr(function, "__name__", "task"), measure, function, arguments, named)

    def _fork_labelled(self, label: str, measure: Any, function: Any, arguments: Any, named: Any) -> Task[Any]:
        number, has_thread = self._fork(self._me(), label)
        task: Task[Any] = Task(self, number, label)
        self._tasks[number] = task
        if has_thread:
            self._left += 1
            self.realm.spawn(self, task, self._run(task, measure, function, arguments, named or _NONE), label)
        return task

    async def outcome(self) -> Outcome:
        """Waits until the joiner has its answer, the scope is cancelled, or a deadline passes: what came of it. Raises
        nothing of a task's."""
        me, realm = self._me(), self.realm
        realm.pass_deadlines()
        if self._left and not self.is_cancelled and me is self._owner and self._outcome is None:
            await realm.outcome_wait(self, me)  # (the book would answer that it is not ready)
        while (outcome := self._try_join(me)) is None:
            await realm.outcome_wait(self, me)
        return outcome

    async def join(self) -> R:
        """Waits as `outcome`, and gives what the joiner makes of the values. Raises the failure that the outcome names,
        `TooSlowError` if its deadline passed, or the cancel of the scope."""
        outcome = await self.outcome()
        if outcome.kind == "cancelled":
            await self.realm.raise_cancel(self)
        return self._answer(outcome)

    def cancel(self) -> bool:
        """Cancels the scope and what lies in it, up to shields: whether it was neither cancelled nor closed before."""
        return self._cancel()

    def move_deadline(self, within: Optional[float]) -> None:
        """Sets the deadline so many seconds after now, or takes it away (`None`)."""
        self._move(within)
        self.realm.rearm()

    def cause(self) -> Optional[words.Cause]:
        """Why the scope is cancelled, or `None`."""
        cause: Optional[words.Cause] = words.CAUSES[self.realm.book.cause(self.number)[0]]
        return cause

    def dump(self) -> str:
        """The tree of the scopes that are not closed, from the outermost on, as JSON."""
        self.realm.pass_deadlines()
        return str(self.realm.book.dump())

    def journal(self) -> str:
        """What happened since the outermost scope began: a script for `scopectl replay`, with times."""
        return str(self.realm.journal())

    async def __aexit__(
        self, kind: Optional[Type[BaseException]], error: Optional[BaseException], trace: Optional[TracebackType]
    ) -> bool:
        me, realm = self._me(), self.realm
        above = me.around[me.around.index(self) + 1 :]
        self._violated = bool(above)
        for inner in reversed(above):
            assert isinstance(inner, Scope)
            inner._begin_close(me, False)
            await realm.close_block(inner, None)
            inner._end_close(me)
        is_cut = realm.is_cut(self, error)
        self._begin_close(me, is_cut)
        came = await realm.close_block(self, error)
        self._end_close(me)
        if self._token is not None:
            _here.reset(self._token)
        if came is None and error is not None:
            left = self._leaving(error, True)  # the engine took its own cancel back
        elif came is not error:
            left = came
        else:
            left = self._leaving(error, is_cut)
        left = realm.left_block(self, left)
        if left is None or left is error:
            return left is None
        raise left from (None if is_cut else error)

    def _is_done(self, runs: Any) -> None:
        """A job of the loop is done. One that the loop cancelled before its first step never took it."""
        task = self._jobs.pop(runs)
        if not task.end:
            self._ended(task, "reject")

    def _ended(self, task: Task[Any], how: str, fault: str = "", value: int = 0) -> None:
        self.realm.end(task, how, fault=fault, value=value)
        task.end = task.end or "rejected"
        self._left -= 1
        if not self._left:
            self.realm.ring(self._owner)

    async def _run(self, task: Task[Any], measure: Any, function: Any, arguments: Any, named: Any) -> None:
        realm = self.realm
        realm.pass_deadlines()
        if self.is_cancelled:
            return self._ended(task, "reject")
        realm.end(task, "start")
        me = _Actor(realm, task.number, [self])
        _here.set(me)
        realm.begin(me)
        how, fault, value = "ok", "", 0
        try:
            made = function(*arguments, **named)
            del function, arguments  # (the job may wait for long)
            if not isinstance(made, CoroutineType) and not inspect.isawaitable(made):
                raise TypeError(f"{task.name} is not an async function")
            task._value = await made
            value = words.measured(measure(task._value)) if measure else 0
            if me.around[-1] is not self:
                raise RuntimeError("the task left a scope open")
        except BaseException as error:  # what a task raises is its failure; its owner reads it
            task._error = error
            if isinstance(error, realm.cancelled_types):
                if not self.is_cancelled and not realm.is_due() and not isinstance(realm, AioRealm):
                    self._cancel()  # a cancel from outside the realm reached it
                how, fault = "fail", "cancelled"
            else:
                how, fault = "fail", words.fault_name(error)
        for inner in reversed(me.around[1:]):
            assert isinstance(inner, Scope)
            inner._begin_close(me, False)
            await realm.close_block(inner, None)
            inner._end_close(me)
        realm.end_of(me)
        self._ended(task, how, fault, value)


@overload
def scope(
    joiner: Joiner[R],
    *,
    within: Optional[float] = ...,
    move_on: bool = ...,
    shield: bool = ...,
    name: str = ...,
    notes: Optional[Notes] = ...,
) -> Scope[R]: ...
@overload
def scope(
    *,
    within: Optional[float] = ...,
    move_on: bool = ...,
    shield: bool = ...,
    name: str = ...,
    notes: Optional[Notes] = ...,
) -> Scope[None]: ...
def scope(
    joiner: Joiner[Any] = AWAIT_OK,
    *,
    within: Optional[float] = None,
    move_on: bool = False,
    shield: bool = False,
    name: str = "scope",
    notes: Optional[Notes] = None,
) -> Scope[Any]:
    """A scope for an `async with` block. `within` sets its deadline, in seconds; with `move_on` the block goes on behind
    it with what came; a `shield` keeps the cancels of the scopes around it out. An outermost scope may write `notes`."""
    return Scope(joiner, within, move_on, shield, name, notes)


def shielded() -> Scope[None]:
    """A block that the cancels of the scopes around it don't reach."""
    return scope(AWAIT, shield=True, name="shielded")


def is_cancelled() -> bool:
    """Whether the innermost scope around the caller is cancelled."""
    me = _actor()
    if me is None:
        return False
    me.realm.pass_deadlines()
    me.realm.note_mark(me.around[-1])
    return me.around[-1].is_cancelled


async def checkpoint() -> None:
    """Lets others run. Raises the cancel of the scope around the caller, if it is cancelled."""
    me = _actor()
    if me is not None and is_cancelled():
        scope = me.around[-1]
        await me.realm.raise_cancel(scope)
    await _engine().checkpoint()


def remaining() -> Optional[float]:
    """How many seconds the caller has until the next deadline in effect, 0 if its scope is cancelled; `None` if there is
    no deadline."""
    me = _actor()
    if me is None:
        return None
    realm, around = me.realm, me.around[-1]
    realm.pass_deadlines()
    until = realm.book.until(around.number)
    if around.is_cancelled:
        return 0.0
    return None if until is None else max(0.0, realm.began + until / 1000 - realm.clock())


async def sleep(seconds: float) -> None:
    """Sleeps so long, for ever too (`math.inf`). A cancel of the scope around the caller ends it."""
    words.seconds(seconds, "sleep")
    if is_cancelled():
        await checkpoint()
    await _engine().sleep(seconds)


@contextmanager
def bind(variable: ContextVar[T], value: T) -> Iterator[None]:
    """A block in which the variable has the value. Tasks that are forked in it inherit that."""
    token = variable.set(value)
    try:
        yield
    finally:
        variable.reset(token)


async def race(*jobs: Callable[[], Awaitable[T]], within: Optional[float] = None) -> T:
    """The value of the first job that succeeds; the others are cancelled, and have ended. Raises the first failure if
    none succeeds."""
    async with scope(ANY, within=within, name="race") as s:
        for job in jobs:
            s.fork(job)
        answer: T = await s.join()
        return answer
    raise AssertionError("nobody else cancels the scope of a race")


async def bounded_map(function: Callable[[U], Awaitable[T]], items: Iterable[U], width: int) -> List[T]:
    """The values of the function of each item, in order, at most `width` at once. The first failure cancels the rest."""
    if width < 1:
        raise ValueError(f"a width from 1 on, not {width}")
    values: dict[int, T] = {}
    source = enumerate(items)

    async def work() -> None:
        for index, item in source:
            values[index] = await function(item)

    async with scope(name="bounded_map") as s:
        for _ in range(width):
            s.fork(work)
        await s.join()
    return [values[index] for index in sorted(values)]


async def retry(function: Callable[[], Awaitable[T]], attempts: int, pause: float = 0.05, factor: float = 2.0) -> T:
    """The function's value. Where it raises an `Exception` it is called again, so many times in all, behind a pause in
    seconds that grows by the factor; the last one's error is raised."""
    for attempt in range(1, attempts):
        try:
            return await function()
        except Exception:
            await sleep(pause * factor ** (attempt - 1))
    return await function()


async def supervise(function: Callable[[], Awaitable[None]], *, every: float, rounds: Optional[int] = None) -> None:
    """Calls the function each so many seconds, each round in a scope of its own, until the scope around is cancelled. What
    a round raises ends it."""
    done, clock = 0, _engine()(None).clock
    while rounds is None or done < rounds:
        began = clock()
        async with scope(name="round") as s:
            s.fork(function)
            await s.join()
        done += 1
        await sleep(max(0.0, began + every - clock()))
