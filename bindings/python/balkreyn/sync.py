"""Task scopes on threads. Each decision is made by a proved library; this module starts the threads, waits, tells the time
and keeps the results, and is tested, not proved.

    with scope(ANY, within=0.3) as s:
        for shop in shops:
            s.fork(ask, shop)
        best = s.join()

Tasks that are forked in a scope have ended when its block is left, on every way out. The rules are those of Java's
StructuredTaskScope (JEP 505) and of Trio's cancel scopes.
"""

from __future__ import annotations

import contextvars
import threading
import time
from contextlib import contextmanager
from contextvars import ContextVar
from types import TracebackType
from typing import TYPE_CHECKING, Any, Callable, Generic, Iterable, Iterator, List, Optional, Set, Type, TypeVar, overload

from . import _interrupts as interrupts
from . import _words as words
from ._core import Actor, Notes, Realm, ScopeCore, TaskCore
from ._threads import Bell, run
from ._words import ALL, ANY, AWAIT, AWAIT_OK, Cancelled, Joiner, NothingCame, NotJoined, Outcome, Refused, Rejected, TooSlowError
from ._words import until_failed, until_ok, until_sum

if TYPE_CHECKING:
    from typing_extensions import ParamSpec

    P = ParamSpec("P")

__all__ = [
    "ALL", "ANY", "AWAIT", "AWAIT_OK", "Cancelled", "Joiner", "NotJoined", "Notes", "NothingCame", "Outcome", "Refused",
    "Rejected", "Scope", "Task", "TooSlowError", "bind", "bounded_map", "checkpoint", "is_cancelled", "race", "remaining",
    "retry", "scope", "shielded", "sleep", "supervise", "until_failed", "until_ok", "until_sum",
]  # fmt: skip

T = TypeVar("T")
U = TypeVar("U")
R = TypeVar("R")
_here: ContextVar[Optional[_Actor]] = ContextVar("balkreyn.sync", default=None)


class _Realm(Realm):
    clock = staticmethod(time.monotonic)

    def __init__(self, notes: Optional[Notes]) -> None:
        super().__init__(notes)
        # a signal's handler may cancel while its own thread holds the lock
        self.lock = threading.RLock()

    def hear_cancel(self, scope: ScopeCore[Any]) -> None:
        assert isinstance(scope, Scope)
        scope._ring()

    def ring_all(self) -> None:
        for scope in list(self.scopes.values()):
            self.hear_cancel(scope)


class _Actor(Actor):
    """Who acts, on one thread."""

    realm: _Realm

    def __init__(self, realm: _Realm, number: int, around: List[ScopeCore[Any]]) -> None:
        super().__init__(realm, number, around)
        self.thread = threading.get_ident()


def _actor() -> Optional[_Actor]:
    me = _here.get()
    return me if me is not None and me.thread == threading.get_ident() and me.around else None


class Task(TaskCore[T], Generic[T]):
    """A task that was forked in a scope."""

    def result(self) -> T:
        """The value, read by the owner of the scope behind the join. Raises what the task raised, or `Refused` if no
        result counts: it came too late, or never ran."""
        scope = self._scope
        assert isinstance(scope, Scope)
        with scope.realm.lock:
            return self._read(scope._me().number)


def patiently(call: Callable[..., None], *given: Any, **named: Any) -> None:
    """Makes a call that can't be left out: if memory is refused, it is tried until there is some."""
    while True:
        try:
            return call(*given, **named)
        except MemoryError:
            time.sleep(0.01)


def _goes_on() -> None:
    """A close waits on, whatever comes."""


class Scope(ScopeCore[R], Generic[R]):
    """A scope: a `with` block. It may be made, and cancelled, before its block begins."""

    realm: _Realm

    def __init__(self, *given: Any) -> None:
        super().__init__(*given)
        self._bells: Set[Bell] = set()
        # tasks whose thread is still to come, and how many wait or run
        self._unclaimed: Set[int] = set()
        self._left = 0

    def _me(self) -> _Actor:
        me = _here.get()
        if me is None or me.thread != threading.get_ident() or me.realm is not self.realm:
            raise RuntimeError("this thread is neither the scope's owner nor one of its tasks")
        return me

    def _ring(self) -> None:
        for bell in list(self._bells):
            bell.ring()

    @interrupts.protected
    def __enter__(self) -> Scope[R]:
        if self.number:
            raise RuntimeError("a scope is one block: make another")
        interrupts.install()
        interrupts.take()
        me, self._token = _actor(), None
        if me is None:
            me = _Actor(_Realm(self._notes), 0, [])
            self._token = _here.set(me)
        with me.realm.lock:
            self._open(me)
        if interrupts.is_pending():
            self.__exit__(None, None, None)
        return self

    @interrupts.protected
    def fork(self, function: Callable[P, U], /, *arguments: P.args, **named: P.kwargs) -> Task[U]:
        """Forks a task, which calls the function on a thread of its own, unless its scope is cancelled before. Raises
        `Rejected` if no thread is to be had."""
        return self._fork_labelled(getattr(function, "__name__", "task"), None, function, arguments, named)

    @interrupts.protected
    def fork_measured(self, measure: Callable[[U], int], function: Callable[P, U], /, *arguments: P.args, **named: P.kwargs) -> Task[U]:
        """As `fork`; the measure of its value, a number of 64 bits, is what `until_sum` adds up."""
        return self._fork_labelled(getattr(function, "__name__", "task"), measure, function, arguments, named)

    @interrupts.protected
    def _fork_labelled(self, label: str, measure: Any, function: Any, arguments: Any, named: Any) -> Task[Any]:
        interrupts.take()
        me = self._me()
        with self.realm.lock:
            number, has_thread = self._fork(me, label)
            task: Task[Any] = Task(self, number, label)
            self._tasks[number] = task
            if has_thread:
                self._unclaimed.add(number)
                self._left += 1
        if has_thread:
            context = contextvars.copy_context()
            job: Callable[[], Any] = lambda: context.run(self._run, task, measure, function, arguments, named)
            try:
                run(job, label)
            except RuntimeError as error:
                if self._claims(number):
                    self._record(task, how="reject")
                raise Rejected() from error
        return task

    @interrupts.protected
    def outcome(self) -> Outcome:
        """Waits until the joiner has its answer, the scope is cancelled, or a deadline passes: what came of it. Raises
        nothing of a task's."""
        me = self._me()
        with self.realm.lock:
            if self._left and not self.is_cancelled and me is self._owner and self._outcome is None:
                self._wait(interrupts.take)  # (the book would answer that it is not ready)
            while (outcome := self._try_join(me)) is None:
                self._wait(interrupts.take)
        interrupts.take()
        return outcome

    def join(self) -> R:
        """Waits as `outcome`, and gives what the joiner makes of the values. Raises the failure that the outcome names,
        `TooSlowError` if its deadline passed, or `Cancelled`."""
        return self._answer(self.outcome())

    @interrupts.protected
    def cancel(self) -> bool:
        """Cancels the scope and what lies in it, up to shields: whether it was neither cancelled nor closed before. Any
        thread may, and a signal's handler."""
        if not self.number:
            return self._cancel()
        with self.realm.lock:
            return self._cancel()

    @interrupts.protected
    def move_deadline(self, within: Optional[float]) -> None:
        """Sets the deadline so many seconds after now, or takes it away (`None`)."""
        with self.realm.lock:
            self._move(within)
            self.realm.ring_all()

    def cause(self) -> Optional[words.Cause]:
        """Why the scope is cancelled, or `None`."""
        with self.realm.lock:
            cause: Optional[words.Cause] = words.CAUSES[self.realm.book.cause(self.number)[0]]
            return cause

    def dump(self) -> str:
        """The tree of the scopes that are not closed, from the outermost on, as JSON. Any thread may ask."""
        with self.realm.lock:
            self.realm.pass_deadlines()
            return self.realm.book.dump()

    def journal(self) -> str:
        """What happened since the outermost scope began: a script for `scopectl replay`, with times. Any thread may ask."""
        with self.realm.lock:
            return self.realm.journal()

    @interrupts.protected
    def __exit__(self, kind: Optional[Type[BaseException]], error: Optional[BaseException], trace: Optional[TracebackType]) -> bool:
        me = self._me()
        above = me.around[me.around.index(self) + 1 :]
        self._violated = bool(above)
        for inner in reversed(above):
            assert isinstance(inner, Scope)
            inner._close(me, False)
        is_cut = isinstance(error, Cancelled)
        self._close(me, is_cut)
        if self._token is not None:
            _here.reset(self._token)
        left = self._leaving(error, is_cut)
        interrupts.take()
        if left is None or left is error:
            return left is None
        raise left from (error if left.__cause__ is None and not is_cut else None)

    @interrupts.protected
    def _close(self, me: _Actor, is_cut: bool) -> None:
        """Closes it once each of its tasks has ended, whatever comes: also what a handler of a signal raises."""
        raised: Optional[BaseException] = None
        while True:
            try:
                with self.realm.lock:
                    if not self._closing:
                        patiently(self._begin_close, me, is_cut)
                    for number in list(self._unclaimed):
                        if self._claims(number):  # no thread has come for it, and none will
                            self._record(self._tasks[number], how="reject")
                    while self._left:
                        self._wait(_goes_on)
                    if self in me.around:
                        patiently(self._end_close, me)
                break
            except (KeyboardInterrupt, SystemExit) as error:
                raised = error
        if raised is not None:
            raise raised

    def _wait(self, interrupted: Callable[[], None], end: Optional[float] = None) -> None:
        """With the lock held once: waits for a ring, for a deadline, or for the end."""
        realm, bell = self.realm, Bell()
        until, ends = realm.book.until(self.number) if realm._has_deadlines else None, [] if end is None else [end]
        if until is not None:
            # a deadline that is due and still stands was refused by the limit of load: it is tried again soon
            ends.append(max(realm.began + until / 1000, time.monotonic() + 0.001))
        self._bells.add(bell)
        is_main = interrupts.is_main()
        if is_main:
            interrupts.bells.append(bell)
        try:
            interrupted()
            realm.lock.release()
            try:
                bell.wait(min(ends) - time.monotonic() if ends else None)
            finally:
                realm.lock.acquire()
        finally:
            self._bells.discard(bell)
            if is_main:
                interrupts.bells.remove(bell)
        realm.pass_deadlines()

    def _claims(self, number: int) -> bool:
        """Whether the caller is the first to take the task: it starts it, or rejects it."""
        try:
            self._unclaimed.remove(number)
            return True
        except KeyError:
            return False

    def _record(self, task: Task[Any], **end: Any) -> None:
        """Records how a task began or ended, and wakes the owner if nothing is left to wait for."""
        with self.realm.lock:
            patiently(self.realm.end, task, **end)
            if end["how"] != "start":
                self._left -= 1
                if not self._left:
                    self._ring()

    def _run(self, task: Task[Any], measure: Any, function: Any, arguments: Any, named: Any) -> None:
        if not self._claims(task.number):
            return
        if self.is_cancelled:
            return self._record(task, how="reject")
        self._record(task, how="start")
        me = _Actor(self.realm, task.number, [self])
        _here.set(me)
        end: Any = {}
        try:
            task._value = function(*arguments, **named)
            end = {"how": "ok", "value": words.measured(measure(task._value)) if measure else 0}
            if me.around[-1] is not self:
                raise RuntimeError("the task left a scope open")
        except BaseException as error:  # what a task raises is its failure; its owner reads it
            task._error = error
            end = {"how": "fail", "fault": words.fault_name(error)}
        for inner in reversed(me.around[1:]):
            assert isinstance(inner, Scope)
            inner._close(me, False)
        self._record(task, **end)


@overload
def scope(
    joiner: Joiner[R],
    *,
    within: Optional[float] = ...,
    move_on: bool = ...,
    shield: bool = ...,
    name: str = ...,
    notes: Optional[Notes] = ...,
) -> Scope[R]: ...
@overload
def scope(
    *,
    within: Optional[float] = ...,
    move_on: bool = ...,
    shield: bool = ...,
    name: str = ...,
    notes: Optional[Notes] = ...,
) -> Scope[None]: ...
def scope(
    joiner: Joiner[Any] = AWAIT_OK,
    *,
    within: Optional[float] = None,
    move_on: bool = False,
    shield: bool = False,
    name: str = "scope",
    notes: Optional[Notes] = None,
) -> Scope[Any]:
    """A scope for a `with` block. `within` sets its deadline, in seconds; with `move_on` the block goes on behind it with
    what came; a `shield` keeps the cancels of the scopes around it out. An outermost scope may write `notes`."""
    return Scope(joiner, within, move_on, shield, name, notes)


def shielded() -> Scope[None]:
    """A block that the cancels of the scopes around it don't reach."""
    return scope(AWAIT, shield=True, name="shielded")


def is_cancelled() -> bool:
    """Whether the innermost scope around the caller is cancelled. It takes a lock only if a deadline is due."""
    me = _actor()
    if me is None:
        return False
    around, realm = me.around[-1], me.realm
    if realm.noted is not None or (not around.is_cancelled and realm.is_due()):
        with realm.lock:
            realm.pass_deadlines()
            realm.note_mark(around)
            return around.is_cancelled
    return around.is_cancelled


def checkpoint() -> None:
    """Raises `Cancelled` if the scope around the caller is cancelled."""
    if is_cancelled():
        raise Cancelled("the scope around is cancelled")


def remaining() -> Optional[float]:
    """How many seconds the caller has until the next deadline in effect, 0 if its scope is cancelled; `None` if there is
    no deadline. A call that blocks takes it as its timeout."""
    me = _actor()
    if me is None:
        return None
    realm, around = me.realm, me.around[-1]
    with realm.lock:
        realm.pass_deadlines()
        until = realm.book.until(around.number)
        if around.is_cancelled:
            return 0.0
        return None if until is None else max(0.0, realm.began + until / 1000 - time.monotonic())


@interrupts.protected
def sleep(seconds: float) -> None:
    """Sleeps so long, for ever too (`math.inf`). Raises `Cancelled` as soon as the scope around the caller is cancelled."""
    words.seconds(seconds, "sleep")
    me, end = _actor(), time.monotonic() + seconds
    if me is None:
        return _sleep_alone(end)
    around = me.around[-1]
    assert isinstance(around, Scope)
    with me.realm.lock:
        while True:
            me.realm.pass_deadlines()
            me.realm.note_mark(around)
            if around.is_cancelled:
                raise Cancelled("the scope around is cancelled")
            interrupts.take()
            if time.monotonic() >= end:
                return
            around._wait(interrupts.take, end)


def _sleep_alone(end: float) -> None:
    while (left := end - time.monotonic()) > 0:
        time.sleep(min(left, 3600))


@contextmanager
def bind(variable: ContextVar[T], value: T) -> Iterator[None]:
    """A block in which the variable has the value. Tasks that are forked in it inherit that."""
    token = variable.set(value)
    try:
        yield
    finally:
        variable.reset(token)


def race(*jobs: Callable[[], T], within: Optional[float] = None) -> T:
    """The value of the first job that succeeds; the others are cancelled, and have ended. Raises the first failure if
    none succeeds."""
    with scope(ANY, within=within, name="race") as s:
        for job in jobs:
            s.fork(job)
        answer: T = s.join()
        return answer
    raise AssertionError("nobody else cancels the scope of a race")


def bounded_map(function: Callable[[U], T], items: Iterable[U], width: int) -> List[T]:
    """The values of the function of each item, in order, at most `width` at once. The first failure cancels the rest."""
    if width < 1:
        raise ValueError(f"a width from 1 on, not {width}")
    values: dict[int, T] = {}
    source, turn = enumerate(items), threading.Lock()

    def work() -> None:
        while True:
            checkpoint()
            with turn:
                index, item = next(source, (-1, None))
            if index < 0:
                return
            values[index] = function(item)  # type: ignore[arg-type]

    with scope(name="bounded_map") as s:
        for _ in range(width):
            s.fork(work)
        s.join()
    return [values[index] for index in sorted(values)]


def retry(function: Callable[[], T], attempts: int, pause: float = 0.05, factor: float = 2.0) -> T:
    """The function's value. Where it raises an `Exception` it is called again, so many times in all, behind a pause in
    seconds that grows by the factor; the last one's error is raised."""
    for attempt in range(1, attempts):
        try:
            return function()
        except Exception:
            sleep(pause * factor ** (attempt - 1))
    return function()


def supervise(function: Callable[[], None], *, every: float, rounds: Optional[int] = None) -> None:
    """Calls the function each so many seconds, each round in a scope of its own, until the scope around is cancelled. What
    a round raises ends it."""
    done = 0
    while rounds is None or done < rounds:
        began = time.monotonic()
        with scope(name="round") as s:
            s.fork(function)
            s.join()
        done += 1
        sleep(max(0.0, began + every - time.monotonic()))
