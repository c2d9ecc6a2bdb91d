"""What the surfaces for threads, asyncio and Trio share: a realm, whose every decision the library makes, and what a scope
does of its own: it holds results, and says what leaves its block."""

from __future__ import annotations

import math
from typing import Any, Callable, Dict, Generic, List, Optional, Tuple, TypeVar

from . import _words as words
from ._numbers import Book
from ._words import Cancelled, Joiner, NothingCame, NotJoined, Outcome, Refused, TooSlowError

T = TypeVar("T")
R = TypeVar("R")
_STRUCTURE, _CLOSED, _ALREADY_JOINED, _TOO_MANY, _RETIRED = 6, 3, 4, 10, 20
_UNJOINED, _VIOLATED = 2, 3


class Notes:
    """What a realm's callers were answered, in order, for `bindings/conformance/check`: give one to the outermost scope.

    `journal` is a script of all calls that were not refused, with the times at which they came; `answers` has a line for
    each of its lines: what the caller got."""

    def __init__(self) -> None:
        self._noted: List[Tuple[int, str, str]] = []

    def add(self, at: int, line: str, answer: str) -> None:
        """Notes a call and its answer, in milliseconds since the outermost scope began."""
        self._noted.append((at, line, answer))

    def journal(self) -> str:
        """The script, with lines `# at N` where the time moves on."""
        said, last = [], -1
        for at, line, _ in list(self._noted):
            said += [f"# at {at}"] if at != last else []
            said.append(line)
            last = at
        return "".join(f"{line}\n" for line in said)

    def answers(self) -> str:
        """The answers, a line for each line of the script that gets one."""
        return "".join(f"{answer}\n" for _, _, answer in list(self._noted))


class Actor:
    """Who acts: the maker of a realm (number 0), or a task, with the scopes around it, the innermost last."""

    __slots__ = ("realm", "number", "around")

    def __init__(self, realm: Realm, number: int, around: List[ScopeCore[Any]]) -> None:
        self.realm, self.number, self.around = realm, number, around


class Realm:
    """An outermost scope and all inside it. Who calls holds its lock, where there are threads."""

    clock: Callable[[], float]

    def __init__(self, notes: Optional[Notes], limits: Tuple[int, int, int] = (4096, 65536, 1048576)) -> None:
        self.book = Book(*limits)
        self.began = self.clock()
        self.noted = notes
        self.scopes: Dict[int, ScopeCore[Any]] = {}
        self.next: Optional[int] = None
        self._told, self._has_deadlines = 0, False
        self._at = 0

    def hear_cancel(self, scope: ScopeCore[Any]) -> None:
        """The scope is cancelled now: whoever waits or runs in it is to hear of it."""
        raise NotImplementedError

    def rearm(self) -> None:
        """The next deadline is another one."""

    def now(self) -> int:
        """The moment, in milliseconds since the realm began."""
        return int((self.clock() - self.began) * 1000)

    def moment_after(self, within: float) -> int:
        """The moment of a deadline so many seconds after now: rounded up, but for one that is due."""
        after = (self.clock() - self.began + within) * 1000
        return self.now() if within <= 0 else min(math.ceil(after), 2**64 - 1)

    def is_due(self) -> bool:
        """Whether a deadline is due that has not passed yet."""
        return self.next is not None and self.now() >= self.next

    def pass_deadlines(self) -> None:
        """Reads the clock, and passes the deadlines that are due. What was recorded before came at the last reading."""
        now = self.now()
        if now != self._at and self.book.note(self._at):
            self._at = now
        if self.next is not None and now >= self.next:
            self.tick()

    def journal(self) -> str:
        """What happened since the realm began, as a script with lines `# at N` where the time moves on."""
        self.pass_deadlines()
        self.book.note(self._at)
        return self.book.timed_journal(self._at)

    def tick(self) -> None:
        """Tells the book the time. A tick that the limit of load refuses is tried again by whoever waits."""
        now = self.now()
        try:
            self.book.tick(now)
        except Refused as refused:
            if refused.number != _TOO_MANY:
                raise
            return
        self.note(f"tick {now}", f"moment {now}")
        self.settle()

    def settle(self) -> None:
        """Marks what the book has cancelled since the last call. (A signal's handler may call it within itself.)"""
        nth_cancelled = self.book.nth_cancelled
        while number := nth_cancelled(told := self._told):
            if (scope := self.scopes.get(number)) is not None:
                scope.is_cancelled = True
                self.hear_cancel(scope)
            self._told = max(self._told, told + 1)
        if self._has_deadlines:
            upcoming = self.book.next_deadline()
            if upcoming != self.next:
                self.next = upcoming
                self.rearm()

    def note(self, line: str, answer: str) -> None:
        """Notes a call and what its caller got."""
        if self.noted is not None:
            self.noted.add(self.now(), line, answer)

    def note_mark(self, scope: ScopeCore[Any]) -> None:
        """Notes whether the scope is cancelled, as its mark says."""
        if self.noted is not None:
            kind, number = self.book.cause(scope.number)
            said = "live" if not scope.is_cancelled else f"cancelled {number} {words.CAUSES[kind]}" if kind else "cancelled"
            self.note(f"cause {scope.number}", said)

    def end(self, task: TaskCore[Any], how: str, *, fault: str = "", value: int = 0) -> None:
        """Records how a task began or ended: reject, start, ok or fail."""
        self.pass_deadlines()
        if how == "ok":
            cancelled = self.book.finish(task.number, value)
            task.end = str(value) if value else "0"
        elif how == "fail":
            cancelled = self.book.fail(task.number, fault)
            task.end = fault
        else:
            (self.book.reject if how == "reject" else self.book.start)(task.number)
            if self.noted is not None:
                self.note(f"{how} {task.number}", "rejected" if how == "reject" else "started")
            return  # (only an end may fire a joiner)
        if self.noted is not None:
            self.note(f"{how} {task.number} {task.end}", "finished")
        if cancelled != self._told:  # (an end moves no deadline)
            self.settle()


class TaskCore(Generic[T]):
    """A task that was forked in a scope: its result is read by the owner, behind the join."""

    __slots__ = ("name", "number", "end", "_scope", "_value", "_error")

    def __init__(self, scope: ScopeCore[Any], number: int, name: str) -> None:
        #: The label that it was forked with, of any text.
        self.name = name
        self.number = number
        self.end = ""
        self._scope = scope
        self._value: Optional[T] = None
        self._error: Optional[BaseException] = None

    def _read(self, actor: int) -> T:
        realm = self._scope.realm
        try:
            succeeded = realm.book.result(actor, self.number)
        except Refused as refused:
            if refused.word == "unavailable":
                realm.note(f"state {self.number}", "state unavailable")
            raise
        query, kind = ("result", "value") if succeeded else ("fault", "fault")
        realm.note(f"{query} {actor} {self.number}", f"{kind} {self.end}")
        if succeeded:
            return self._value  # type: ignore[return-value]
        assert self._error is not None
        raise self._error

    @property
    def state(self) -> words.State:
        """What is known of it, without taking its result: `success`, `failed`, or `unavailable`."""
        state: words.State = words.STATES[self._scope.realm.book.state(self.number)]
        return state

    def __repr__(self) -> str:
        stage = ("never", "waiting", "running", "finished")[self._scope.realm.book.stage(self.number)]
        return f"<Task {self.number} {self.name!r} {stage}>"


class ScopeCore(Generic[R]):
    """A scope and its block. It may be made, and cancelled, before its block begins."""

    realm: Realm

    def __init__(
        self, joiner: Joiner[R], within: Optional[float], move_on: bool, shield: bool, name: str, notes: Optional[Notes]
    ) -> None:
        self.name, self.number, self.is_cancelled = name, 0, False
        self._joiner, self._move_on, self._shield, self._notes = joiner, move_on, shield, notes
        self._within = None if within is None else words.seconds(within, "within")
        self._early, self._closing, self._violated = False, False, False
        self._outcome: Optional[Outcome] = None
        self._owner: Optional[Actor] = None
        self._tasks: Dict[int, Any] = {}

    # ---- the realm's lock is held from here on

    def _open(self, owner: Actor) -> None:
        realm = owner.realm
        realm.book.check_process()
        realm.pass_deadlines()
        has_deadline = self._within is not None and not math.isinf(self._within)
        deadline = realm.moment_after(self._within or 0) if has_deadline else 0
        flags = has_deadline + 2 * self._move_on + 4 * self._shield
        joiner = self._joiner
        self.number = realm.book.open(owner.number, joiner.number, joiner.bound, flags, deadline)
        self.realm, self._owner = realm, owner
        realm.scopes[self.number] = self
        owner.around.append(self)
        if realm.noted is not None:
            said = f" deadline={deadline}" * has_deadline + " move-on" * self._move_on + " shield" * self._shield
            realm.note(f"open {owner.number} {joiner}{said}", f"scope {self.number}")
        if self._early:
            self._cancel()
        if has_deadline:
            realm._has_deadlines = True
            if deadline <= realm.now():
                realm.tick()
        if has_deadline or realm._told:  # (a scope is born cancelled only if one around it is)
            realm.settle()

    def _fork(self, owner: Actor, label: str) -> Tuple[int, bool]:
        realm = owner.realm
        realm.book.check_process()
        realm.pass_deadlines()
        name = words.rule_name(label, "task")
        number, has_thread = realm.book.fork(owner.number, self.number, name)
        if realm.noted is not None:
            realm.note(f"fork {owner.number} {self.number} {name}", f"task {number} {'thread' if has_thread else 'none'}")
        return number, has_thread

    def _try_join(self, owner: Actor) -> Optional[Outcome]:
        """The outcome, or nothing while it is to be waited for."""
        realm = owner.realm
        realm.pass_deadlines()
        answer = realm.book.join(owner.number, self.number)
        if answer is None:
            return None
        self._outcome = outcome = Outcome.of(answer)
        if realm.noted is not None:
            whole = realm.book.outcome_line(self.number)
            realm.note(f"join {owner.number} {self.number}", whole if whole.startswith(outcome.head()) else outcome.head())
        if realm._has_deadlines:  # (a join cancels nothing; its scope's deadline counts no more)
            realm.settle()
        return outcome

    def _cancel(self) -> bool:
        """Cancels it: whether it was neither cancelled nor closed before."""
        if not self.number:
            was, self._early = self._early, True
            return not was
        realm = self.realm
        try:
            is_new = realm.book.cancel(self.number)
        except Refused as refused:
            if refused.number in (_CLOSED, _RETIRED):
                return False
            raise
        realm.note(f"cancel {self.number}", "cancelled" if is_new else "already")
        realm.settle()
        return is_new

    def _move(self, within: Optional[float]) -> None:
        realm = self.realm
        realm.pass_deadlines()
        never = within is None or math.isinf(words.seconds(within, "within"))
        moment = None if never else realm.moment_after(within or 0)
        realm.book.move(self.number, moment)
        realm._has_deadlines = True
        realm.note(f"move {self.number} {'never' if moment is None else moment}", "moved")
        if moment is not None and moment <= realm.now():
            realm.tick()
        realm.settle()

    def _own_cause(self) -> Optional[words.Cause]:
        """Why it is cancelled, if it is by a cancel of its own."""
        if not self.is_cancelled:
            return None
        kind, number = self.realm.book.cause(self.number)
        cause: Optional[words.Cause] = words.CAUSES[kind]
        return cause if number == self.number else None

    def _begin_close(self, owner: Actor, is_cut: bool) -> None:
        """Begins its close; the body was cut off by a cancel, or not."""
        realm = self.realm
        realm.pass_deadlines()
        self._cut_by = self._own_cause() if is_cut else None
        if self._cut_by == "joiner" and self._outcome is None:
            self._try_join(owner)
        if not self._closing:
            is_new = realm.book.begin_close(owner.number, self.number)
            # (from here on, the book refuses nothing of it)
            self._closing = True
            if realm.noted is not None:
                realm.note(f"close {owner.number} {self.number}", "closing" if is_new else "already")
            realm.settle()

    def _end_close(self, owner: Actor) -> None:
        realm = self.realm
        realm.pass_deadlines()
        self._verdict = realm.book.end_close(owner.number, self.number)
        if realm.noted is not None:
            said = {_UNJOINED: "closed not-joined", _VIOLATED: "closed violated"}.get(self._verdict, "closed")
            realm.note(f"closed {owner.number} {self.number}", said)
        realm.scopes.pop(self.number, None)
        if self in owner.around:
            owner.around.remove(self)

    # ---- what comes of it

    def _answer(self, outcome: Outcome) -> R:
        """What a join gives, or raises: by the outcome's kind."""
        kind, tasks = outcome.kind, self._tasks
        if kind == "failed":
            raise self._failure_of(outcome)
        if kind == "timeout":
            raise TooSlowError(f"the deadline of {self.name} passed")
        if kind == "cancelled":
            raise self._cancelled()
        came = [it for it in tasks.values() if kind == "all" or it.state == "success"] if self._joiner.number in (1, 2) else []
        if kind == "empty" or (kind == "partial" and self._joiner.number == 2 and not came):
            raise NothingCame(f"no task of {self.name} succeeded")
        answer: Any = None
        if kind == "any":
            answer = tasks[outcome.task or 0]._value
        elif self._joiner.number == 2:
            answer = came[0]._value
        elif self._joiner.number == 1:
            answer = [it._value for it in came]
        elif self._joiner.number > 3:
            answer = list(tasks.values())
        return answer  # type: ignore[no-any-return]

    def _failure_of(self, outcome: Outcome) -> BaseException:
        return self._tasks[outcome.task or 0]._error  # type: ignore[no-any-return]

    def _cancelled(self) -> BaseException:
        return Cancelled(f"{self.name} is cancelled")

    def _leaving(self, error: Optional[BaseException], is_cut: bool) -> Optional[BaseException]:
        """What leaves the block, behind its close: nothing, or an error, which may be the one that came."""
        if is_cut:
            if self._cut_by is None:
                return error
            if self._cut_by == "deadline":
                return None if self._move_on else TooSlowError(f"the deadline of {self.name} passed")
            if self._cut_by == "joiner" and self._outcome is not None and self._outcome.kind == "failed":
                return self._failure_of(self._outcome)
            return None
        if error is not None:
            lost = self._lost_failure(error)
            return error if lost is None else words.joined_errors(error, lost)
        if self._violated:
            return Refused(_STRUCTURE)
        if self._verdict == _UNJOINED:
            return NotJoined()
        return Refused(_STRUCTURE) if self._verdict == _VIOLATED else None

    def _lost_failure(self, error: BaseException) -> Optional[BaseException]:
        """The first failure that cancelled the scope and that nobody was told of."""
        if self._outcome is not None or self._joiner.number > 1:
            return None
        failed = [it for it in self._tasks.values() if it.state == "failed" and it._error is not error]
        return failed[0]._error if failed else None
