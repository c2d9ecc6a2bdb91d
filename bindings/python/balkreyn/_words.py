"""Joiners, outcomes and errors: what the surfaces for threads, asyncio and Trio have in common."""

from __future__ import annotations

import builtins
import functools
import math
import re
from dataclasses import dataclass
from typing import Any, Generic, List, Literal, Optional, TypeVar

R = TypeVar("R")

#: Why a scope is cancelled: a call of `cancel`, a close, its joiner, or its deadline.
Cause = Literal["call", "close", "joiner", "deadline"]
CAUSES: tuple[Any, ...] = (None, "call", "close", "joiner", "deadline")
#: What is known of a task: its result counts, its failure does, or neither (yet).
State = Literal["unavailable", "success", "failed"]
STATES: tuple[Any, ...] = ("unavailable", "success", "failed")
#: What a join answers (`Outcome.kind`).
Kind = Literal["all", "any", "empty", "done", "failed", "list", "timeout", "partial", "cancelled"]
KINDS: tuple[Any, ...] = (None, "all", "any", "empty", "done", "failed", "list", "timeout", "partial", "cancelled")

REFUSALS = (
    "no-scope not-owner closed already-joined not-joined structure no-task wrong-stage clock-back too-many not-ready "
    "not-bound unavailable not-success not-failed rejected memory bad-word too-deep retired no-realm has-realm "
    "bad-argument untold busy"
).split()


class Refused(Exception):
    """A call was refused, and changed nothing. `number` and `word` are those of the rules (docs/SCRIPT.md)."""

    def __init__(self, number: int) -> None:
        super().__init__(number)
        self.number = number
        self.word = REFUSALS[number - 1]

    def __str__(self) -> str:
        return self.word


class NotJoined(Refused):
    """Tasks were forked in a block, and nobody joined them (JEP 505)."""

    def __init__(self, number: int = 5) -> None:
        super().__init__(number)


class Rejected(Refused):
    """No thread was to be had for a task. It is recorded, and counts as a task that never ran."""

    def __init__(self, number: int = 16) -> None:
        super().__init__(number)


class Cancelled(BaseException):
    """The scope around the caller is cancelled. It ends at the block of the scope whose own cancel it was (Trio)."""


class TooSlowError(TimeoutError):
    """A scope's own deadline passed, and the scope doesn't move on then (Trio)."""


class NothingCame(LookupError):
    """A scope that wants a first success has none: no task ended (JEP 505, `NoSuchElementException`)."""


@dataclass(frozen=True)
class Joiner(Generic[R]):
    """When the tasks of a scope cancel it, and what its join gives (JEP 505, `Joiner`). `R` is the type of that."""

    number: int
    bound: int = 0

    def __str__(self) -> str:
        words = ("await-ok", "all", "any", "await", "until:fail:", "until:ok:", "until:sum:")
        return words[self.number] + (str(self.bound) if self.number > 3 else "")


#: Waits for all tasks, or the first failure. A join gives nothing, or raises the failure.
AWAIT_OK: Joiner[None] = Joiner(0)
#: The values of all tasks, in fork order. A join raises the first failure.
ALL: Joiner[List[Any]] = Joiner(1)
#: The first value. A join raises the first failure if no task succeeded.
ANY: Joiner[Any] = Joiner(2)
#: Waits for all tasks, whatever comes of each.
AWAIT: Joiner[None] = Joiner(3)


def until_failed(count: int) -> Joiner[List[Any]]:
    """Cancels the scope once so many tasks failed. A join gives all tasks."""
    return Joiner(4, _bound(count, 0, 2**32 - 1))


def until_ok(count: int) -> Joiner[List[Any]]:
    """Cancels the scope once so many tasks succeeded. A join gives all tasks."""
    return Joiner(5, _bound(count, 0, 2**32 - 1))


def until_sum(total: int) -> Joiner[List[Any]]:
    """Cancels the scope once the measures of tasks that succeeded add up to this (`fork_measured`)."""
    return Joiner(6, _bound(total, -(2**63), 2**63 - 1))


def _bound(number: int, least: int, most: int) -> int:
    if isinstance(number, bool) or not isinstance(number, int):
        raise TypeError(f"a whole number, not {number!r}")
    if not least <= number <= most:
        raise ValueError(f"a number from {least} to {most}, not {number}")
    return number


@dataclass(frozen=True)
class Outcome:
    """What a join answers: its `kind`, and the task or scope that it names by number."""

    kind: Kind
    task: Optional[int] = None
    scope: Optional[int] = None

    @staticmethod
    @functools.lru_cache(maxsize=64)
    def of(answer: tuple[int, int]) -> Outcome:
        """The outcome of the library's two numbers."""
        kind, number = KINDS[answer[0]], answer[1]
        return Outcome(kind, number if kind in ("any", "failed") else None, number if kind == "cancelled" else None)

    def head(self) -> str:
        """How a script's reply begins, up to values and lists."""
        named = {"any": f" {self.task}=", "failed": f" {self.task} ", "cancelled": f" {self.scope}"}
        return f"outcome {self.kind}" + named.get(self.kind, "")


def seconds(number: float, what: str) -> float:
    """The number of seconds, if it is one from 0 on; infinity is."""
    if math.isnan(number) or number < 0:
        raise ValueError(f"{what} is a number of seconds from 0 on, not {number}")
    return number


@functools.lru_cache(maxsize=1024)
def rule_name(label: str, other: str) -> str:
    """A name that the rules take, as near to the label as may be: 1 to 24 bytes of a-z, 0-9, '-', '_', '.', a letter
    first. Labels of any text stay with the host."""
    name = re.sub(r"[^a-z0-9._-]+", "-", label.lower().strip("<_>"))[:24].lstrip("-._0123456789")
    return name or other


def fault_name(error: BaseException) -> str:
    """The name of the error's type, as the rules take it."""
    return rule_name(type(error).__name__, "failed")


def measured(number: int) -> int:
    """The measure, if it is a number of 64 bits."""
    if not -(2**63) <= int(number) < 2**63:
        raise OverflowError("a measure is a number of 64 bits")
    return int(number)


def joined_errors(body: BaseException, other: BaseException) -> BaseException:
    """Both errors as one: a group if this Python has groups, or else the body's, with the other as its context."""
    if body is other or not (isinstance(body, Exception) and isinstance(other, Exception)):
        return body
    group: Any = getattr(builtins, "ExceptionGroup", None)
    if group is None:
        body.__context__ = other
        return body
    both: BaseException = group("the block and a task failed", [body, other])
    return both
