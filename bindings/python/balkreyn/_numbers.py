"""The proved library by ctypes, call by call. The shared object lies beside this file, as a wheel has it, or where
BALKREYN_LIBRARY says."""

from __future__ import annotations

import ctypes
import os
from pathlib import Path
from typing import Any, Callable, Optional, Tuple

from ._words import Refused

INTERFACE = 3
_NOT_READY, _NOT_SUCCESS, _MEMORY = -11, -14, -17
_u32, _i64, _u64, _size, _text, _at = (
    ctypes.c_uint32,
    ctypes.c_int64,
    ctypes.c_uint64,
    ctypes.c_size_t,
    ctypes.c_char_p,
    ctypes.c_void_p,
)


class _Place(ctypes.Structure):
    _fields_ = [("at", _at)]


class _RawBook(ctypes.Structure):
    _fields_ = [("word", ctypes.c_uint64), ("place", _Place)]


class _News(ctypes.Structure):
    _fields_ = [("scope", _u32), ("quiet", ctypes.c_bool), ("comes", ctypes.c_bool), ("cancelled", _size), ("deadline", _u64)]


def _load() -> ctypes.PyDLL:
    path = os.environ.get("BALKREYN_LIBRARY") or str(Path(__file__).with_name("libbalkreyn.so"))
    try:
        # a call takes less time than giving Python's lock away and waiting for it again, so it keeps that lock
        library = ctypes.PyDLL(path)
    except OSError as error:
        raise ImportError(f"no library at {path}: install the wheel, or let BALKREYN_LIBRARY name it") from error
    library.balkreyn_abi.restype, library.balkreyn_abi.argtypes = _u32, []
    if library.balkreyn_abi() != INTERFACE:
        raise ImportError(f"{path} speaks another version of the interface")
    return library


_library = _load()


def _take(name: str, *arguments: Any) -> Callable[..., int]:
    function = getattr(_library, "balkreyn_" + name)
    function.restype, function.argtypes = _i64, [_at, *arguments]
    return function  # type: ignore[no-any-return]


_book_open, _book_close = _take("book_open", _u32, _u32, _u32), _take("book_close")
_open, _fork = _take("open", _u32, _u32, _i64, _u32, _u64), _take("fork", _u32, _u32, _text, _size)
_reject, _start = _take("reject", _u32), _take("start", _u32)
_finish_told, _fail_told = _take("finish_told", _u32, _i64, _at), _take("fail_told", _u32, _text, _size, _at)
_cancel, _tick, _join = _take("cancel", _u32), _take("tick", _u64), _take("join", _u32, _u32)
_move, _move_never = _take("move", _u32, _u64), _take("move_never", _u32)
_begin_close, _end_close = _take("begin_close", _u32, _u32), _take("end_close", _u32, _u32)
_state, _stage, _cause = _take("state", _u32), _take("stage", _u32), _take("cause", _u32)
_result = _take("result", _u32, _u32, _at, _text, _size)
_until = _take("until", _u32, _at)
_nth_cancelled, _next_deadline = _take("nth_cancelled", _size), _take("next_deadline", _at)
_note, _timed_journal = _take("note", _u64), _take("timed_journal", _u64, _text, _size)
_dump, _outcome_line = _take("dump", _text, _size), _take("outcome_line", _u32, _text, _size)


def _refuse(answer: int) -> int:
    if answer == _MEMORY:
        raise MemoryError("the library was refused memory")
    raise Refused(-answer)


def _told(answer: int) -> int:
    return answer if answer >= 0 else _refuse(answer)


class _Process:
    """This process: a child of fork(2) is another."""


_process = _Process()


def _in_child() -> None:
    global _process
    _process = _Process()


os.register_at_fork(after_in_child=_in_child)


class Book:
    """One realm of the library. Who calls takes care that no two calls run at once. A child of fork(2) has no part in
    its parent's realm: each call there is a RuntimeError."""

    def __init__(self, scopes: int = 4096, tasks: int = 65536, load: int = 1048576) -> None:
        self._raw = _RawBook()
        self._place = ctypes.addressof(self._raw)
        self._moment = _u64()
        self._where = ctypes.addressof(self._moment)
        self._news = _News()
        self._heard = ctypes.addressof(self._news)
        self._process = _process
        for limit in (scopes, tasks, load):
            if not 0 < limit < 2**32:
                raise ValueError(f"a limit is a number from 1 on, not {limit}")
        _told(_book_open(self._place, scopes, tasks, load))

    def __del__(self) -> None:
        if getattr(self, "_process", None) is _process:
            _book_close(self._place)

    def check_process(self) -> None:
        """A RuntimeError in a child of fork(2)."""
        if self._process is not _process:
            raise RuntimeError("this scope belongs to the parent process: open a new one in the child")

    def open(self, actor: int, joiner: int, bound: int, flags: int, deadline: int) -> int:
        answer = _open(self._place, actor, joiner, bound, flags, deadline)
        return answer if answer >= 0 else _refuse(answer)

    def fork(self, actor: int, scope: int, name: str) -> Tuple[int, bool]:
        """The task's number, and whether it gets a thread."""
        answer = _fork(self._place, actor, scope, name.encode(), len(name))
        return (answer if answer >= 0 else _refuse(answer)) & 0xFFFFFFFF, answer >> 32 == 0

    def reject(self, task: int) -> None:
        _told(_reject(self._place, task))

    def start(self, task: int) -> None:
        answer = _start(self._place, task)
        if answer < 0:
            _refuse(answer)

    def finish(self, task: int, value: int) -> int:
        """How many scopes are cancelled then."""
        answer = _finish_told(self._place, task, value, self._heard)
        if answer < 0:
            _refuse(answer)
        return self._news.cancelled  # type: ignore[no-any-return]

    def fail(self, task: int, fault: str) -> int:
        """The same."""
        _told(_fail_told(self._place, task, fault.encode(), len(fault), self._heard))
        return self._news.cancelled  # type: ignore[no-any-return]

    def cancel(self, scope: int) -> bool:
        """Whether the scope was not cancelled before."""
        return _told(_cancel(self._place, scope)) == 0

    def tick(self, now: int) -> None:
        _told(_tick(self._place, now))

    def move(self, scope: int, deadline: Optional[int]) -> None:
        _told(_move_never(self._place, scope) if deadline is None else _move(self._place, scope, deadline))

    def join(self, actor: int, scope: int) -> Optional[Tuple[int, int]]:
        """The kind of the outcome, and what it names; nothing while it is to be waited for."""
        answer = _join(self._place, actor, scope)
        return None if answer == _NOT_READY else divmod(_told(answer), 2**32)

    def begin_close(self, actor: int, scope: int) -> bool:
        """Whether the close begins now, and not before."""
        return _told(_begin_close(self._place, actor, scope)) == 0

    def end_close(self, actor: int, scope: int) -> int:
        """0 if nothing was amiss, 2 if it was never joined, 3 if it was not closed in order."""
        return _told(_end_close(self._place, actor, scope))

    def state(self, task: int) -> int:
        return _told(_state(self._place, task))

    def stage(self, task: int) -> int:
        return _told(_stage(self._place, task))

    def result(self, actor: int, task: int) -> bool:
        """Whether the task succeeded or failed, as its owner may read behind the join; else `Refused`."""
        answer = _result(self._place, actor, task, self._where, b"", 0)
        return answer != _NOT_SUCCESS and _told(answer) >= 0

    def cause(self, scope: int) -> Tuple[int, int]:
        """The kind of the cause, or 0, and the scope that the cancel came from."""
        return divmod(_told(_cause(self._place, scope)), 2**32)

    def until(self, scope: int) -> Optional[int]:
        """The earliest deadline in effect for the scope; nothing if there is none, or it is cancelled."""
        return self._moment.value if _told(_until(self._place, scope, self._where)) == 1 else None

    def nth_cancelled(self, index: int) -> int:
        answer = _nth_cancelled(self._place, index)
        return answer if answer >= 0 else _refuse(answer)

    def next_deadline(self) -> Optional[int]:
        return self._moment.value if _told(_next_deadline(self._place, self._where)) == 1 else None

    def dump(self) -> str:
        return self._read(_dump)

    def note(self, moment: int) -> bool:
        return _note(self._place, moment) == 0

    def timed_journal(self, moment: int) -> str:
        return self._read(_timed_journal, moment)

    def outcome_line(self, scope: int) -> str:
        return self._read(_outcome_line, scope).rstrip("\n")

    def _read(self, export: Callable[..., int], *numbers: int) -> str:
        room = 0
        while True:
            text = ctypes.create_string_buffer(max(room, 1))
            length = _told(export(self._place, *numbers, text, room))
            if length <= room:
                return text.raw[:length].decode("ascii")
            room = length
