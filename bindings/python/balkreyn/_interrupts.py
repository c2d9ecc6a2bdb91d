"""Ctrl-C at the right moment: while main is inside a call of this package, an interrupt is kept until that call has done
what it must. Trio protects itself so."""

from __future__ import annotations

import _thread
import importlib
import os
import signal
import threading
import time
from types import CodeType, FrameType
from typing import Any, Callable, List, Optional, Set, TypeVar

F = TypeVar("F", bound=Callable[..., Any])
_protected: Set[CodeType] = set()
_is_pending = False
_SIGINT = int(signal.SIGINT)
#: As `signal.getsignal`, which makes an enum of each answer.
_handler_of: Callable[[int], Any] = importlib.import_module("_signal").getsignal
_main = threading.main_thread().ident
#: Who is woken by an interrupt: where main waits, if it does.
bells: List[Any] = []


def protected(function: F) -> F:
    """While the function runs on main, an interrupt is kept."""
    _protected.add(function.__code__)
    return function


def _handle(number: int, frame: Optional[FrameType]) -> None:
    global _is_pending
    at = frame
    while at is not None:
        if at.f_code in _protected:
            if not _is_pending:
                _is_pending = True
                # (no lock is taken here: the frame below may hold any)
                _thread.start_new_thread(_send_again, ())
            for bell in list(bells):
                bell.ring()
            return
        at = at.f_back
    _is_pending = False
    signal.default_int_handler(number, frame)


def _send_again() -> None:
    """An interrupt that came just before a call's end, which no call took since, comes again."""
    while _is_pending:
        time.sleep(0.02)
        if _is_pending:
            _thread.interrupt_main()


def install() -> None:
    """Takes the place of Python's own handler of SIGINT, if that stands and this is the main thread."""
    if is_main() and _handler_of(_SIGINT) is signal.default_int_handler:
        signal.signal(signal.SIGINT, _handle)


def is_main() -> bool:
    """Whether the caller is the main thread."""
    return _thread.get_ident() == _main


def is_pending() -> bool:
    """Whether main has an interrupt to raise."""
    return _is_pending and is_main()


def take() -> None:
    """Raises the interrupt that was kept, if there is one and this is main."""
    global _is_pending
    if _is_pending and is_main():
        _is_pending = False
        raise KeyboardInterrupt


def _in_child() -> None:
    """The thread that forked a process is main in the child."""
    global _main, _is_pending
    _main, _is_pending = threading.main_thread().ident, False
    bells.clear()


os.register_at_fork(after_in_child=_in_child)
