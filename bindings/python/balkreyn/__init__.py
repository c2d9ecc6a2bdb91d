"""Task scopes (structured concurrency) on asyncio and Trio, whose every decision is made by a proved library.

    async with scope(ANY, within=0.3) as s:
        for shop in shops:
            s.fork(ask, shop)
        best = await s.join()

Tasks that are forked in a scope have ended when its block is left, on every way out. The rules are those of Java's
StructuredTaskScope (JEP 505) and of Trio's cancel scopes. `balkreyn.sync` has the same words on threads. The library
decides; this package starts the tasks, waits, tells the time and keeps the results, and is tested, not proved.
"""

from ._async import Scope, Task, bind, bounded_map, checkpoint, is_cancelled, race, remaining, retry, scope, shielded, sleep, supervise
from ._core import Notes
from ._words import ALL, ANY, AWAIT, AWAIT_OK, Cancelled, Joiner, NothingCame, NotJoined, Outcome, Refused, Rejected, TooSlowError
from ._words import until_failed, until_ok, until_sum

__all__ = [
    "ALL", "ANY", "AWAIT", "AWAIT_OK", "Cancelled", "Joiner", "NotJoined", "Notes", "NothingCame", "Outcome", "Refused",
    "Rejected", "Scope", "Task", "TooSlowError", "bind", "bounded_map", "checkpoint", "is_cancelled", "race", "remaining",
    "retry", "scope", "shielded", "sleep", "supervise", "until_failed", "until_ok", "until_sum",
]  # fmt: skip
