"""Programs in Trio that use nurseries, cancel scopes, deadlines and shields. `python demo.py` prints the journal."""

import contextlib
import math
import random
import sys
from pathlib import Path

import trio
from trio.testing import MockClock

sys.path.insert(0, str(Path(__file__).resolve().parents[1]))
from trio_journal import TrioJournal


async def shop(price, delay):
    await trio.sleep(delay)
    if price is None:
        raise LookupError("sold out")
    return price


async def the_first_failure_cancels():
    try:
        async with trio.open_nursery() as nursery:
            nursery.start_soon(shop, 20, 5)
            nursery.start_soon(shop, None, 1)
    except LookupError:
        return
    raise AssertionError


async def all_are_done():
    """Two children, one of which has a nursery of its own."""

    async def outer():
        async with trio.open_nursery() as inner:
            inner.start_soon(shop, 1, 0.1)
            inner.start_soon(shop, 2, 0.2)

    async with trio.open_nursery() as nursery:
        nursery.start_soon(outer)
        nursery.start_soon(shop, 3, 0.3)


async def a_deadline_passes():
    """A nursery in a scope with a deadline, one whose deadline is moved, and one inside a shield."""
    with trio.move_on_after(1) as limit:
        async with trio.open_nursery() as nursery:
            nursery.start_soon(shop, 1, 0.5)
            nursery.start_soon(shop, 2, 10)
    assert limit.cancelled_caught
    with trio.CancelScope() as moved:
        moved.deadline = trio.current_time() + 2
        await trio.sleep(1)
        moved.deadline += 1
        await trio.sleep_forever()
    with trio.move_on_after(0.5):
        with trio.CancelScope(shield=True):
            await trio.sleep(1)
        await trio.sleep(1)


async def a_call_cancels():
    """A child cancels its nursery, and a task is started in it too late."""

    async def cancels(scope, nursery):
        await trio.sleep(0.1)
        scope.cancel()
        nursery.start_soon(shop, 4, 0.1)

    async with trio.open_nursery() as nursery:
        nursery.start_soon(cancels, nursery.cancel_scope, nursery)
        nursery.start_soon(shop, 3, 5)


async def a_body_fails():
    try:
        async with trio.open_nursery() as nursery:
            nursery.start_soon(shop, 3, 5)
            await trio.sleep(0.1)
            raise KeyError
    except KeyError:
        return
    raise AssertionError


async def a_service_starts():
    """`nursery.start`: the task is moved to its nursery by `started()`."""

    async def service(task_status=trio.TASK_STATUS_IGNORED):
        await trio.sleep(0.1)
        task_status.started("ready")
        with trio.move_on_after(1):
            await trio.sleep_forever()

    async with trio.open_nursery() as nursery:
        assert await nursery.start(service) == "ready"
        nursery.start_soon(shop, 3, 0.2)


async def a_storm(seed):
    """A random tree of nurseries and cancel scopes."""
    chance = random.Random(seed)

    async def tree(depth):
        limit = chance.choice([math.inf, math.inf, 0, 1, 2.5])
        with trio.CancelScope(deadline=trio.current_time() + limit, shield=chance.random() < 0.2) as scope:
            async with trio.open_nursery() as nursery:
                for _ in range(chance.randrange(4)):
                    nursery.start_soon(job, depth + 1, chance.choice([scope, nursery.cancel_scope]), nursery)
                if chance.random() < 0.2:
                    await trio.sleep(chance.random())
                if chance.random() < 0.1:
                    raise KeyError
            if chance.random() < 0.3:
                scope.deadline = trio.current_time() + chance.random()
                await trio.sleep(chance.random())

    async def job(depth, outer, nursery):
        await trio.sleep(chance.random() * 2)
        if depth < 4 and chance.random() < 0.7:
            await tree(depth)
        if chance.random() < 0.1:
            outer.cancel()
        if chance.random() < 0.2:
            nursery.start_soon(shop, chance.choice([None, 1]), chance.random())
        await trio.sleep(chance.random())
        if chance.random() < 0.2:
            raise LookupError
        return chance.randrange(5)

    for _ in range(4):
        with contextlib.suppress(Exception):
            await tree(1)


PROGRAMS = [
    the_first_failure_cancels,
    all_are_done,
    a_deadline_passes,
    a_call_cancels,
    a_body_fails,
    a_service_starts,
]


def journal_of(program, *arguments):
    """The journal of the program, under a clock that jumps ahead, and its answers."""
    journal = TrioJournal()
    journal.run(program, *arguments, clock=MockClock(autojump_threshold=0))
    return journal.text(), journal.answers()


if __name__ == "__main__":
    for program in PROGRAMS:
        print(f"# {program.__name__}")
        print(journal_of(program)[0])
