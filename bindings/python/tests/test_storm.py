"""Random trees of scopes on each engine. Callers note what they were answered, and the proved program says what the rules
answer. BALKREYN_TREES says how many trees (120)."""

import contextlib
import os
import random
import unittest

import balkreyn
from balkreyn import ALL, ANY, AWAIT, AWAIT_OK, Cancelled, Notes, NothingCame, Refused, TooSlowError, sync, until_failed, until_ok, until_sum

from .judging import judged, on_each_engine

TREES = int(os.environ.get("BALKREYN_TREES", 120))
ENDS = (Refused, LookupError, OverflowError, TooSlowError, NothingCame)


class Planned(Exception):
    """A failure that the storm wants."""


def shape(chance):
    """What a scope of the storm is opened with."""
    joiner = chance.choice([ALL, ANY, AWAIT, AWAIT_OK, until_ok(2), until_failed(1), until_sum(5)])
    within = chance.choice([None, None, 0, 0.002, 0.01])
    return joiner, {"within": within, "move_on": chance.random() < 0.3, "shield": chance.random() < 0.2}


def tree(seed, depth=0):
    chance = random.Random(seed)
    joiner, options = shape(chance)
    with contextlib.suppress(*ENDS, Planned):
        with sync.scope(joiner, **options) as s:
            tasks = [s.fork_measured(int, job, chance.random(), depth, s) for _ in range(chance.randrange(4))]
            if chance.random() < 0.1:
                s.cancel()
            elif chance.random() < 0.1:
                s.move_deadline(chance.choice([None, 0.002]))
            if chance.random() < 0.2:
                sync.sleep(0.002)
            with contextlib.suppress(*ENDS, Planned):
                s.join() if chance.random() < 0.7 else s.outcome()
            s.cause()
            for task in tasks:
                with contextlib.suppress(*ENDS, Planned, Cancelled):
                    task.result()


def job(seed, depth, outer):
    chance = random.Random(seed)
    sync.sleep(chance.random() * 0.003)
    if depth < 3 and chance.random() < 0.6:
        tree(chance.random(), depth + 1)
    if chance.random() < 0.1:
        outer.cancel()
    if chance.random() < 0.2:
        raise Planned
    return chance.randrange(5)


async def async_tree(seed, depth=0):
    chance = random.Random(seed)
    joiner, options = shape(chance)
    with contextlib.suppress(*ENDS, Planned):
        async with balkreyn.scope(joiner, **options) as s:
            tasks = [s.fork_measured(int, async_job, chance.random(), depth, s) for _ in range(chance.randrange(4))]
            if chance.random() < 0.1:
                s.cancel()
            elif chance.random() < 0.1:
                s.move_deadline(chance.choice([None, 0.002]))
            if chance.random() < 0.2:
                await balkreyn.sleep(0.002)
            with contextlib.suppress(*ENDS, Planned):
                await s.join() if chance.random() < 0.7 else await s.outcome()
            s.cause()
            for task in tasks:
                try:
                    task.result()
                except (*ENDS, Planned):
                    pass
                except BaseException as error:  # what a task raised that was cancelled
                    if type(error).__name__ not in ("CancelledError", "Cancelled", "ScopeCancelled"):
                        raise


async def async_job(seed, depth, outer):
    chance = random.Random(seed)
    await balkreyn.sleep(chance.random() * 0.003)
    if depth < 3 and chance.random() < 0.6:
        await async_tree(chance.random(), depth + 1)
    if chance.random() < 0.1:
        outer.cancel()
    if chance.random() < 0.2:
        raise Planned
    return chance.randrange(5)


class StormOnThreads(unittest.TestCase):
    def test_each_answer_is_that_of_the_rules(self):
        kept = []
        for seed in range(TREES // 10):
            notes = Notes()
            with sync.scope(AWAIT, notes=notes) as s:
                for branch in range(10):
                    s.fork(tree, seed * 10 + branch)
                self.assertEqual(s.outcome().kind, "done")
            kept.append(notes)
        judged(self, *kept)


@on_each_engine
class Storm:
    def test_each_answer_is_that_of_the_rules(self):
        kept = []

        async def main():
            for seed in range(TREES // 20):
                notes = Notes()
                async with balkreyn.scope(AWAIT, notes=notes) as s:
                    for branch in range(20):
                        s.fork(async_tree, seed * 20 + branch)
                    self.assertEqual((await s.outcome()).kind, "done")
                kept.append(notes)

        self.run_async(main)
        judged(self, *kept)
