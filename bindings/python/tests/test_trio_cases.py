"""Cases of Trio's own tests (trio/_core/tests/test_run.py, trio/tests/test_timeouts.py) that can be said with scopes: the same
case on asyncio, on Trio and on threads, with the answer that Trio's test wants. Each test has the name of Trio's."""

import math
import time
import unittest

import balkreyn
from balkreyn import ALL, ANY, AWAIT, TooSlowError, scope, shielded, sleep, sync

from .judging import LONG, on_each_engine


class Crash(Exception):
    """A failure that the case wants."""


async def crashes():
    raise Crash


async def gives(value):
    return value


def crashes_now():
    raise Crash


def runs(test):
    def run(self):
        began = time.monotonic()
        self.run_async(lambda: test(self))
        self.assertLess(time.monotonic() - began, LONG)

    run.__name__ = test.__name__
    return run


@on_each_engine
class Cases:
    @runs
    async def test_basic_spawn_wait(self):
        async with scope(ALL) as s:
            s.fork(gives, 20)
            self.assertEqual(await s.join(), [20])

    @runs
    async def test_child_crash_basic(self):
        with self.assertRaises(Crash):
            async with scope() as s:
                s.fork(crashes)
                await s.join()

    @runs
    async def test_child_crash_wakes_parent(self):
        with self.assertRaises(Crash):
            async with scope() as s:
                s.fork(crashes)
                await sleep(math.inf)

    @runs
    async def test_main_and_task_both_crash(self):
        with self.assertRaises(BaseException) as caught:
            async with scope() as s:
                task = s.fork(crashes)
                while task.state == "unavailable":
                    await gives_way()
                raise ValueError
        both = getattr(caught.exception, "exceptions", (caught.exception, caught.exception.__context__))
        self.assertEqual({type(it) for it in both}, {ValueError, Crash})

    @runs
    async def test_reschedule_and_siblings_are_cancelled(self):
        left = []

        async def waits():
            try:
                await sleep(math.inf)
            finally:
                left.append(1)

        with self.assertRaises(Crash):
            async with scope() as s:
                for _ in range(3):
                    s.fork(waits)
                await sleep(0.001)
                s.fork(crashes)
                await s.join()
        self.assertEqual(left, [1, 1, 1])

    @runs
    async def test_basic_cancellation(self):
        async with scope(AWAIT) as s:
            s.cancel()
            await sleep(math.inf)
            self.fail("it slept on")
        self.assertTrue(s.is_cancelled)

    @runs
    async def test_cancel_edge_cases(self):
        async with scope() as s:
            s.cancel()
            s.cancel()
            await sleep(math.inf)
        behind = []
        async with scope() as s:
            await gives(0)
            s.cancel()
            try:
                await sleep(math.inf)
            finally:
                behind.append("left")
        self.assertEqual(behind, ["left"])

    @runs
    async def test_cancel_points(self):
        async with scope() as s:
            await balkreyn.checkpoint()
            s.cancel()
            with self.assertRaises(BaseException) as caught:
                await balkreyn.checkpoint()
            raise caught.exception

    @runs
    async def test_cancel_shielding(self):
        async with scope() as outer:
            async with shielded():
                outer.cancel()
                self.assertFalse(balkreyn.is_cancelled())
                await sleep(0.001)
            self.assertTrue(balkreyn.is_cancelled())
            await sleep(math.inf)
            self.fail("it slept on")

    @runs
    async def test_cancel_inheritance(self):
        record = set()

        async def leaf(ident):
            try:
                await sleep(math.inf)
            finally:
                record.add(ident)

        async def worker(ident):
            async with scope(AWAIT) as s:
                s.fork(leaf, ident + "-l1")
                s.fork(leaf, ident + "-l2")
                await s.join()

        async with scope(AWAIT) as s:
            s.fork(worker, "w1")
            s.fork(worker, "w2")
            await sleep(0.002)
            s.cancel()
            await s.outcome()
        self.assertEqual(record, {"w1-l1", "w1-l2", "w2-l1", "w2-l2"})

    @runs
    async def test_basic_timeout(self):
        began = time.monotonic()
        async with scope(within=0.02, move_on=True):
            await sleep(math.inf)
        self.assertGreaterEqual(time.monotonic() - began, 0.019)
        with self.assertRaises(TooSlowError):
            async with scope(within=LONG) as s:
                s.move_deadline(0)
                await sleep(math.inf)

    @runs
    async def test_cancel_scope_nesting(self):
        # the inner one alone
        async with scope() as outer:
            async with scope() as inner:
                inner.cancel()
                await sleep(math.inf)
            self.assertFalse(outer.is_cancelled)
        # the outer one: it passes through
        reached = []
        async with scope() as outer:
            async with scope():
                outer.cancel()
                await sleep(math.inf)
            reached.append("between")
        self.assertEqual(reached, [])
        # both: the outer one wins
        async with scope() as outer:
            async with scope() as inner:
                outer.cancel()
                inner.cancel()
                await sleep(math.inf)
            reached.append("between")
        self.assertEqual(reached, [])

    @runs
    async def test_move_on_after(self):
        reached = []
        async with scope(within=0.01, move_on=True):
            reached.append("in")
            await sleep(math.inf)
            reached.append("behind")
        async with scope(within=LONG, move_on=True):
            pass
        self.assertEqual(reached, ["in"])

    @runs
    async def test_fail(self):
        with self.assertRaises(TooSlowError):
            async with scope(within=0.01):
                await sleep(math.inf)
        async with scope(within=LONG):
            await sleep(0.001)

    @runs
    async def test_timeouts_raise_value_error(self):
        for wrong in (-1, math.nan):
            with self.assertRaises(ValueError):
                await sleep(wrong)
            self.assertRaises(ValueError, scope, within=wrong)

    @runs
    async def test_spawn_refused_once_the_scope_is_closed(self):
        async with scope() as s:
            pass
        with self.assertRaises(Exception):
            s.fork(gives, 1)

    @runs
    async def test_nursery_main_block_error_basic(self):
        with self.assertRaises(Crash):
            async with scope():
                raise Crash

    @runs
    async def test_child_crash_propagation(self):
        looped = []

        async def looping():
            try:
                while True:
                    await sleep(0)
            finally:
                looped.append("cancelled")

        async def crashes_later():
            await sleep(0.005)
            raise Crash

        with self.assertRaises(Crash):
            async with scope() as s:
                s.fork(looping)
                s.fork(crashes_later)
                await s.join()
        self.assertEqual(looped, ["cancelled"])


async def gives_way():
    try:
        await sleep(0)
    except BaseException:
        pass


class CasesOnThreads(unittest.TestCase):
    def test_child_crash_basic(self):
        with self.assertRaises(Crash):
            with sync.scope() as s:
                s.fork(crashes_now)
                s.join()

    def test_child_crash_wakes_parent(self):
        with self.assertRaises(Crash):
            with sync.scope() as s:
                s.fork(crashes_now)
                sync.sleep(math.inf)

    def test_basic_cancellation(self):
        with sync.scope() as s:
            s.cancel()
            sync.sleep(math.inf)
            self.fail("it slept on")

    def test_cancel_shielding(self):
        with sync.scope() as outer:
            with sync.shielded():
                outer.cancel()
                self.assertFalse(sync.is_cancelled())
                sync.sleep(0.001)
            sync.sleep(math.inf)
            self.fail("it slept on")

    def test_cancel_inheritance(self):
        record, begun = set(), set()

        def leaf(ident):
            begun.add(ident)
            try:
                sync.sleep(math.inf)
            finally:
                record.add(ident)

        def worker(ident):
            with sync.scope(AWAIT) as s:
                s.fork(leaf, ident + "-l1")
                s.fork(leaf, ident + "-l2")
                s.join()

        with sync.scope(AWAIT) as s:
            s.fork(worker, "w1")
            s.fork(worker, "w2")
            while len(begun) < 4:
                time.sleep(0.001)
            s.cancel()
            s.outcome()
        self.assertEqual(record, {"w1-l1", "w1-l2", "w2-l1", "w2-l2"})

    def test_cancel_scope_nesting(self):
        reached = []
        with sync.scope() as outer:
            with sync.scope() as inner:
                inner.cancel()
                sync.sleep(math.inf)
            self.assertFalse(outer.is_cancelled)
        for both in (False, True):
            with sync.scope() as outer:
                with sync.scope() as inner:
                    outer.cancel()
                    if both:
                        inner.cancel()
                    sync.sleep(math.inf)
                reached.append("between")
        self.assertEqual(reached, [])

    def test_move_on_after(self):
        with sync.scope(within=0.01, move_on=True):
            sync.sleep(math.inf)
            self.fail("it slept on")

    def test_fail(self):
        with self.assertRaises(TooSlowError):
            with sync.scope(within=0.01):
                sync.sleep(math.inf)

    def test_any_child_wins(self):
        with sync.scope(ANY) as s:
            s.fork(int, 3)
            s.fork(sync.sleep, math.inf)
            self.assertEqual(s.join(), 3)


if __name__ == "__main__":
    unittest.main()
