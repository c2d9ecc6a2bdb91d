"""Scopes on asyncio and on Trio: each test runs on both, if they are at hand."""

import asyncio
import contextvars
import math
import time
import unittest

import balkreyn
from balkreyn import (
    ALL, ANY, AWAIT, AWAIT_OK, NotJoined, NothingCame, Refused, TooSlowError, bounded_map, checkpoint, is_cancelled, race,
    remaining, retry, scope, shielded, sleep, supervise, until_failed, until_ok, until_sum,
)  # fmt: skip

from .judging import LONG, on_each_engine, trio

tenant = contextvars.ContextVar("tenant", default="none")


async def nap(seconds, value=None):
    await sleep(seconds)
    return value


async def gives(value=None):
    return value


async def fails(error=LookupError):
    raise error


def runs(test):
    """The test, an async function, on the engine of its class."""

    def run(self):
        began = time.monotonic()
        self.run_async(lambda: test(self))
        self.assertLess(time.monotonic() - began, LONG)

    run.__name__ = test.__name__
    return run


@on_each_engine
class Joins:
    @runs
    async def test_values_come_in_fork_order(self):
        async with scope(ALL) as s:
            for index in range(5):
                s.fork(nap, 0.01 * (5 - index), index * index)
            self.assertEqual(await s.join(), [0, 1, 4, 9, 16])

    @runs
    async def test_the_first_success_is_the_value(self):
        async with scope(ANY) as s:
            slow = s.fork(nap, LONG)
            s.fork(fails)
            s.fork(gives, "first")
            self.assertEqual(await s.join(), "first")
            self.assertEqual(slow.state, "unavailable")
            with self.assertRaisesRegex(Refused, "unavailable"):
                slow.result()

    @runs
    async def test_a_failure_is_raised_and_cancels_the_rest(self):
        async with scope() as s:
            slow, failing = s.fork(nap, LONG), s.fork(fails)
            with self.assertRaises(LookupError):
                await s.join()
            self.assertRaises(LookupError, failing.result)
            self.assertEqual((failing.state, slow.state, s.cause()), ("failed", "unavailable", "joiner"))

    @runs
    async def test_joiners_answer_by_their_rules(self):
        async with scope(ANY) as s:
            with self.assertRaises(NothingCame):
                await s.join()
        async with scope(AWAIT) as s:
            s.fork(fails)
            self.assertIsNone(await s.join())
        async with scope(until_failed(2)) as s:
            tasks = [s.fork(fails), s.fork(fails), s.fork(nap, LONG)]
            self.assertEqual(await s.join(), tasks)
        async with scope(until_ok(60)) as s:
            for index in range(60):
                s.fork(gives, index)
            self.assertEqual(sorted(task.result() for task in await s.join()), list(range(60)))
        async with scope(until_sum(10)) as s:
            for bid in (4, 6):
                s.fork_measured(int, gives, bid)
            s.fork(nap, LONG)
            self.assertEqual((await s.outcome()).kind, "list")
        async with scope(AWAIT_OK) as s:
            s.fork_measured(lambda value: 2**63, gives)
            with self.assertRaises(OverflowError):
                await s.join()

    @runs
    async def test_what_is_no_async_function_fails(self):
        async with scope() as s:
            s.fork(int)
            with self.assertRaises(TypeError):
                await s.join()

    @runs
    async def test_a_forgotten_join_is_told_and_a_bodys_error_goes_on(self):
        with self.assertRaises(NotJoined):
            async with scope() as s:
                s.fork(gives)
        with self.assertRaises(ZeroDivisionError):
            async with scope() as s:
                s.fork(nap, LONG)
                _ = 1 / 0


@on_each_engine
class Cancels:
    @runs
    async def test_a_cancel_ends_at_the_block_of_its_scope(self):
        async def soon(scope):
            await sleep(0.01)
            scope.cancel()

        async with scope(AWAIT) as s:
            s.fork(soon, s)
            await sleep(LONG)
        self.assertEqual(s.cause(), "call")
        behind = []
        async with scope() as outer:
            async with scope():
                outer.cancel()
                await sleep(LONG)
            behind.append("the inner block absorbed it")
        self.assertEqual(behind, [])
        with self.assertRaises(LookupError):  # the failure that cut the body off
            async with scope() as s:
                s.fork(fails)
                await sleep(LONG)
        async with scope(ANY) as s:  # a success that cut it off
            s.fork(gives)
            await sleep(LONG)
        await sleep(0)

    @runs
    async def test_a_cancel_reaches_every_wait_until_the_job_leaves(self):
        seen = []

        async def stubborn():
            for _ in range(3):
                try:
                    await sleep(LONG)
                except BaseException as error:
                    seen.append(type(error).__name__)
            await sleep(LONG)

        async with scope(AWAIT) as s:
            task = s.fork(stubborn)
            await sleep(0.01)
            s.cancel()
            await s.outcome()
        self.assertEqual((len(seen), task.state), (3, "unavailable"))

    @runs
    async def test_a_shield_keeps_cancels_out(self):
        ended = []

        async def job():
            async with shielded():
                await sleep(0.02)
                ended.append(is_cancelled())
            ended.append(is_cancelled())
            await checkpoint()
            ended.append("behind")

        async with scope(AWAIT) as s:
            s.fork(job)
            await sleep(0.005)
            self.assertTrue(s.cancel())
            self.assertFalse(s.cancel())
            self.assertEqual((await s.outcome()).kind, "cancelled")
        self.assertEqual(ended, [False, True])
        self.assertFalse(s.cancel())  # behind the end

    @runs
    async def test_a_scope_may_be_cancelled_before_its_block(self):
        s, ran = scope(), []
        self.assertTrue(s.cancel())
        async with s:
            s.fork(gives)
            await checkpoint()
            ran.append("behind")
        self.assertEqual(ran, [])

    @runs
    async def test_an_error_of_the_body_under_a_cancel_goes_on(self):
        with self.assertRaises(KeyError):
            async with scope() as s:
                s.cancel()
                raise KeyError


@on_each_engine
class Times:
    @runs
    async def test_a_deadline_ends_its_block(self):
        began = time.monotonic()
        with self.assertRaises(TooSlowError):
            async with scope(ALL, within=0.04) as s:
                s.fork(nap, LONG)
                await s.join()
        self.assertGreaterEqual(time.monotonic() - began, 0.039)
        async with scope(within=0.02, move_on=True):
            await sleep(LONG)
        with self.assertRaises(TooSlowError):
            async with scope(within=0.02):
                await sleep(LONG)
        async with scope(ALL, within=0.5, move_on=True) as s:
            s.fork(gives, 7)
            s.fork(nap, LONG)
            self.assertEqual(await s.join(), [7])

    @runs
    async def test_a_moved_deadline_counts_for_who_waits_already(self):
        async with scope(AWAIT) as s:
            s.fork(nap, LONG)
            await sleep(0.01)
            s.move_deadline(0.02)
            self.assertEqual((await s.outcome()).kind, "timeout")
        async with scope(AWAIT, within=0.01) as s:
            s.move_deadline(None)
            s.fork(nap, 0.03)
            self.assertEqual((await s.outcome()).kind, "done")

    @runs
    async def test_times_at_the_edge(self):
        ran = []

        async def job():
            ran.append(1)

        async with scope(AWAIT, within=0, move_on=True) as s:
            for _ in range(50):
                s.fork(job)
            await s.outcome()
        self.assertEqual(ran, [])
        for wrong in (-1, math.nan, -math.inf):
            self.assertRaises(ValueError, scope, within=wrong)
            with self.assertRaises(ValueError):
                await sleep(wrong)
        async with scope(within=math.inf):
            await sleep(0)
        async with scope(within=0.01, move_on=True):
            await sleep(math.inf)

    @runs
    async def test_how_much_time_is_left(self):
        self.assertIsNone(remaining())
        async with scope(within=60):
            async with scope():
                self.assertTrue(59 < remaining() <= 60.01)
                async with scope(within=1) as s:
                    self.assertTrue(0 < remaining() <= 1.01)
                    s.cancel()
                    self.assertEqual(remaining(), 0)


@on_each_engine
class Blocks:
    @runs
    async def test_only_those_inside_act_in_a_scope(self):
        async def forks(s):
            s.fork(gives)

        async with scope(AWAIT) as s:
            stranger = s.fork(forks, s)
            await s.outcome()
            with self.assertRaisesRegex(Refused, "not-owner"):
                stranger.result()
        with self.assertRaises(RuntimeError):
            await s.__aenter__()

    @runs
    async def test_a_scope_that_a_task_left_open_is_closed(self):
        async def forgetful():
            await scope().__aenter__()

        if self.engine == "trio":
            return  # Trio itself refuses a nursery that is left open
        async with scope(AWAIT) as s:
            task = s.fork(forgetful)
            await s.outcome()
            self.assertRaises(RuntimeError, task.result)

    @runs
    async def test_tasks_inherit_variables(self):
        async def reads():
            return tenant.get()

        with balkreyn.bind(tenant, ("any", "object")):
            async with scope(ALL) as s:
                s.fork(reads)
                self.assertEqual(await s.join(), [("any", "object")])
        self.assertEqual(tenant.get(), "none")

    @runs
    async def test_many_wait_at_once(self):
        async with scope(AWAIT, within=0.2, move_on=True) as s:
            for _ in range(3000):
                s.fork(sleep, LONG)
            self.assertEqual((await s.outcome()).kind, "partial")


@on_each_engine
class Helpers:
    @runs
    async def test_a_race_gives_the_first_value(self):
        self.assertEqual(await race(lambda: nap(LONG), lambda: nap(0.001, "quick"), fails), "quick")
        with self.assertRaises(LookupError):
            await race(fails, fails)
        with self.assertRaises(TooSlowError):
            await race(lambda: nap(LONG), within=0.01)

    @runs
    async def test_a_map_keeps_its_order_and_its_width(self):
        now, most = [0], [0]

        async def job(item):
            now[0] += 1
            most[0] = max(most[0], now[0])
            await sleep(0.001)
            now[0] -= 1
            return item * item

        self.assertEqual(await bounded_map(job, range(40), 4), [item * item for item in range(40)])
        self.assertEqual(most, [4])
        with self.assertRaises(LookupError):
            await bounded_map(lambda item: fails() if item == 3 else nap(0.002), range(1000), 2)

    @runs
    async def test_a_retry_ends_with_the_last_error(self):
        tries = []

        async def job():
            tries.append(1)
            if len(tries) < 3:
                raise LookupError
            return "third"

        self.assertEqual(await retry(job, 3, pause=0.001), "third")
        with self.assertRaises(LookupError):
            await retry(fails, 2, pause=0.001)

    @runs
    async def test_a_supervisor_lasts(self):
        rounds = []

        async def round():
            rounds.append(1)

        await supervise(round, every=0, rounds=4200)
        self.assertEqual(len(rounds), 4200)
        async with scope(within=0.3, move_on=True):
            await supervise(round, every=0.01)
        self.assertTrue(4201 < len(rounds) < 4235)


class AsyncioItself(unittest.TestCase):
    """Beside asyncio's own blocks."""

    def test_cancels_from_outside_pass_through(self):
        async def main():
            ended = []

            async def slow():
                try:
                    await sleep(LONG)
                finally:
                    ended.append(1)

            async def block():
                async with scope() as s:
                    s.fork(slow)
                    await s.join()

            task = asyncio.create_task(block())
            await asyncio.sleep(0.01)
            task.cancel()
            with self.assertRaises(asyncio.CancelledError):
                await task
            self.assertEqual(ended, [1])
            with self.assertRaises(asyncio.TimeoutError):
                await asyncio.wait_for(block(), 0.01)
            self.assertEqual(ended, [1, 1])

        asyncio.run(main())

    @unittest.skipUnless(hasattr(asyncio, "timeout"), "no asyncio.timeout")
    def test_scopes_and_timeouts_nest_in_each_other(self):
        async def main():
            with self.assertRaises(TimeoutError):
                async with asyncio.timeout(0.01):
                    async with scope():
                        await asyncio.sleep(LONG)
            async with scope(within=0.01, move_on=True):
                async with asyncio.timeout(LONG):
                    await asyncio.sleep(LONG)
            self.assertEqual(asyncio.current_task().cancelling(), 0)
            async with scope(within=0.01, move_on=True):
                async with asyncio.TaskGroup() as group:
                    group.create_task(asyncio.sleep(LONG))
            self.assertEqual(asyncio.current_task().cancelling(), 0)
            await asyncio.sleep(0)

        asyncio.run(main())

    def test_a_cancel_comes_again_at_asyncios_own_waits(self):
        seen = []

        async def stubborn():
            for _ in range(3):
                try:
                    await asyncio.sleep(LONG)
                except asyncio.CancelledError:
                    seen.append(1)

        async def main():
            async with scope(AWAIT) as s:
                s.fork(stubborn)
                await asyncio.sleep(0.01)
                s.cancel()
                await s.outcome()

        asyncio.run(asyncio.wait_for(main(), LONG / 4))
        self.assertEqual(seen, [1, 1, 1])

    def test_a_loop_that_ends_takes_its_jobs_along(self):
        ended = []

        async def slow():
            try:
                await sleep(LONG)
            finally:
                ended.append(1)

        async def main():
            s = scope()
            await s.__aenter__()
            s.fork(slow)
            await asyncio.sleep(0.01)

        asyncio.run(main())
        self.assertEqual(ended, [1])


@unittest.skipIf(trio is None, "no trio")
class TrioItself(unittest.TestCase):
    """Beside Trio's own blocks, by its own clock."""

    def test_cancels_from_outside_pass_through(self):
        async def main():
            notes = balkreyn.Notes()
            with trio.move_on_after(5) as outside:
                async with scope(notes=notes) as s:
                    s.fork(trio.sleep_forever)
                    await s.join()
            self.assertTrue(outside.cancelled_caught)
            self.assertIn("cancel 1\n", notes.journal())
            async with scope(within=5, move_on=True):
                async with trio.open_nursery() as nursery:
                    nursery.start_soon(trio.sleep_forever)
            with trio.CancelScope(shield=True):
                await trio.sleep(1)

        trio.run(main, clock=trio.testing.MockClock(autojump_threshold=0))

    def test_time_is_trios(self):
        async def main():
            began = trio.current_time()
            async with scope(ALL, within=3600) as s:
                s.fork(nap, 1800, 1)
                self.assertEqual(await s.join(), [1])
            with self.assertRaises(TooSlowError):
                async with scope(within=3600):
                    await sleep(math.inf)
            self.assertAlmostEqual(trio.current_time() - began, 5400, delta=0.01)

        trio.run(main, clock=trio.testing.MockClock(autojump_threshold=0))


if trio is not None:
    import trio.testing

if __name__ == "__main__":
    unittest.main()
