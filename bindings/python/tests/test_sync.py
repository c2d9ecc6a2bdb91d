"""Scopes on threads."""

import contextvars
import math
import os
import pickle
import signal
import threading
import time
import unittest
import unittest.mock

from balkreyn import sync
from balkreyn.sync import (
    ALL, ANY, AWAIT, AWAIT_OK, Cancelled, NotJoined, NothingCame, Refused, Rejected, TooSlowError, bounded_map, checkpoint,
    is_cancelled, race, remaining, retry, scope, shielded, sleep, supervise, until_failed, until_ok, until_sum,
)  # fmt: skip

from .judging import LONG

tenant = contextvars.ContextVar("tenant", default="none")


def nap(seconds, value=None):
    sleep(seconds)
    return value


def fails(error=LookupError):
    raise error


class Joins(unittest.TestCase):
    def test_values_come_in_fork_order(self):
        with scope(ALL) as s:
            for index in range(5):
                s.fork(nap, 0.01 * (5 - index), index * index)
            self.assertEqual(s.join(), [0, 1, 4, 9, 16])

    def test_the_first_success_is_the_value_and_late_ones_count_for_nothing(self):
        def late():
            while not is_cancelled():
                time.sleep(0.001)
            return "late"

        with scope(ANY) as s:
            slow = s.fork(late)
            s.fork(lambda: "first")
            self.assertEqual(s.join(), "first")
            time.sleep(0.03)
            self.assertEqual(slow.state, "unavailable")
            with self.assertRaisesRegex(Refused, "unavailable"):
                slow.result()

    def test_a_failure_is_raised_and_cancels_the_rest(self):
        began = time.monotonic()
        with scope() as s:
            slow = s.fork(nap, LONG)
            failing = s.fork(lambda: 1 / 0)
            self.assertRaises(ZeroDivisionError, s.join)
            self.assertRaises(ZeroDivisionError, failing.result)
            self.assertEqual((failing.state, slow.state, s.cause()), ("failed", "unavailable", "joiner"))
        self.assertLess(time.monotonic() - began, LONG)

    def test_an_outcome_raises_nothing(self):
        with scope() as s:
            failing = s.fork(fails)
            outcome = s.outcome()
            self.assertEqual((outcome.kind, outcome.task), ("failed", failing.number))

    def test_joiners_answer_by_their_rules(self):
        with scope(ANY) as s:
            self.assertRaises(NothingCame, s.join)
        with scope(AWAIT) as s:
            s.fork(fails)
            self.assertIsNone(s.join())
        with scope(until_failed(2)) as s:
            tasks = [s.fork(fails), s.fork(fails), s.fork(nap, LONG)]
            self.assertEqual(s.join(), tasks)
        with scope(until_ok(60)) as s:
            for index in range(60):
                s.fork(int, index)
            self.assertEqual(sorted(task.result() for task in s.join()), list(range(60)))
        with scope(until_sum(10)) as s:
            for bid in (4, 6):
                s.fork_measured(int, int, bid)
            s.fork(nap, LONG)
            self.assertEqual(len(s.join()), 3)
        with scope(AWAIT_OK) as s:
            s.fork_measured(lambda value: 2**63, int)
            self.assertRaises(OverflowError, s.join)

    def test_wrong_bounds_are_told_where_they_stand(self):
        self.assertRaises(ValueError, until_ok, -1)
        self.assertRaises(ValueError, until_failed, 2**32)
        self.assertRaises(TypeError, until_ok, 2.5)

    def test_a_forgotten_join_is_told_and_a_bodys_error_goes_on(self):
        with self.assertRaises(NotJoined):
            with scope() as s:
                s.fork(int)
        with self.assertRaises(ZeroDivisionError):
            with scope() as s:
                s.fork(nap, LONG)
                _ = 1 / 0

    @unittest.skipUnless(hasattr(__builtins__, "ExceptionGroup") or "ExceptionGroup" in dir(__import__("builtins")), "no groups")
    def test_neither_a_bodys_error_nor_a_tasks_is_lost(self):
        with self.assertRaises(ExceptionGroup) as caught:  # noqa: F821
            with scope() as s:
                failing = s.fork(fails)
                while failing.state == "unavailable":
                    time.sleep(0.001)
                _ = 1 / 0
        self.assertEqual({type(it) for it in caught.exception.exceptions}, {ZeroDivisionError, LookupError})


class Cancels(unittest.TestCase):
    def test_a_cancel_ends_at_the_block_of_its_scope(self):
        with scope() as s:
            threading.Timer(0.01, s.cancel).start()
            sleep(LONG)
        self.assertEqual(s.cause(), "call")
        with scope() as outer:
            with self.assertRaises(Cancelled):
                with scope() as inner:
                    outer.cancel()
                    self.assertTrue(inner.is_cancelled)
                    sleep(LONG)
        with self.assertRaises(LookupError):  # the failure that cut the body off
            with scope() as s:
                s.fork(fails)
                sleep(LONG)
        with scope(ANY) as s:  # a success that cut it off
            s.fork(int)
            sleep(LONG)

    def test_a_cancel_reaches_the_scopes_inside(self):
        seen = []

        def task():
            with scope(AWAIT) as inner:
                inner.fork(lambda: nap(LONG * outer.cancel()))
                seen.append(inner.outcome())
                never = inner.realm is None
                with scope(AWAIT) as late:
                    self.assertTrue(is_cancelled())
                    never = late.fork(seen.append, "it ran")
                    seen.append(late.outcome())
                    self.assertRaises(Refused, never.result)

        with scope(AWAIT) as outer:
            outer.fork(task)
            seen.append(outer.outcome())
        self.assertEqual([(it.kind, it.scope) for it in seen], [("cancelled", outer.number)] * 3)

    def test_a_shield_keeps_cancels_out(self):
        inside, cancelled, ended = threading.Event(), threading.Event(), threading.Event()

        def task():
            with shielded():
                inside.set()
                cancelled.wait()
                sleep(0.005)
                ended.set()
            checkpoint()

        with scope() as s:
            s.fork(task)
            inside.wait()
            self.assertTrue(s.cancel())
            cancelled.set()
            self.assertFalse(s.cancel())
            self.assertEqual(s.outcome().kind, "cancelled")
        self.assertTrue(ended.is_set())
        self.assertFalse(s.cancel())  # behind the end

    def test_a_scope_may_be_cancelled_before_its_block(self):
        s = scope()
        self.assertTrue(s.cancel())
        ran = []
        with s:
            s.fork(ran.append, 1)
            checkpoint()
        self.assertEqual(ran, [])

    def test_a_cancel_in_a_handler_of_a_signal(self):
        before = signal.getsignal(signal.SIGALRM)
        try:
            for trial in range(200):
                with scope(AWAIT) as s:
                    signal.signal(signal.SIGALRM, lambda *_: s.cancel())
                    signal.setitimer(signal.ITIMER_REAL, 0.00005 + (trial % 40) * 0.00002)
                    for _ in range(4):
                        s.fork(int)
                    s.outcome()
                    signal.setitimer(signal.ITIMER_REAL, 0)
                    signal.signal(signal.SIGALRM, signal.SIG_IGN)
        finally:
            signal.signal(signal.SIGALRM, before)


class Times(unittest.TestCase):
    def test_a_deadline_ends_its_block(self):
        began = time.monotonic()
        with self.assertRaises(TooSlowError):
            with scope(ALL, within=0.04) as s:
                s.fork(nap, LONG)
                s.join()
        self.assertGreaterEqual(time.monotonic() - began, 0.04)
        with scope(within=0.02, move_on=True):
            sleep(LONG)
        with scope(ALL, within=1.5, move_on=True) as s:
            s.fork(int, 7)
            s.fork(nap, LONG)
            self.assertEqual(s.join(), [7])
        self.assertLess(time.monotonic() - began, LONG)

    def test_a_moved_deadline_counts_for_who_waits_already(self):
        with scope(AWAIT) as s:
            s.fork(nap, LONG)
            time.sleep(0.02)
            s.move_deadline(0.02)
            self.assertEqual(s.outcome().kind, "timeout")
            with self.assertRaisesRegex(Refused, "already-joined"):
                s.move_deadline(None)
        with scope(AWAIT, within=0.01) as s:
            s.move_deadline(math.inf)
            s.fork(nap, 0.03)
            self.assertEqual(s.outcome().kind, "done")

    def test_a_deadline_is_never_early(self):
        for _ in range(20):
            began = time.monotonic()
            with scope(within=0.002, move_on=True):
                sleep(LONG)
            self.assertGreaterEqual(time.monotonic() - began, 0.002)

    def test_what_comes_behind_an_unseen_deadline_counts_for_nothing(self):
        with scope(ALL, within=0.01, move_on=True) as s:
            deaf = s.fork(time.sleep, 0.03)
            time.sleep(0.06)  # nobody waits in the realm while the deadline passes
            self.assertEqual(s.join(), [])
            self.assertEqual(deaf.state, "unavailable")

    def test_times_at_the_edge(self):
        ran = []
        with scope(AWAIT, within=0, move_on=True) as s:
            for _ in range(50):
                s.fork(ran.append, 1)
            s.outcome()
        self.assertEqual(ran, [])
        for wrong in (-1, math.nan, -math.inf):
            self.assertRaises(ValueError, scope, within=wrong)
            self.assertRaises(ValueError, sleep, wrong)
        with scope(within=math.inf):
            sleep(0)
        with scope(within=0.01, move_on=True):
            sleep(math.inf)

    def test_how_much_time_is_left(self):
        self.assertIsNone(remaining())
        with scope(within=60):
            with scope():
                self.assertTrue(59 < remaining() <= 60.01)
                with scope(within=1) as s:
                    self.assertTrue(0 < remaining() <= 1.01)
                    s.cancel()
                    self.assertEqual(remaining(), 0)


class Blocks(unittest.TestCase):
    def test_only_those_inside_act_in_a_scope(self):
        with scope(AWAIT) as s:
            stranger = s.fork(lambda: s.fork(int))
            s.outcome()
            with self.assertRaisesRegex(Refused, "not-owner"):
                stranger.result()
        refused = []

        def acts():
            try:
                s.fork(int)
            except RuntimeError:
                refused.append(True)

        with scope():
            plain = threading.Thread(target=acts)
            plain.start()
            plain.join()
        self.assertEqual(refused, [True])
        self.assertRaises(RuntimeError, s.__enter__)

    def test_a_thread_of_its_own_has_a_realm_of_its_own(self):
        seen = []

        def other():
            with scope(ALL) as s:
                s.fork(int, 3)
                seen.append(s.join())

        with scope() as outer:
            plain = threading.Thread(target=contextvars.copy_context().run, args=(other,))
            plain.start()
            plain.join()
            outer.cancel()
        self.assertEqual(seen, [[3]])

    def test_a_scope_that_a_task_left_open_is_closed(self):
        def forgetful():
            scope().__enter__()
            scope().__enter__().fork(nap, LONG)

        with scope(AWAIT) as s:
            task = s.fork(forgetful)
            s.outcome()
            self.assertRaises(RuntimeError, task.result)

    def test_an_outer_block_that_is_left_first_closes_what_is_above_it(self):
        outer, inner = scope(AWAIT), scope(AWAIT)
        outer.__enter__()
        inner.__enter__()
        task = inner.fork(nap, LONG)
        with self.assertRaisesRegex(Refused, "structure"):
            outer.__exit__(None, None, None)
        self.assertIn(repr(task), ["<Task 1 'nap' finished>", "<Task 1 'nap' never>"])
        with scope(ALL) as s:  # and all goes on
            s.fork(int, 1)
            self.assertEqual(s.join(), [1])

    def test_tasks_inherit_variables(self):
        with sync.bind(tenant, ("any", "object")):
            with scope(ALL) as s:
                s.fork(tenant.get)
                self.assertEqual(s.join(), [("any", "object")])
        self.assertEqual(tenant.get(), "none")

    def test_labels_are_any_text(self):
        def getUser():  # noqa: N802
            return 1

        with scope(ALL, name="Ünïcode scope") as s:
            s.fork(getUser)
            s.fork(lambda label: label, label=3)
            self.assertEqual(s.join(), [1, 3])

    def test_a_journal_has_its_times(self):
        with scope(AWAIT) as s:
            time.sleep(0.03)
            s.fork(int)
            s.join()
            time.sleep(0.03)
            lines = s.journal().splitlines()
        times = [(int(line[5:]), lines[place + 1 : place + 2]) for place, line in enumerate(lines) if line.startswith("# at ")]
        self.assertEqual([at for at, _ in times], sorted({at for at, _ in times}))
        self.assertTrue(times[0][1] == ["open 0 await"] and times[1][0] >= times[0][0] + 30 and times[1][1] == ["fork 0 1 int"])
        self.assertTrue(times[-1][0] >= times[1][0] + 30 and times[-1][1] == [])

    def test_a_fork_without_a_thread_is_rejected(self):
        with scope(AWAIT) as s:
            with unittest.mock.patch("balkreyn.sync.run", side_effect=RuntimeError("can't start new thread")):
                self.assertRaises(Rejected, s.fork, int)
            self.assertIn("reject 1\n", s.journal())
            s.outcome()
        with self.assertRaises(NotJoined):
            with scope() as s, unittest.mock.patch("balkreyn.sync.run", side_effect=RuntimeError):
                self.assertRaises(Rejected, s.fork, int)

    def test_threads_are_used_again(self):
        seen = set()
        for _ in range(50):
            with scope() as s:
                s.fork(lambda: seen.add(threading.get_ident()))
                s.join()
            time.sleep(0.0005)
        self.assertLess(len(seen), 25)

    def test_errors_can_be_pickled(self):
        for error in (Refused(10), NotJoined(), Rejected()):
            self.assertEqual(str(pickle.loads(pickle.dumps(error))), str(error))

    @unittest.skipUnless(hasattr(os, "fork"), "no fork")
    def test_a_child_process_has_no_part_in_its_parents_scopes(self):
        with scope(ALL) as s:
            s.fork(int, 1)
            s.join()
            child = os.fork()
            if child == 0:
                code = 1
                try:
                    s.fork(int)
                except RuntimeError:
                    contextvars.Context().run(lambda: own.append(bounded_map(int, ["1", "2"], 2)))
                    code = 0 if own == [[1, 2]] else 2
                finally:
                    os._exit(code)
            self.assertEqual(os.waitpid(child, 0)[1], 0)


own = []


class Helpers(unittest.TestCase):
    def test_a_race_gives_the_first_value(self):
        self.assertEqual(race(lambda: nap(LONG), lambda: nap(0.001, "quick"), fails), "quick")
        self.assertRaises(LookupError, race, fails, fails)
        self.assertRaises(TooSlowError, race, lambda: nap(LONG), within=0.01)

    def test_a_map_keeps_its_order_and_its_width(self):
        now, most, turn = [0], [0], threading.Lock()

        def job(item):
            with turn:
                now[0] += 1
                most[0] = max(most[0], now[0])
            sleep(0.001)
            with turn:
                now[0] -= 1
            return item * item

        self.assertEqual(bounded_map(job, range(40), 4), [item * item for item in range(40)])
        self.assertTrue(1 < most[0] <= 4)
        begun = []

        def failing(item):
            begun.append(item)
            if item == 3:
                raise LookupError
            sleep(0.002)

        self.assertRaises(LookupError, bounded_map, failing, range(1000), 2)
        self.assertLess(len(begun), 100)
        self.assertRaises(ValueError, bounded_map, int, [], 0)

    def test_a_retry_ends_with_the_last_error(self):
        tries = []

        def job():
            tries.append(1)
            if len(tries) < 3:
                raise LookupError
            return "third"

        self.assertEqual(retry(job, 3, pause=0.001), "third")
        self.assertRaises(LookupError, retry, fails, 2, pause=0.001)

    def test_a_supervisor_lasts(self):
        rounds = []
        supervise(lambda: rounds.append(1), every=0, rounds=5000)
        self.assertEqual(len(rounds), 5000)
        with scope(within=0.3, move_on=True):
            supervise(lambda: rounds.append(1), every=0.01)
        self.assertTrue(5001 < len(rounds) < 5035)


if __name__ == "__main__":
    unittest.main()
