"""The page beside this file, word by word, on workers in processes and in network namespaces.

    BALKREYN_LIBRARY=/some/folder/libbalkreyn.so /usr/bin/python3 bindings/python/examples/cluster/test_cluster.py
"""

import asyncio
import contextlib
import logging
import os
import signal
import socket
import subprocess
import sys
import tempfile
import time
import unittest
from pathlib import Path

HERE = Path(__file__).resolve().parent
sys.path[:0] = [str(HERE), str(HERE.parents[1])]

from balkreyn import ALL, ANY, AWAIT, AWAIT_OK, Notes, Refused, TooSlowError, scope  # noqa: E402
from cluster import Cluster, Lost, checkpoint  # noqa: E402
from distributed import Client  # noqa: E402
from tests.judging import judged  # noqa: E402

TTL = 3
SETTINGS = {
    "DASK_DISTRIBUTED__SCHEDULER__ALLOWED_FAILURES": "0",
    "DASK_DISTRIBUTED__SCHEDULER__WORKER_TTL": f"{TTL}s",
    "DASK_DISTRIBUTED__COMM__TIMEOUTS__CONNECT": "5s",
    "DASK_DISTRIBUTED__ADMIN__LOG_FORMAT": "%(message)s",
    "PYTHONPATH": os.pathsep.join([str(HERE), str(HERE.parents[1])]),
}


# ---- on the workers
def writes(path, text):
    with open(path, "a", encoding="ascii") as file:
        file.write(f"{text}\n")


def ask(path, seconds, price):
    time.sleep(seconds)
    writes(path, price)
    return price


def politely(path, seconds):
    writes(path, "began")
    end = time.monotonic() + seconds
    try:
        while time.monotonic() < end:
            time.sleep(0.01)
            checkpoint()
    finally:
        writes(path, "left")


def dies(seconds):
    time.sleep(seconds)
    os.kill(os.getpid(), signal.SIGKILL)


def ticks(path):
    writes(path, f"pid {os.getpid()}")
    for _ in range(200):
        time.sleep(0.05)
        writes(path, "tick")
    return "late"


def fails():
    raise KeyError("on purpose")


def square(number):
    return number * number


# ---- here
def lines(path):
    return Path(path).read_text(encoding="ascii").splitlines() if Path(path).exists() else []


async def until(what, seconds=20):
    end = time.monotonic() + seconds
    while not what():
        assert time.monotonic() < end, "it never came"
        await asyncio.sleep(0.02)


class Processes(contextlib.ExitStack):
    """A scheduler and workers, each a process."""

    def __init__(self, host="127.0.0.1"):
        super().__init__()
        with socket.socket() as free:
            free.bind((host, 0))
            port = free.getsockname()[1]
        self.address = f"tcp://{host}:{port}"
        self.scheduler = self.starts("dask_scheduler", "--host", host, "--port", str(port), "--no-dashboard", "--dashboard-address", ":0")

    def starts(self, module, *words, before=()):
        command = [*before, sys.executable, "-m", f"distributed.cli.{module}", *words]
        folder = self.enter_context(tempfile.TemporaryDirectory())
        process = subprocess.Popen(command, env={**os.environ, **SETTINGS}, cwd=folder, stdout=subprocess.DEVNULL, stderr=subprocess.DEVNULL)
        self.callback(self.ends, process)
        return process

    @staticmethod
    def ends(process):
        with contextlib.suppress(ProcessLookupError):
            process.send_signal(signal.SIGCONT)
        process.kill()
        process.wait()

    def worker(self, *words, before=()):
        return self.starts("dask_worker", self.address, "--no-nanny", "--nthreads", "2", "--no-dashboard", *words, before=before)


@contextlib.asynccontextmanager
async def a_cluster(processes, workers):
    async with Client(processes.address, asynchronous=True, timeout="20s", set_as_default=False) as client:
        await client.wait_for_workers(workers, timeout=30)
        yield Cluster(client)


class OnProcesses(unittest.TestCase):
    @classmethod
    def setUpClass(cls):
        cls.processes = cls.enterClassContext(Processes())
        cls.workers = [cls.processes.worker() for _ in range(3)]
        cls.folder = cls.enterClassContext(tempfile.TemporaryDirectory())

    def path(self):
        return os.path.join(self.folder, self._testMethodName)

    def runs(self, body, workers=3):
        """Runs the body on the cluster; the proved program judges its notes. Gives what it gave, and its seconds."""
        notes = Notes()

        async def main():
            async with a_cluster(self.processes, workers) as cluster:
                began = time.monotonic()
                return await body(cluster, notes), time.monotonic() - began

        given = asyncio.run(main())
        judged(self, notes)
        return given

    def test_a_the_first_price_counts_and_the_others_have_ended(self):
        path = self.path()

        async def body(cluster, notes):
            async with scope(ANY, within=20, notes=notes) as s:
                for seconds, price in ((0.9, 9), (0.1, 7), *((0.9, 8) for _ in range(60))):  # more than have threads
                    s.fork(cluster.call, ask, path, seconds, price)
                best = await s.join()
            wrote = lines(path)
            await asyncio.sleep(1.2)
            return best, wrote, lines(path)

        (best, wrote, behind), _ = self.runs(body)
        self.assertEqual(best, 7)
        # Those that ran have ended with the block; those that waited for a thread never ran.
        self.assertEqual(wrote, behind)
        self.assertLess(len(wrote), 62)

    def test_b_a_deadline_ends_functions_that_ask(self):
        path = self.path()

        async def body(cluster, notes):
            async with scope(AWAIT, within=0.6, move_on=True, notes=notes) as s:
                polite = [s.fork(cluster.call, politely, path, 60) for _ in range(4)]
                quick = s.fork(cluster.call, square, 3)
                await s.join()
                with self.assertRaises(Refused):
                    polite[0].result()
                value = quick.result()
            return value, lines(path)

        (quick, wrote), seconds = self.runs(body)
        self.assertEqual((quick, wrote.count("began"), wrote.count("left")), (9, 4, 4))
        self.assertLess(seconds, 5)

    def test_c_a_functions_error_is_its_jobs_and_scopes_nest(self):
        async def region(cluster, number):
            async with scope(ALL) as s:
                for one in range(3):
                    s.fork(cluster.call, square, number + one)
                return sum(await s.join())

        async def body(cluster, notes):
            async with scope(ALL, within=30, notes=notes) as s:
                for number in range(3):
                    s.fork(region, cluster, number)
                sums = await s.join()
            with self.assertRaisesRegex(KeyError, "on purpose"):
                async with scope(AWAIT_OK, within=30) as s:
                    s.fork(cluster.call, fails)
                    s.fork(cluster.call, politely, self.path(), 60)
                    await s.join()
            return sums

        self.assertEqual(self.runs(body)[0], [5, 14, 29])

    def test_d_a_timeout_of_the_caller_ends_the_calls(self):
        async def body(cluster, notes):
            with self.assertRaises(TooSlowError):
                async with scope(ALL, within=0.5, notes=notes) as s:
                    for _ in range(12):
                        s.fork(cluster.call, politely, self.path(), 60)
                    await s.join()
            return lines(self.path())

        wrote = self.runs(body)[0]
        self.assertEqual(wrote.count("began"), wrote.count("left"))

    def test_e_a_stopped_worker_is_given_up_and_its_late_result_never_counts(self):
        path = self.path()

        async def body(cluster, notes):
            async with scope(AWAIT, notes=notes) as s:
                job = s.fork(cluster.call, ticks, path)
                await until(lambda: lines(path))
                stopped = int(lines(path)[0].split()[1])
                os.kill(stopped, signal.SIGSTOP)
                await s.join()
                with self.assertRaises(Lost):
                    job.result()
                at_the_end = len(lines(path))
                os.kill(stopped, signal.SIGCONT)
                # It goes on behind the end of its job: no engine can help that.
                await until(lambda: len(lines(path)) > at_the_end)
                with self.assertRaises(Lost):
                    job.result()

        _, seconds = self.runs(body)
        self.assertGreater(seconds, TTL / 2)
        self.workers.append(self.processes.worker())

    def test_f_a_killed_workers_call_is_lost_and_the_others_are_cancelled(self):
        path = self.path()

        async def body(cluster, notes):
            with self.assertRaises(Lost):
                async with scope(AWAIT_OK, within=30, notes=notes) as s:
                    for _ in range(3):
                        s.fork(cluster.call, politely, path, 60)
                    await until(lambda: len(lines(path)) == 3)
                    s.fork(cluster.call, dies, 0.1)
                    await s.join()

        _, seconds = self.runs(body)
        self.assertLess(seconds, 15)

    def test_g_a_scheduler_that_is_killed_takes_all_calls_with_it(self):
        path = self.path()

        async def body(cluster, notes):
            with self.assertRaises(Lost):
                async with scope(AWAIT_OK, within=60, notes=notes) as s:
                    for _ in range(2):
                        s.fork(cluster.call, politely, path, 60)
                    await until(lambda: len(lines(path)) == 2)
                    self.processes.scheduler.kill()
                    await s.join()

        _, seconds = self.runs(body, workers=2)
        self.assertLess(seconds, 30)


def has_namespaces():
    """Whether this machine lets us make network namespaces."""
    made = subprocess.run(["ip", "netns", "add", "balkreyn-try"], capture_output=True) if os.geteuid() == 0 and have("ip") else None
    if made is None or made.returncode:
        return False
    subprocess.run(["ip", "netns", "del", "balkreyn-try"], check=True)
    return True


def have(program):
    return any(os.access(os.path.join(folder, program), os.X_OK) for folder in os.environ.get("PATH", "").split(os.pathsep))


@unittest.skipUnless(has_namespaces(), "no network namespaces can be made here")
class InNamespaces(unittest.TestCase):
    """Each worker in a network namespace of its own, whose link is cut and mended."""

    def link(self, number, stack):
        name, near, far = f"bk{os.getpid()}n{number}", f"bka{os.getpid() % 10000}{number}", f"bkb{os.getpid() % 10000}{number}"
        net = f"10.201.{number}"
        for words in (
            f"netns add {name}",
            f"link add {near} type veth peer name {far}",
            f"link set {far} netns {name}",
            f"addr add {net}.1/24 dev {near}",
            f"link set {near} up",
            f"-n {name} addr add {net}.2/24 dev {far}",
            f"-n {name} link set {far} up",
            f"-n {name} link set lo up",
            f"-n {name} route add default via {net}.1",
        ):
            subprocess.run(["ip", *words.split()], check=True)
            if words.startswith("netns"):
                stack.callback(subprocess.run, ["ip", "netns", "del", name])
        return name, near

    def test_a_cut_link_is_a_worker_given_up(self):
        with contextlib.ExitStack() as stack:
            path = os.path.join(stack.enter_context(tempfile.TemporaryDirectory()), "ticks")
            links = [self.link(number, stack) for number in (1, 2)]
            processes = stack.enter_context(Processes("0.0.0.0"))
            port = processes.address.rsplit(":", 1)[1]
            for number, (name, _) in enumerate(links, 1):
                processes.address = f"tcp://10.201.{number}.1:{port}"
                processes.worker("--name", name, before=["ip", "netns", "exec", name])
            processes.address = f"tcp://127.0.0.1:{port}"
            notes = Notes()

            async def body():
                async with a_cluster(processes, 2) as cluster, scope(AWAIT, notes=notes) as s:
                    job = s.fork(cluster.call, ticks, path)
                    await until(lambda: lines(path))
                    # Whose link it is, the other one tells: it still answers.
                    for _, near in links:
                        subprocess.run(["ip", "link", "set", near, "down"], check=True)
                    await s.join()
                    with self.assertRaises(Lost):
                        job.result()
                    # The function wrote on meanwhile, on the other side of the cut.
                    at_the_end = len(lines(path))
                    for _, near in links:
                        subprocess.run(["ip", "link", "set", near, "up"], check=True)
                    await asyncio.sleep(0.5)
                    with self.assertRaises(Lost):
                        job.result()
                return at_the_end, len(lines(path))

            at_the_end, behind = asyncio.run(body())
            self.assertGreater(behind, at_the_end)
            judged(self, notes)


if __name__ == "__main__":
    # Dask tells of each connection that is lost.
    logging.disable(logging.CRITICAL)
    if not has_namespaces():
        print("left out: workers in network namespaces: none can be made here")
    unittest.main()
