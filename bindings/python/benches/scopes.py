"""What scopes cost beside their peers, in one run: medians of rounds that take turns, wall and processor microseconds.

    BALKREYN_LIBRARY=/some/folder/libbalkreyn.so PYTHONPATH=bindings/python python3 bindings/python/benches/scopes.py
"""

import asyncio
import resource
import statistics
import time
from concurrent.futures import ThreadPoolExecutor

import trio

import balkreyn
from balkreyn import sync

ROUNDS, TURNS = 9, 300


def timed(call, turns):
    wall, processor = time.perf_counter(), time.process_time()
    for _ in range(turns):
        call()
    return (time.perf_counter() - wall) / turns * 1e6, (time.process_time() - processor) / turns * 1e6


async def timed_async(call, turns):
    wall, processor = time.perf_counter(), time.process_time()
    for _ in range(turns):
        await call()
    return (time.perf_counter() - wall) / turns * 1e6, (time.process_time() - processor) / turns * 1e6


def told(rows):
    for name, turns in rows.items():
        wall, processor = (statistics.median(part) for part in zip(*turns))
        print(f"{name:<44}{wall:8.1f} wall {processor:8.1f} processor")


def threads():
    executor, rows = ThreadPoolExecutor(4), {}

    def alone():
        with sync.scope() as s:
            s.fork(int)
            s.join()

    def empty():
        with sync.scope():
            pass

    def thousand():
        with sync.scope() as s:
            for _ in range(1000):
                s.fork(int)
            s.join()

    def of_an_executor():
        executor.submit(int).result()

    for _ in range(ROUNDS):
        for name, call in (("threads: an empty scope", empty), ("threads: a job alone", alone), ("threads: an executor's job alone", of_an_executor)):
            rows.setdefault(name, []).append(timed(call, TURNS))
        wall, processor = timed(thousand, 1)
        rows.setdefault("threads: each of 1,000 jobs", []).append((wall / 1000, processor / 1000))
    told(rows)


async def nothing():
    pass


async def a_scope():
    async with balkreyn.scope() as s:
        s.fork(nothing)
        await s.join()


async def a_nursery():
    async with trio.open_nursery() as nursery:
        nursery.start_soon(nothing)


async def a_group():
    async with asyncio.TaskGroup() as group:
        group.create_task(nothing())


async def engine(name, peer, of_peer):
    rows = {}
    for _ in range(ROUNDS):
        rows.setdefault(f"{name}: a scope with a job", []).append(await timed_async(a_scope, TURNS))
        rows.setdefault(f"{name}: {peer} with a job", []).append(await timed_async(of_peer, TURNS))

        async def inner():
            async with balkreyn.scope():
                for _ in range(TURNS):
                    await a_scope()

        wall, processor = await timed_async(inner, 1)
        rows.setdefault(f"{name}: an inner scope with a job", []).append((wall / TURNS, processor / TURNS))
    told(rows)


async def waiting(count):
    processor = time.process_time()
    async with balkreyn.scope(balkreyn.AWAIT, within=1.5, move_on=True) as s:
        for _ in range(count):
            s.fork(balkreyn.sleep, 60)
        await s.outcome()
    memory = resource.getrusage(resource.RUSAGE_SELF).ru_maxrss // 1024
    print(f"asyncio: {count} waiting jobs: {time.process_time() - processor:.2f} s of processor, {memory} MB")


asyncio.run(waiting(10_000))
threads()
trio.run(engine, "trio", "a nursery", a_nursery)
asyncio.run(engine("asyncio", "a task group", a_group))
