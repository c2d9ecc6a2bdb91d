"""A worker that is called each 10 ms, on threads, until the service is stopped; a round that fails is told, and the next one
comes. Ctrl-C ends it once the running round has ended.

    python3 bindings/python/examples/supervisor.py
"""

from balkreyn.sync import scope, sleep, supervise

rounds: list[str] = []


def work() -> None:
    rounds.append("failed" if len(rounds) % 5 == 4 else "done")


with scope(within=0.5, move_on=True):
    supervise(work, every=0.01)
print(f"{len(rounds) > 9}: {rounds[3:6]}")
