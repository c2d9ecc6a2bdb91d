"""Ctrl-C at random moments, in a process each: a block is left only once its tasks have ended, and the interrupt is raised
then. BALKREYN_INTERRUPTS says how many (150)."""

import collections
import os
import random
import select
import signal
import time
import unittest

from balkreyn import sync

TRIES = int(os.environ.get("BALKREYN_INTERRUPTS", 150))


def requests(seconds, ready):
    """Serves requests until something is raised. Says what that was, and what was left behind."""
    signal.signal(signal.SIGINT, signal.default_int_handler)
    kept, said = [], ""
    try:
        os.write(ready, b"r")  # (an interrupt may come as soon as that is read)
        while True:
            with sync.scope(sync.AWAIT) as s:
                kept[:-1] = []
                kept.append(s)
                for _ in range(6):
                    s.fork(sync.sleep, seconds)
                s.join()
    except BaseException as error:
        said = type(error).__name__
    for s in kept:
        if not s.number:
            continue
        if not s.realm.lock.acquire(timeout=1):
            said += ", a lock is held"
            continue
        said += "" if '"root":null' in s.realm.book.dump() else ", a scope is open"
        said += ", a task runs" if any(s.realm.book.stage(it) in (1, 2) for it in s._tasks) else ""
    return said + (", an actor is left" if sync._here.get() is not None else "")


@unittest.skipUnless(hasattr(os, "fork"), "no fork")
class Interrupts(unittest.TestCase):
    def said_by_a_child(self, seconds, chance):
        (tell, told), (ready, is_ready) = os.pipe()[::-1], os.pipe()
        child = os.fork()
        if child == 0:
            os.write(tell, requests(seconds, is_ready).encode())
            os._exit(0)
        os.close(tell)
        os.read(ready, 1)
        time.sleep(chance.random() * 0.02)
        os.kill(child, signal.SIGINT)
        said = os.read(told, 999).decode() if select.select([told], [], [], 10)[0] else "hangs"
        os.kill(child, signal.SIGKILL)
        os.waitpid(child, 0)
        for it in (told, ready, is_ready):
            os.close(it)
        return said

    def test_an_interrupt_leaves_nothing_behind(self):
        chance = random.Random(1)
        said = collections.Counter(self.said_by_a_child(seconds, chance) for seconds in (0.002, 0, 0.05) for _ in range(TRIES // 3))
        self.assertEqual(said, {"KeyboardInterrupt": TRIES // 3 * 3})


if __name__ == "__main__":
    unittest.main()
