"""A journal of a Trio program, and what Trio answered: see README.md.

    journal = TrioJournal()
    journal.run(main)                # as trio.run(main); the options of trio.run go by name
    print(journal.text())            # a script, of which `scopectl replay --strict` refuses no line
    print(journal.answers())         # what Trio says to each of its lines

An instrument of Trio hears when tasks are spawned, take a step and exit. What it finds between two steps, it says:

    Trio                                    the script
    a nursery that is entered               open A await-ok, with its deadline and shield
    any other cancel scope                  open A await move-on, with its deadline and shield
    nursery.start_soon                      fork A S NAME, by the task that opened the nursery
    the first step of a task                start K
    its end                                 ok K and its value if it is a whole number, or else 0;
                                            fail K and the name of the exception's type
    a child that fails                      nothing more: the joiner await-ok cancels its scope
    a body that fails, or scope.cancel()    cancel S
    a deadline that passed                  tick N, in microseconds since the journal began
    a deadline that is set                  move S N
    the end of a nursery or cancel scope    join A S if tasks were forked in it, cause S, close A S, closed A S

The answers to `fork`, `join` and `cause` rest on Trio's flags: whether the nursery was cancelled at the fork, and the
scope when it ended. What the script can't say, or this doesn't, is in README.md. It wraps each task's coroutine, as Trio
tells an instrument no ends, and reads private fields of Trio 0.22: `Task._cancel_status`, its `_scope` and `_parent`, and
`_cancel_called` and `_cancel_status` of a `CancelScope`.
"""

import math
import re

import trio


class _Open:
    """A cancel scope that is open: its number, its owner, and what the journal said of it last."""

    def __init__(self, number, owner, status, around):
        self.number, self.owner, self.status, self.around = number, owner, status, around
        self.scope = status._scope
        self.deadline, self.shield = self.scope.deadline, self.scope.shield
        self.has_tasks = self.has_failure = False
        #: By which scope's cancel it was cancelled, and how; and the first child that failed, if that was by it.
        self.cause = self.failed = None

    def is_new(self):
        """Whether Trio has cancelled it, and the journal doesn't say so yet."""
        return self.cause is None and self.status.effectively_cancelled

    def has_passed(self, moment):
        """Whether its own deadline cancelled it by then."""
        return self.scope._cancel_called and not self.has_failure and self.scope.deadline <= moment


class _Actor:
    """Main, or a task: its number, the status it began in, and the scopes that it opened and has not closed."""

    def __init__(self, number, base, nursery):
        self.number, self.base, self.nursery = number, base, nursery
        self.has_started = False
        self.end = "ok", 0
        self.open = []


class TrioJournal(trio.abc.Instrument):
    """The journal of one run. `run` runs a program with it; `with journal:` in a task makes that task its main."""

    def __init__(self):
        self._lines = []
        self._actors = {}
        self._scopes = {}
        self._count = {"scope": 0, "task": 0}
        self._moment = 0
        self._began = None

    def run(self, async_fn, *args, **options):
        """Runs the program as `trio.run` does, and writes its journal."""

        async def main():
            with self:
                return await async_fn(*args)

        return trio.run(main, **options)

    def text(self):
        """The journal so far."""
        return "".join(f"{line}\n" for line, _ in self._lines)

    def answers(self):
        """What Trio answered to each line so far."""
        return "".join(f"{answer}\n" for _, answer in self._lines if answer)

    def __enter__(self):
        self._main = trio.lowlevel.current_task()
        self._began = trio.current_time()
        self._actors[self._main] = _Actor(0, self._main._cancel_status, None)
        trio.lowlevel.add_instrument(self)
        return self

    def __exit__(self, *_):
        self._look(self._main)
        trio.lowlevel.remove_instrument(self)

    # ---- what Trio says

    def task_spawned(self, task):
        self._look_at_current()
        parent = self._scopes.get(task.parent_nursery and task.parent_nursery.cancel_scope)
        if parent is not None:
            self._fork(task, parent)
            task.coro = self._noted(task, task.coro)

    def before_task_step(self, task):
        self._hear_changes()
        actor = self._actors.get(task)
        if actor is not None and task is not self._main and not actor.has_started:
            actor.has_started = True
            self._say(f"start {actor.number}", "started")

    def after_task_step(self, task):
        self._look(task)

    def task_exited(self, task):
        actor = self._actors.get(task)
        if actor is None or task is self._main:
            return
        if task.parent_nursery is not None and task.parent_nursery is not actor.nursery:
            # It called `started()` in its last step, so it ends as the second of its two tasks.
            self._look(task)
            actor = self._actors.get(task)
            if actor is None:
                return
        word, end = actor.end
        parent = self._scopes.get(actor.nursery.cancel_scope)
        if parent is None:
            self._say(f"# task {actor.number} ends in a scope that was left before it, which no line says", None)
            del self._actors[task]
            return
        parent.has_failure = word == "fail" and parent.cause is None
        self._look(task)
        if parent.cause == (parent.number, "joiner"):
            parent.failed = parent.failed or (actor.number, end)
        self._say(f"{word} {actor.number} {end}", "finished")
        del self._actors[task]

    # ---- what the journal says

    def _say(self, line, answer):
        self._lines.append((line, answer))

    def _number(self, kind):
        self._count[kind] += 1
        return self._count[kind]

    def _moment_of(self, seconds):
        return max(0, min(math.floor((seconds - self._began) * 1e6), 2**64 - 1)) if seconds > -math.inf else 0

    def _fork(self, task, parent):
        number = self._number("task")
        is_late = task.parent_nursery._cancel_status.effectively_cancelled
        line = f"fork {parent.owner.number} {parent.number} {_name(task.name.split('.')[-1])}"
        self._say(line, f"task {number} {'none' if is_late else 'thread'}")
        parent.has_tasks = True
        # By the rules a task that is forked in a cancelled scope never runs. Trio runs it up to its first checkpoint,
        # of which nothing is said.
        if not is_late:
            self._actors[task] = _Actor(number, task.parent_nursery._cancel_status, task.parent_nursery)

    async def _noted(self, task, coroutine):
        """The coroutine, whose end is noted for `task_exited`."""
        end = "ok", 0
        try:
            value = await coroutine
            if type(value) is int and -(2**63) <= value < 2**63:
                end = "ok", value
            return value
        except BaseException as error:
            end = "fail", _name(type(error).__name__)
            raise
        finally:
            if task in self._actors:
                self._actors[task].end = end

    def _look_at_current(self):
        try:
            self._look(trio.lowlevel.current_task())
        except RuntimeError:
            pass  # No task runs: a system task is spawned.

    def _look(self, task):
        """Says which scopes the task has left and entered since the last look, and what changed of all."""
        actor = self._actors.get(task)
        if actor is None:
            return
        if actor.nursery is not None and task.parent_nursery is not actor.nursery:
            actor = self._moved(task, actor)
        chain, status = [], task._cancel_status
        while status is not None and status is not actor.base:
            chain.append(status)
            status = status._parent
        while actor.open and actor.open[-1].status not in chain:
            last = actor.open[-1]
            # A cancel, or another shield, came before the end; others may have come after it.
            if last.is_new() or last.scope.shield != last.shield:
                self._hear_changes()
            self._close(actor)
        for status in reversed(chain[: len(chain) - len(actor.open)]):
            self._enter(task, actor, status)
        self._hear_changes()

    def _enter(self, task, actor, status):
        is_nursery = any(nursery.cancel_scope is status._scope for nursery in task.child_nurseries)
        around = status._parent and self._scopes.get(status._parent._scope)
        opened = _Open(self._number("scope"), actor, status, around)
        words = ["await-ok"] if is_nursery else ["await"]
        if opened.deadline < math.inf:
            words.append(f"deadline={self._moment_of(opened.deadline)}")
        words += [] if is_nursery else ["move-on"]
        words += ["shield"] if opened.shield else []
        self._say(f"open {actor.number} {' '.join(words)}", f"scope {opened.number}")
        actor.open.append(opened)
        self._scopes[opened.scope] = opened

    def _close(self, actor):
        closed = actor.open.pop()
        del self._scopes[closed.scope]
        if closed.has_tasks:
            self._say(f"join {actor.number} {closed.number}", self._outcome(closed))
        by, kind = closed.cause or (None, None)
        why = "live"
        if closed.status.effectively_cancelled:
            why = f"cancelled {by} {kind}" if kind else "cancelled"  # By nothing that the journal has.
        self._say(f"cause {closed.number}", why)
        self._say(f"close {actor.number} {closed.number}", "closing")
        self._say(f"closed {actor.number} {closed.number}", "closed")

    def _outcome(self, closed):
        by, kind = closed.cause or (None, None)
        if kind is None:
            return "outcome done"
        if by == closed.number and kind == "joiner":
            return "outcome failed {} {}".format(*closed.failed)
        if by == closed.number and kind == "deadline":
            return "outcome timeout"
        return f"outcome cancelled {by}"

    def _moved(self, task, actor):
        """After `started()` the task of `nursery.start` lies in another nursery: the journal has it as two tasks."""
        while actor.open:
            self._close(actor)
        self._say(f"ok {actor.number} 0", "finished")
        del self._actors[task]
        parent = self._scopes.get(task.parent_nursery.cancel_scope)
        if parent is None:
            return _Actor(0, task._cancel_status, None)
        self._fork(task, parent)
        moved = self._actors.get(task)
        if moved is None:
            return _Actor(0, task._cancel_status, None)
        moved.has_started = True
        moved.end = actor.end
        self._say(f"start {moved.number}", "started")
        return moved

    def _hear_changes(self):
        """Says which deadlines were set, and which scopes were cancelled by a call or by their deadline."""
        for opened in self._scopes.values():
            scope = opened.scope
            if scope._cancel_status is not None and scope.deadline != opened.deadline:
                opened.deadline = scope.deadline
                moment = "never" if scope.deadline == math.inf else self._moment_of(scope.deadline)
                self._say(f"move {opened.number} {moment}", "moved")
            if scope.shield != opened.shield:
                opened.shield = scope.shield
                self._say(f"# the shield of scope {opened.number} changed, which no line says", None)
        self._reach()
        now = trio.current_time()
        for deadline in sorted({new.scope.deadline for new in self._new() if new.has_passed(now)}):
            if self._moment_of(deadline) > self._moment:
                self._moment = self._moment_of(deadline)
                self._say(f"tick {self._moment}", f"moment {self._moment}")
            for new in self._new():
                if new.has_passed(deadline):
                    new.cause = new.number, "deadline"
            self._reach()
        for new in self._new():
            if new.is_new() and new.scope._cancel_called:
                new.cause = new.number, "joiner" if new.has_failure else "call"
                if not new.has_failure:
                    self._say(f"cancel {new.number}", "cancelled")
                self._reach()

    def _new(self):
        return [opened for opened in self._scopes.values() if opened.is_new()]

    def _reach(self):
        """Cancels reach the scopes inside, the outer ones first, up to shields."""
        for new in self._new():
            if new.around is not None and not new.shield:
                new.cause = new.around.cause


def _name(text):
    """The text as a name: 1 to 24 bytes of a-z, 0-9, '-', '_', '.', a letter first."""
    name = re.sub(r"[^a-z0-9._-]", "", text.lower()).lstrip("0123456789._-")[:24]
    return name or "unnamed"
