import java.util.IdentityHashMap;
import java.util.Map;
import java.util.concurrent.Callable;
import java.util.concurrent.StructuredTaskScope.Joiner;
import java.util.concurrent.StructuredTaskScope.Subtask;

/**
 * A joiner that notes what a scope of {@code StructuredTaskScope} does (JEP 505, Java 25 with {@code --enable-preview}).
 * The journal is a script, of which {@code scopectl replay --strict} refuses no line.
 *
 * <pre>{@code
 *     var journal = new Journal();
 *     try (var noted = new JournalJoiner<>(journal, "await-ok", Joiner.<Integer>awaitAllSuccessfulOrThrow());
 *          var scope = StructuredTaskScope.open(noted)) {
 *         scope.fork(noted.task("shop", () -> ask(shop)));
 *         scope.join();
 *     }
 * }</pre>
 *
 * The word is that of the joiner: {@code all}, {@code any}, {@code await} or {@code await-ok}. The noted joiner stands
 * before its scope, so that it is closed after it. What it does not hear is in the README of bindings/conformance.
 */
final class JournalJoiner<T, R> implements Joiner<T, R>, AutoCloseable {
    /** A task: its number and name, and how far the journal has it. */
    private static final class Forked {
        final String name;
        int number;
        boolean isSilent, hasStarted, hasEnded;

        Forked(String name) {
            this.name = name;
        }
    }

    private final Journal journal;
    private final Joiner<T, R> joiner;
    private final JournalJoiner<?, ?> around;
    private final int actor, scope;
    /** Whether this was opened by a task that, by the rules, never runs. */
    private final boolean isSilent;
    private final Map<Subtask<? extends T>, Forked> tasks = new IdentityHashMap<>();
    /** What {@link #task} made and the owner has not forked yet. */
    private Forked next;
    private boolean isCancelled;

    JournalJoiner(Journal journal, String word, Joiner<T, R> joiner) {
        this.journal = journal;
        this.joiner = joiner;
        synchronized (journal) {
            actor = journal.actor.get();
            around = journal.innermost.get();
            isSilent = journal.isSilent.get();
            scope = isSilent ? 0 : ++journal.scopes;
            say("open " + actor + " " + word);
        }
        journal.innermost.set(this);
    }

    /** The task with a name (see docs/SCRIPT.md), which the owner forks at once. It notes its start, and acts as itself. */
    <U extends T> Callable<U> task(String name, Callable<? extends U> body) {
        var task = new Forked(name);
        next = task;
        return () -> {
            journal.actor.set(task.number);
            journal.isSilent.set(task.isSilent);
            journal.innermost.set(this);
            synchronized (journal) {
                start(task);
            }
            return body.call();
        };
    }

    @Override
    public boolean onFork(Subtask<? extends T> subtask) {
        synchronized (journal) {
            var task = next == null ? new Forked("task") : next;
            next = null;
            task.number = isSilent ? 0 : ++journal.tasks;
            // By the rules it never runs then. In Java it does if only a scope around this one is cancelled.
            task.isSilent = isSilent || isCancelled();
            tasks.put(subtask, task);
            say("fork " + actor + " " + scope + " " + task.name);
            boolean cancels = joiner.onFork(subtask);
            isCancelled |= cancels;
            return cancels;
        }
    }

    /** The lock is held while the joiner hears of the end, so that the journal has the ends in the joiner's order. */
    @Override
    public boolean onComplete(Subtask<? extends T> subtask) {
        synchronized (journal) {
            var task = tasks.get(subtask);
            start(task);
            switch (subtask.state()) {
                case SUCCESS -> end(task, "ok", Journal.value(subtask.get()));
                case FAILED -> end(task, "fail", Journal.name(subtask.exception()));
                case UNAVAILABLE -> throw new IllegalStateException();
            }
            boolean cancels = joiner.onComplete(subtask);
            isCancelled |= cancels;
            return cancels;
        }
    }

    @Override
    public R result() throws Throwable {
        synchronized (journal) {
            say("join " + actor + " " + scope);
        }
        return joiner.result();
    }

    /** After the scope: its threads have ended, and what they ended with once it was cancelled counts for nothing. */
    @Override
    public void close() {
        synchronized (journal) {
            say("close " + actor + " " + scope);
            for (var task : tasks.values()) {
                if (task.hasStarted) {
                    end(task, "fail", "cancelled");
                } else if (!task.isSilent) {
                    say("reject " + task.number);
                }
            }
            say("closed " + actor + " " + scope);
        }
        journal.innermost.set(around);
    }

    private boolean isCancelled() {
        return isCancelled || (around != null && around.isCancelled());
    }

    private void start(Forked task) {
        if (!task.isSilent && !task.hasStarted) {
            task.hasStarted = true;
            say("start " + task.number);
        }
    }

    private void end(Forked task, String word, String end) {
        if (!task.isSilent && !task.hasEnded) {
            task.hasEnded = true;
            say(word + " " + task.number + " " + end);
        }
    }

    private void say(String line) {
        if (!isSilent) {
            journal.say(line);
        }
    }
}
