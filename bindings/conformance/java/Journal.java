import java.util.Locale;

/** The journal of a program: lines of a script, in the order of its lock. */
final class Journal {
    private final StringBuilder lines = new StringBuilder();
    /** Who acts on this thread: 0 is main, and k is task k. */
    final ThreadLocal<Integer> actor = ThreadLocal.withInitial(() -> 0);
    /** Whether this thread runs a task that, by the rules, never runs. */
    final ThreadLocal<Boolean> isSilent = ThreadLocal.withInitial(() -> false);
    /** The innermost scope around this thread. */
    final ThreadLocal<JournalJoiner<?, ?>> innermost = new ThreadLocal<>();
    int scopes, tasks;

    /** Adds a line. The caller holds the lock. */
    void say(String line) {
        lines.append(line).append('\n');
    }

    /** The journal so far. */
    synchronized String text() {
        return lines.toString();
    }

    /** The value as a script has it: a whole number, or 0 for all else. */
    static String value(Object value) {
        return value instanceof Integer || value instanceof Long ? value.toString() : "0";
    }

    /** The name of the exception's class, as a script takes it. */
    static String name(Throwable exception) {
        var name = exception.getClass().getSimpleName().toLowerCase(Locale.ROOT).replaceAll("[^a-z0-9]", "");
        name = name.substring(0, Math.min(24, name.length()));
        return name.matches("[a-z].*") ? name : "failed";
    }
}
