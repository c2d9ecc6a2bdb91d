import java.util.concurrent.StructuredTaskScope;
import java.util.concurrent.StructuredTaskScope.Joiner;

/** Prints the journal of a few scopes: {@code java --enable-preview --source 25 Demo.java}. */
final class Demo {
    private static final Journal JOURNAL = new Journal();

    private static int shop(int price, int delay) throws InterruptedException {
        Thread.sleep(delay);
        if (price < 0) {
            throw new IllegalArgumentException("sold out");
        }
        return price;
    }

    /** The first price cancels the rest. */
    private static Integer first() throws InterruptedException {
        try (var noted = new JournalJoiner<>(JOURNAL, "any", Joiner.<Integer>anySuccessfulResultOrThrow());
                var scope = StructuredTaskScope.open(noted)) {
            scope.fork(noted.task("slow", () -> shop(20, 10_000)));
            scope.fork(noted.task("sold-out", () -> shop(-1, 5)));
            scope.fork(noted.task("quick", () -> shop(30, 20)));
            return scope.join();
        }
    }

    /** A failure, with a scope in the scope. */
    private static void allOrFail() throws InterruptedException {
        try (var noted = new JournalJoiner<>(JOURNAL, "await-ok", Joiner.<Integer>awaitAllSuccessfulOrThrow());
                var scope = StructuredTaskScope.open(noted)) {
            scope.fork(noted.task("nested", Demo::first));
            scope.fork(noted.task("sold-out", () -> shop(-1, 50)));
            scope.join();
        } catch (StructuredTaskScope.FailedException failed) {
            System.err.println(failed.getCause().getMessage());
        }
    }

    public static void main(String[] arguments) throws InterruptedException {
        first();
        allOrFail();
        System.out.print(JOURNAL.text());
    }
}
