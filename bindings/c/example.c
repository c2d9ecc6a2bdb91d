/*
 * A realm from C: a scope with two tasks, its join, its outcome, the tree and the journal as text, the same by
 * lines, and calls after the close. Each answer is asserted. The tasks are played by this one thread: a host
 * starts a thread for each, and takes a lock around each call.
 *
 * Built at the top of the repository, once `rt lib` in crates/balkreyn_c has made the archive; KIT is the folder of
 * the Rattle kit:
 *
 *   cc -std=c11 -Wall -Wextra -g -fsanitize=address,undefined -I bindings/include bindings/c/example.c \
 *       crates/balkreyn_c/out/libbalkreyn_c.a KIT/c/liblibc_c.a -o example
 */
#include <balkreyn.h>

#include <stdio.h>
#include <stdlib.h>
#include <string.h>

#define CHECK(condition)                                                                     \
    do {                                                                                     \
        if (!(condition)) {                                                                  \
            fprintf(stderr, "%s:%d: not so: %s\n", __FILE__, __LINE__, #condition);          \
            exit(1);                                                                         \
        }                                                                                    \
    } while (0)

#define MAIN 0u
#define TEXT(text) (const uint8_t *)(text), strlen(text)

/* Whether the answer is the length of this text, which was written. */
static bool is_text(int64_t answer, const uint8_t *buffer, const char *text)
{
    return answer == (int64_t)strlen(text) && memcmp(buffer, text, strlen(text)) == 0;
}

/* The book is opened once, within its limits. */
static void opens(balkreyn_book *book)
{
    CHECK(balkreyn_abi() == BALKREYN_ABI);
    CHECK(balkreyn_state(book, 1) == BALKREYN_NO_REALM);
    CHECK(balkreyn_book_open(book, 0, 1, 1) == BALKREYN_BAD_ARGUMENT);
    CHECK(balkreyn_book_open(book, BALKREYN_SCOPE_LIMIT, BALKREYN_TASK_LIMIT, BALKREYN_LOAD_LIMIT) == BALKREYN_DONE);
    CHECK(balkreyn_book_open(book, 1, 1, 1) == BALKREYN_HAS_REALM);
}

/* Two tasks succeed, and the join answers them all. */
static void all_succeed(balkreyn_book *book)
{
    uint8_t text[64];
    int64_t number = 7;
    uint64_t moment = 7;
    balkreyn_counts counts;

    int64_t scope = balkreyn_open(book, MAIN, BALKREYN_ALL_OK, 0, BALKREYN_DEADLINE, 1000);
    CHECK(scope == 1);
    CHECK(balkreyn_open(book, MAIN, 99, 0, 0, 0) == BALKREYN_BAD_ARGUMENT);
    CHECK(balkreyn_open(book, MAIN, BALKREYN_UNTIL_OK, -1, 0, 0) == BALKREYN_BAD_ARGUMENT);
    CHECK(balkreyn_open(book, MAIN, BALKREYN_ALL_OK, 0, 8, 0) == BALKREYN_BAD_ARGUMENT);
    CHECK(balkreyn_bind(book, MAIN, TEXT("tenant"), 42) == BALKREYN_DONE);
    CHECK(balkreyn_fork(book, MAIN, 1, TEXT("fetch")) == BALKREYN_STRUCTURE);
    CHECK(balkreyn_unbind(book, MAIN) == BALKREYN_DONE);
    CHECK(balkreyn_fork(book, MAIN, 1, TEXT("Fetch")) == BALKREYN_BAD_ARGUMENT);
    CHECK(balkreyn_fork(book, MAIN, 1, TEXT("fetch")) == 1);
    CHECK(balkreyn_fork(book, MAIN, 1, TEXT("parse")) == 2);
    CHECK(balkreyn_fork(book, MAIN, 9, TEXT("fetch")) == BALKREYN_NO_SCOPE);
    CHECK(balkreyn_stage(book, 1) == BALKREYN_WAITING);
    CHECK(balkreyn_start(book, 1) == BALKREYN_DONE);
    CHECK(balkreyn_start(book, 2) == BALKREYN_DONE);
    CHECK(balkreyn_join(book, MAIN, 1) == BALKREYN_NOT_READY);
    CHECK(balkreyn_finish(book, 1, -5) == BALKREYN_DONE);
    CHECK(balkreyn_counts_of(book, 1, &counts) == 0);
    CHECK(counts.never == 0 && counts.waiting == 0 && counts.running == 1 && counts.finished == 1);
    CHECK(balkreyn_finish_text(book, 2, TEXT("done")) == BALKREYN_DONE);
    CHECK(balkreyn_finish(book, 2, 0) == BALKREYN_WRONG_STAGE);
    CHECK(balkreyn_until(book, 1, &moment) == BALKREYN_AT && moment == 1000);
    CHECK(balkreyn_next_deadline(book, &moment) == 1 && moment == 1000);

    CHECK(balkreyn_result(book, MAIN, 1, &number, text, sizeof text) == BALKREYN_NOT_JOINED && number == 7);
    int64_t outcome = balkreyn_join(book, MAIN, 1);
    CHECK(BALKREYN_KIND(outcome) == BALKREYN_ALL && BALKREYN_NUMBER(outcome) == 0);
    CHECK(balkreyn_outcome(book, 1) == outcome);
    CHECK(balkreyn_join(book, MAIN, 1) == BALKREYN_ALREADY_JOINED);
    CHECK(balkreyn_next_deadline(book, &moment) == 0 && moment == 1000);

    /* The list of the outcome: at first there is no room for it, and nothing is written. */
    balkreyn_task tasks[2] = {{0, 0}, {0, 0}};
    CHECK(balkreyn_outcome_tasks(book, 1, tasks, 1) == 2 && tasks[0].task == 0);
    CHECK(balkreyn_outcome_tasks(book, 1, tasks, 2) == 2);
    CHECK(tasks[0].task == 1 && tasks[0].state == BALKREYN_SUCCESS);
    CHECK(tasks[1].task == 2 && tasks[1].state == BALKREYN_SUCCESS);
    CHECK(is_text(balkreyn_outcome_line(book, 1, text, sizeof text), text, "outcome all 1=-5 2=done\n"));

    CHECK(balkreyn_task_at(book, 1, 1) == 2 && balkreyn_task_at(book, 1, 2) == 0);
    CHECK(balkreyn_state(book, 1) == BALKREYN_SUCCESS);
    CHECK(balkreyn_result(book, MAIN, 1, &number, text, sizeof text) == 0 && number == -5);
    CHECK(is_text(balkreyn_result(book, MAIN, 2, &number, text, sizeof text), text, "done"));
    CHECK(balkreyn_fault(book, MAIN, 2, text, sizeof text) == BALKREYN_NOT_FAILED);
    CHECK(balkreyn_begin_close(book, MAIN, 1) == BALKREYN_DONE);
    CHECK(balkreyn_begin_close(book, MAIN, 1) == BALKREYN_ALREADY);
    CHECK(balkreyn_end_close(book, MAIN, 1) == BALKREYN_DONE);
}

/* The first failure cancels the scope, whose late task gets no thread. */
static void one_fails(balkreyn_book *book)
{
    uint8_t text[64];
    int64_t number = 7;

    CHECK(balkreyn_bind_text(book, MAIN, TEXT("tenant"), TEXT("acme")) == BALKREYN_DONE);
    CHECK(balkreyn_open(book, MAIN, BALKREYN_AWAIT_OK, 0, BALKREYN_SHIELD, 0) == 2);
    CHECK(balkreyn_fork(book, MAIN, 2, TEXT("fetch")) == 3);
    CHECK(balkreyn_start(book, 3) == BALKREYN_DONE);
    CHECK(is_text(balkreyn_binding(book, 3, TEXT("tenant"), &number, text, sizeof text), text, "acme"));
    CHECK(balkreyn_binding(book, 3, TEXT("other"), &number, text, sizeof text) == BALKREYN_NOT_BOUND);
    CHECK(balkreyn_binding(book, 3, TEXT("?"), &number, text, sizeof text) == BALKREYN_BAD_ARGUMENT);
    CHECK(balkreyn_fail(book, 3, TEXT("io")) == BALKREYN_DONE);
    int64_t cause = balkreyn_cause(book, 2);
    CHECK(BALKREYN_KIND(cause) == BALKREYN_BY_JOINER && BALKREYN_NUMBER(cause) == 2);
    /* The close of scope 1 was the first cancel. */
    CHECK(balkreyn_nth_cancelled(book, 0) == 1 && balkreyn_nth_cancelled(book, 1) == 2 && balkreyn_nth_cancelled(book, 2) == 0);
    CHECK(balkreyn_cancel(book, 2) == BALKREYN_ALREADY);
    int64_t late = balkreyn_fork(book, MAIN, 2, TEXT("late"));
    CHECK(BALKREYN_KIND(late) == BALKREYN_NO_THREAD && BALKREYN_NUMBER(late) == 4);
    int64_t outcome = balkreyn_join(book, MAIN, 2);
    CHECK(BALKREYN_KIND(outcome) == BALKREYN_ONE_FAILED && BALKREYN_NUMBER(outcome) == 3);
    /* Where the room is too small, nothing is written, and the length is answered. */
    text[0] = 'x';
    CHECK(balkreyn_fault(book, MAIN, 3, text, 1) == 2 && text[0] == 'x');
    CHECK(is_text(balkreyn_fault(book, MAIN, 3, text, 2), text, "io"));
    CHECK(balkreyn_begin_close(book, MAIN, 2) == BALKREYN_DONE);
    CHECK(balkreyn_end_close(book, MAIN, 2) == BALKREYN_DONE);
    CHECK(balkreyn_unbind(book, MAIN) == BALKREYN_DONE);
}

/* A deadline passes, a scope is closed unjoined, and main lets the past go. */
static void time_passes(balkreyn_book *book)
{
    uint64_t moment = 0;

    CHECK(balkreyn_open(book, MAIN, BALKREYN_AWAIT, 0, 0, 0) == 3);
    CHECK(balkreyn_move(book, 3, 50) == BALKREYN_DONE);
    CHECK(balkreyn_move_never(book, 3) == BALKREYN_DONE);
    CHECK(balkreyn_until(book, 3, &moment) == BALKREYN_NO_DEADLINE && moment == 0);
    CHECK(balkreyn_move(book, 3, 50) == BALKREYN_DONE);
    CHECK(balkreyn_fork(book, MAIN, 3, TEXT("slow")) == 5);
    CHECK(balkreyn_reject(book, 5) == BALKREYN_DONE);
    CHECK(balkreyn_tick(book, 50) == BALKREYN_DONE);
    CHECK(balkreyn_tick(book, 49) == BALKREYN_CLOCK_BACK);
    CHECK(balkreyn_moment(book, &moment) == 0 && moment == 50);
    CHECK(BALKREYN_KIND(balkreyn_cause(book, 3)) == BALKREYN_BY_DEADLINE);
    CHECK(balkreyn_until(book, 3, &moment) == BALKREYN_PAST);
    CHECK(balkreyn_retire(book, MAIN) == BALKREYN_STRUCTURE);
    CHECK(balkreyn_begin_close(book, MAIN, 3) == BALKREYN_DONE);
    CHECK(balkreyn_end_close(book, MAIN, 3) == BALKREYN_UNJOINED);
    CHECK(balkreyn_scopes(book) == 3 && balkreyn_tasks(book) == 5);
    CHECK(balkreyn_retire(book, MAIN) == BALKREYN_DONE);
    CHECK(balkreyn_state(book, 5) == BALKREYN_RETIRED);
    CHECK(balkreyn_scopes(book) == 3 && balkreyn_tasks(book) == 5);
}

/* The tree and the journal go out as text, and the journal is a script. */
static void shows(balkreyn_book *book)
{
    uint8_t text[512];

    CHECK(balkreyn_open(book, MAIN, BALKREYN_ANY_OK, 0, 0, 0) == 4);
    CHECK(balkreyn_fork(book, MAIN, 4, TEXT("ask")) == 6);
    CHECK(is_text(balkreyn_dump(book, text, sizeof text), text,
                  "{\"moment\":50,\"root\":{\"cause\":null,\"deadline\":null,\"expiry\":\"fail\",\"id\":4,\"inner\":null,"
                  "\"joined\":false,\"joiner\":\"any\",\"owner\":0,\"shield\":false,\"stage\":\"open\",\"tasks\":["
                  "{\"id\":6,\"inner\":null,\"name\":\"ask\",\"stage\":\"waiting\",\"state\":\"unavailable\"}]}}"));
    CHECK(is_text(balkreyn_journal(book, text, sizeof text), text, "tick 50\nretire 0\nopen 0 any\nfork 0 1 ask\n"));
    CHECK(balkreyn_dump(book, text, 0) > 0 && text[0] == 't');
}

/* Events have the times that were noted, and a retirement takes them away. */
static void has_times(balkreyn_book *book)
{
    uint8_t text[512];

    CHECK(balkreyn_note(book, 70) == BALKREYN_DONE && balkreyn_note(book, 69) == BALKREYN_CLOCK_BACK);
    CHECK(balkreyn_start(book, 6) == BALKREYN_DONE && balkreyn_note(book, 90) == BALKREYN_DONE);
    CHECK(balkreyn_note(book, 100) == BALKREYN_DONE && balkreyn_note(book, 90) == BALKREYN_DONE);
    CHECK(balkreyn_bind(book, 6, TEXT("key"), 1) == BALKREYN_DONE);
    CHECK(is_text(balkreyn_timed_journal(book, 120, text, sizeof text), text,
                  "tick 50\nretire 0\n# at 70\nopen 0 any\nfork 0 1 ask\n# at 90\nstart 1\nbind 1 key 1\n# at 120\n"));
    CHECK(balkreyn_unbind(book, 6) == BALKREYN_DONE && balkreyn_note(book, 120) == BALKREYN_DONE);
    CHECK(is_text(balkreyn_journal(book, text, sizeof text), text,
                  "tick 50\nretire 0\nopen 0 any\nfork 0 1 ask\nstart 1\nbind 1 key 1\nunbind 1\n"));
}

/* The same realm by lines. */
static void goes_by_lines(balkreyn_book *book)
{
    uint8_t reply[BALKREYN_REPLY_ROOM];

#define LINE(line) balkreyn_line(book, TEXT(line), reply, sizeof reply)
    CHECK(LINE("") == 0 && LINE("# a comment") == 0);
    CHECK(is_text(LINE("what"), reply, "refused 18 bad-word\n"));
    CHECK(is_text(LINE("start 6"), reply, "refused 8 wrong-stage\n"));
    CHECK(is_text(LINE("open 6 until:ok:2 shield"), reply, "scope 5\n"));
    CHECK(is_text(LINE("fork 6 5 sub"), reply, "task 7 thread\n"));
    CHECK(is_text(LINE("start 7"), reply, "started\n"));
    CHECK(is_text(LINE("ok 7 12"), reply, "finished\n"));
    CHECK(is_text(LINE("join 6 5"), reply, "outcome list 7=ok:12\n"));
    CHECK(is_text(LINE("result 6 7"), reply, "value 12\n"));
    CHECK(is_text(LINE("close 6 5"), reply, "closing\n"));
    CHECK(is_text(LINE("close 6 5"), reply, "already\n"));
    CHECK(is_text(LINE("closed 6 5"), reply, "closed\n"));
    CHECK(is_text(LINE("ok 6 12"), reply, "finished\n"));
    CHECK(is_text(LINE("tick 60"), reply, "moment 60\n"));
    CHECK(is_text(LINE("join 0 4"), reply, "outcome any 6=12\n"));
    CHECK(is_text(LINE("counts 4"), reply, "counts never=0 waiting=0 running=0 finished=1\n"));
    /* A line is performed whether there is room for its reply or not. */
    CHECK(balkreyn_line(book, TEXT("cancel 4"), reply, 0) == (int64_t)strlen("already\n"));
    CHECK(is_text(LINE("close 0 4"), reply, "closing\n"));
    CHECK(is_text(LINE("closed 0 4"), reply, "closed\n"));
    CHECK(is_text(LINE("retire 0"), reply, "retired 5 7\n"));
    CHECK(balkreyn_note(book, 7) == BALKREYN_DONE); /* times begin anew */
    CHECK(is_text(balkreyn_timed_journal(book, 7, reply, sizeof reply), reply, "tick 60\nretire 0\n# at 7\n"));
#undef LINE
}

/* Who is cancelled, by which scope; a batch; an end with its news. */
static void hears(balkreyn_book *book)
{
    int64_t answers[3] = {7, 7, 7};
    balkreyn_news news = {.scope = 7};
    uint64_t moment = 0;

    CHECK(balkreyn_around(book, MAIN) == 0 && balkreyn_is_cancelled(book, MAIN) == 0);
    CHECK(balkreyn_around(book, 1) == BALKREYN_RETIRED && balkreyn_is_cancelled(book, 99) == BALKREYN_NO_TASK);
    CHECK(balkreyn_open(book, MAIN, BALKREYN_AWAIT_OK, 0, 0, 0) == 6);
    CHECK(balkreyn_open(book, MAIN, BALKREYN_AWAIT, 0, BALKREYN_DEADLINE, 99) == 7);
    CHECK(balkreyn_around(book, MAIN) == 7);
    CHECK(balkreyn_fork_many(book, MAIN, 6, TEXT("Fetch"), answers, 3) == BALKREYN_BAD_ARGUMENT && answers[0] == 7);
    CHECK(balkreyn_fork_many(book, MAIN, 6, TEXT("fetch"), answers, 0) == 0);
    CHECK(balkreyn_fork_many(book, MAIN, 6, TEXT("fetch"), answers, 2) == 2);
    CHECK(answers[0] == 8 && answers[1] == 9 && answers[2] == 7);
    CHECK(balkreyn_fork_many(book, MAIN, 9, TEXT("fetch"), answers, 2) == 0 && answers[0] == BALKREYN_NO_SCOPE && answers[1] == 9);
    CHECK(balkreyn_around(book, 8) == 6 && balkreyn_start(book, 8) == BALKREYN_DONE && balkreyn_start(book, 9) == BALKREYN_DONE);
    CHECK(balkreyn_open(book, 8, BALKREYN_AWAIT, 0, BALKREYN_SHIELD, 0) == 8 && balkreyn_around(book, 8) == 8);

    CHECK(balkreyn_fail_told(book, 9, TEXT("IO"), &news) == BALKREYN_BAD_ARGUMENT && news.scope == 7);
    CHECK(balkreyn_finish_told(book, 8, 1, &news) == BALKREYN_STRUCTURE && news.scope == 7);
    CHECK(balkreyn_next_deadline(book, &moment) == 1 && moment == 99);
    CHECK(balkreyn_fail_told(book, 9, TEXT("io"), &news) == BALKREYN_DONE);
    /* Scope 7 is cancelled with the one around it, so its deadline can do nothing more. */
    CHECK(news.scope == 6 && !news.quiet && news.cancelled == 2 && !news.comes);
    CHECK(balkreyn_next_deadline(book, &moment) == 0);
    CHECK(balkreyn_nth_cancelled(book, 0) == 6 && balkreyn_nth_cancelled(book, 1) == 7);
    CHECK(BALKREYN_KIND(balkreyn_is_cancelled(book, MAIN)) == BALKREYN_BY_JOINER && BALKREYN_NUMBER(balkreyn_is_cancelled(book, 9)) == 6);
    /* The shield holds for who opened it, and once it is closed no more. */
    CHECK(balkreyn_is_cancelled(book, 8) == 0);
    CHECK(balkreyn_begin_close(book, 8, 8) == BALKREYN_DONE && balkreyn_end_close(book, 8, 8) == BALKREYN_DONE);
    CHECK(balkreyn_around(book, 8) == 6 && BALKREYN_KIND(balkreyn_is_cancelled(book, 8)) == BALKREYN_BY_JOINER);
    CHECK(balkreyn_finish_told(book, 8, 1, &news) == BALKREYN_DONE && news.quiet && news.cancelled == 3);

    /* While a call works on the book, another does nothing. */
    uint64_t word = book->word;
    book->word = 2;
    CHECK(balkreyn_scopes(book) == BALKREYN_BUSY && balkreyn_cancel(book, 6) == BALKREYN_BUSY);
    CHECK(balkreyn_book_open(book, 1, 1, 1) == BALKREYN_BUSY && balkreyn_book_close(book) == BALKREYN_BUSY && book->word == 2);
    book->word = word;
    CHECK(balkreyn_scopes(book) == 8);
}

/* After the close each call answers that there is no realm, and touches nothing. */
static void closes(balkreyn_book *book)
{
    uint64_t moment = 7;

    CHECK(balkreyn_book_close(book) == BALKREYN_DONE);
    CHECK(balkreyn_book_close(book) == BALKREYN_NO_REALM);
    CHECK(balkreyn_open(book, MAIN, BALKREYN_ALL_OK, 0, 0, 0) == BALKREYN_NO_REALM);
    CHECK(balkreyn_fork(book, MAIN, 1, TEXT("?")) == BALKREYN_NO_REALM);
    CHECK(balkreyn_join(book, MAIN, 1) == BALKREYN_NO_REALM);
    CHECK(balkreyn_moment(book, &moment) == BALKREYN_NO_REALM && moment == 7);
    int64_t answer = 7;
    CHECK(balkreyn_fork_many(book, MAIN, 1, TEXT("fetch"), &answer, 1) == BALKREYN_NO_REALM && answer == 7);
    CHECK(balkreyn_around(book, MAIN) == BALKREYN_NO_REALM && balkreyn_is_cancelled(book, MAIN) == BALKREYN_NO_REALM);
    uint8_t text[] = "as it is";
    CHECK(balkreyn_line(book, TEXT("tick 1"), text, sizeof text) == BALKREYN_NO_REALM);
    CHECK(balkreyn_dump(book, text, sizeof text) == BALKREYN_NO_REALM);
    CHECK(memcmp(text, "as it is", sizeof text) == 0);
}

/* The journal of a realm at its limit of load plays on a realm of the same limits, and leaves the same journal there. */
static void plays_again(void)
{
    balkreyn_book full = BALKREYN_BOOK, fresh = BALKREYN_BOOK;
    uint8_t journal[256], text[256];

    CHECK(balkreyn_book_open(&full, 1, 1, 6) == BALKREYN_DONE && balkreyn_book_open(&fresh, 1, 1, 6) == BALKREYN_DONE);
    CHECK(balkreyn_open(&full, MAIN, BALKREYN_ANY_OK, 0, 0, 0) == 1);
    CHECK(balkreyn_begin_close(&full, MAIN, 1) == BALKREYN_DONE);
    CHECK(balkreyn_end_close(&full, MAIN, 1) == BALKREYN_DONE);
    CHECK(balkreyn_bind(&full, MAIN, TEXT("one"), 1) == BALKREYN_DONE && balkreyn_tick(&full, 9) == BALKREYN_DONE);
    CHECK(balkreyn_retire(&full, MAIN) == BALKREYN_DONE);
    CHECK(balkreyn_bind(&full, MAIN, TEXT("two"), 2) == BALKREYN_DONE);
    CHECK(balkreyn_open(&full, MAIN, BALKREYN_ANY_OK, 0, 0, 0) == 2);
    CHECK(balkreyn_tick(&full, 10) == BALKREYN_TOO_MANY);
    int64_t length = balkreyn_journal(&full, journal, sizeof journal);
    CHECK(is_text(length, journal, "tick 9\nretire 0\nbind 0 one 1\nretire 0\nbind 0 two 2\nopen 0 any\n"));
    for (const uint8_t *line = journal; line < journal + length;) {
        size_t size = (size_t)((const uint8_t *)strchr((const char *)line, '\n') - line);
        CHECK(balkreyn_line(&fresh, line, size, text, sizeof text) > 0 && memcmp(text, "refused", 7) != 0);
        line += size + 1;
    }
    CHECK(balkreyn_journal(&fresh, text, sizeof text) == length && memcmp(text, journal, (size_t)length) == 0);
    CHECK(balkreyn_book_close(&full) == BALKREYN_DONE && balkreyn_book_close(&fresh) == BALKREYN_DONE);
}

int main(void)
{
    balkreyn_book book = BALKREYN_BOOK;

    opens(&book);
    all_succeed(&book);
    one_fails(&book);
    time_passes(&book);
    shows(&book);
    has_times(&book);
    goes_by_lines(&book);
    hears(&book);
    closes(&book);
    plays_again();
    /* A closed book can be opened again. */
    CHECK(balkreyn_book_open(&book, 1, 1, 16) == BALKREYN_DONE);
    CHECK(balkreyn_book_close(&book) == BALKREYN_DONE);
    puts("all as it should be");
    return 0;
}
