/*
 * A realm from C while memory is refused: the same calls again and again, with the n-th request for memory refused,
 * for each n that there is. A call that is refused memory did nothing, and is accepted when it is made again; a
 * join is never refused it; and a line whose reply can't be told was performed, and was a join.
 *
 * Built as example.c is, with -Wl,--wrap=malloc,--wrap=realloc added.
 */
#include <balkreyn.h>

#include <stdio.h>
#include <stdlib.h>
#include <string.h>

#define CHECK(condition)                                                                     \
    do {                                                                                     \
        if (!(condition)) {                                                                  \
            fprintf(stderr, "%s:%d: not so at request %ld: %s\n", __FILE__, __LINE__, refused, #condition); \
            exit(1);                                                                         \
        }                                                                                    \
    } while (0)

#define MAIN 0u
#define TASKS 40

static long refused; /* which request of a run is refused */
static long left;    /* how many come before it */
static long answers; /* how many calls were refused memory, in all runs */
static long untold;  /* how many lines were performed and not told */

void *__real_malloc(size_t size);
void *__real_realloc(void *block, size_t size);

void *__wrap_malloc(size_t size)
{
    return left-- == 0 ? NULL : __real_malloc(size);
}

void *__wrap_realloc(void *block, size_t size)
{
    return left-- == 0 ? NULL : __real_realloc(block, size);
}

/* The call, which is made again where it was refused memory, answers this. */
#define DO(call, answer)                    \
    do {                                    \
        int64_t is = (call);                \
        if (is == BALKREYN_MEMORY) {        \
            answers++;                      \
            is = (call);                    \
        }                                   \
        CHECK(is == (int64_t)(answer));     \
    } while (0)

/* Performs the line, whose reply is this, or else that of the outcome of the scope. */
static void line(balkreyn_book *book, const char *text, const char *reply, uint32_t scope)
{
    uint8_t told[1024];
    int64_t is = balkreyn_line(book, (const uint8_t *)text, strlen(text), told, sizeof told);
    if (is == BALKREYN_MEMORY) {
        answers++;
        is = balkreyn_line(book, (const uint8_t *)text, strlen(text), told, sizeof told);
    }
    if (is == BALKREYN_UNTOLD) {
        untold++;
        CHECK(strncmp(text, "join", 4) == 0);
        is = balkreyn_outcome_line(book, scope, told, sizeof told);
    }
    CHECK(is == (int64_t)strlen(reply) && memcmp(told, reply, strlen(reply)) == 0);
}

/* One run, whose request of that number is refused: whether there was one. */
static bool run(void)
{
    balkreyn_book book = BALKREYN_BOOK;
    balkreyn_task tasks[TASKS];
    uint8_t told[2048];
    char all[1024] = "outcome all";
    left = refused;

    DO(balkreyn_book_open(&book, 8, 2 * TASKS, 1024), BALKREYN_DONE);
    DO(balkreyn_open(&book, MAIN, BALKREYN_ALL_OK, 0, BALKREYN_DEADLINE, 90), 1);
    for (uint32_t k = 1; k <= TASKS; k++) {
        DO(balkreyn_fork(&book, MAIN, 1, (const uint8_t *)"job", 3), k);
        CHECK(balkreyn_start(&book, k) == BALKREYN_DONE);
        CHECK(balkreyn_finish(&book, k, k) == BALKREYN_DONE);
        snprintf(all + strlen(all), sizeof all - strlen(all), " %u=%u", k, k);
    }
    strcat(all, "\n");
    CHECK(BALKREYN_KIND(balkreyn_join(&book, MAIN, 1)) == BALKREYN_ALL);
    DO(balkreyn_outcome_tasks(&book, 1, tasks, TASKS), TASKS);
    CHECK(tasks[TASKS - 1].task == TASKS && tasks[TASKS - 1].state == BALKREYN_SUCCESS);
    DO(balkreyn_outcome_line(&book, 1, told, sizeof told), strlen(all));
    CHECK(memcmp(told, all, strlen(all)) == 0);
    CHECK(balkreyn_begin_close(&book, MAIN, 1) == BALKREYN_DONE);
    CHECK(balkreyn_end_close(&book, MAIN, 1) == BALKREYN_DONE);

    line(&book, "open 0 all", "scope 2\n", 2);
    for (uint32_t k = TASKS + 1; k <= 2 * TASKS; k++) {
        char text[64], reply[64];
        snprintf(reply, sizeof reply, "task %u thread\n", k);
        line(&book, "fork 0 2 job", reply, 2);
        snprintf(text, sizeof text, "start %u", k);
        line(&book, text, "started\n", 2);
        snprintf(text, sizeof text, "ok %u %u", k, k - TASKS);
        line(&book, text, "finished\n", 2);
    }
    strcpy(all, "outcome all");
    for (uint32_t k = TASKS + 1; k <= 2 * TASKS; k++) {
        snprintf(all + strlen(all), sizeof all - strlen(all), " %u=%u", k, k - TASKS);
    }
    strcat(all, "\n");
    line(&book, "join 0 2", all, 2);
    CHECK(balkreyn_join(&book, MAIN, 2) == BALKREYN_ALREADY_JOINED);
    DO(balkreyn_note(&book, 5), BALKREYN_DONE);
    int64_t timed = balkreyn_timed_journal(&book, 9, told, sizeof told);
    CHECK(timed > 0 || timed == BALKREYN_MEMORY);
    int64_t dump = balkreyn_dump(&book, told, sizeof told);
    CHECK(dump > 0 || dump == BALKREYN_MEMORY);
    int64_t journal = balkreyn_journal(&book, told, sizeof told);
    CHECK(journal > 0 || journal == BALKREYN_MEMORY);
    line(&book, "close 0 2", "closing\n", 2);
    line(&book, "closed 0 2", "closed\n", 2);
    DO(balkreyn_retire(&book, MAIN), BALKREYN_DONE);
    bool some = left < 0;
    CHECK(balkreyn_book_close(&book) == BALKREYN_DONE);
    return some;
}

int main(void)
{
    while (run()) {
        refused++;
    }
    CHECK(refused > 0 && answers > 0 && untold > 0);
    printf("%ld requests, each refused once: %ld calls were refused memory, %ld lines were untold\n", refused, answers, untold);
    return 0;
}
