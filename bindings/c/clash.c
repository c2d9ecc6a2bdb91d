/*
 * Two threads work on one book, without a lock: a million calls. Each call does what it is asked alone, or answers
 * BALKREYN_BUSY and does nothing. So each task that was forked has a number of its own, as many as forks were answered.
 */
#include <balkreyn.h>

#include <pthread.h>
#include <stdio.h>
#include <stdlib.h>
#include <string.h>

#define CALLS 25000u
#define CHECK(it) ((it) ? (void)0 : (fprintf(stderr, "clash: line %d: %s\n", __LINE__, #it), exit(1)))

static balkreyn_book book = BALKREYN_BOOK;
static const uint8_t name[] = "job";

/* What one thread did. */
typedef struct worker {
    uint64_t seed;
    bool closes; /* it closes the book and opens it again, now and then */
    uint32_t forked, busy, tasks[8 * CALLS];
} worker;

static uint32_t any(worker *self, uint32_t below)
{
    self->seed ^= self->seed << 13;
    self->seed ^= self->seed >> 7;
    self->seed ^= self->seed << 17;
    return (uint32_t)(self->seed >> 32) % below;
}

/* An answer of a call: nothing is answered but what the header lists. */
static int64_t heard(worker *self, int64_t answer)
{
    CHECK(answer >= BALKREYN_BUSY);
    self->busy += answer == BALKREYN_BUSY;
    return answer;
}

static void fork_one(worker *self)
{
    int64_t answer = heard(self, balkreyn_fork(&book, 0, 1, name, 3));

    if (answer > 0)
        self->tasks[self->forked++] = BALKREYN_NUMBER(answer);
}

static void fork_some(worker *self)
{
    int64_t answers[8], count = heard(self, balkreyn_fork_many(&book, 0, 1, name, 3, answers, 1 + any(self, 8)));

    for (int64_t i = 0; i < count; i++)
        self->tasks[self->forked++] = BALKREYN_NUMBER(answers[i]);
}

static void look(worker *self)
{
    static const uint8_t line[] = "counts 1";
    uint8_t text[BALKREYN_REPLY_ROOM];
    balkreyn_counts counts;
    uint64_t moment;

    switch (any(self, 7)) {
    case 0: heard(self, balkreyn_counts_of(&book, 1, &counts)); break;
    case 1: heard(self, balkreyn_next_deadline(&book, &moment)); break;
    case 2: heard(self, balkreyn_around(&book, any(self, 100))); break;
    case 3: heard(self, balkreyn_is_cancelled(&book, any(self, 100))); break;
    case 4: heard(self, balkreyn_nth_cancelled(&book, 0)); break;
    case 5: (void)(any(self, 100) || heard(self, any(self, 2) ? balkreyn_dump(&book, text, sizeof text) : balkreyn_timed_journal(&book, 0, text, sizeof text))); break;
    default: heard(self, balkreyn_line(&book, line, sizeof line - 1, text, sizeof text)); break;
    }
}

static void *run(void *given)
{
    worker *self = given;
    balkreyn_news news;

    for (uint32_t i = 0; i < CALLS; i++) {
        switch (any(self, self->closes ? 9 : 8)) {
        case 0: fork_one(self); break;
        case 1: any(self, 8) ? fork_one(self) : fork_some(self); break;
        case 2: heard(self, balkreyn_start(&book, 1 + any(self, 1 + 2 * i))); break;
        case 3: heard(self, balkreyn_finish_told(&book, 1 + any(self, 1 + 2 * i), 1, &news)); break;
        case 4: heard(self, any(self, 2) ? balkreyn_tick(&book, i) : balkreyn_note(&book, i)); break;
        case 8:
            if (any(self, 200) == 0 && heard(self, balkreyn_book_close(&book)) == BALKREYN_DONE)
                while (balkreyn_book_open(&book, 1, BALKREYN_TASK_LIMIT, BALKREYN_LOAD_LIMIT) == BALKREYN_BUSY)
                    self->busy++;
            break;
        default: any(self, 50) ? look(self) : (void)heard(self, balkreyn_open(&book, 0, BALKREYN_AWAIT, 0, 0, 0)); break;
        }
    }
    return NULL;
}

static worker workers[2];

/* How many calls were busy. */
static uint32_t round_of(uint64_t number, bool closes)
{
    static bool seen[BALKREYN_TASK_LIMIT + 1];
    uint32_t busy = 0, forked = 0;
    pthread_t threads[2];

    memset(seen, 0, sizeof seen);
    CHECK(balkreyn_book_open(&book, 1, BALKREYN_TASK_LIMIT, BALKREYN_LOAD_LIMIT) == BALKREYN_DONE);
    CHECK(balkreyn_open(&book, 0, BALKREYN_AWAIT, 0, 0, 0) == 1);
    for (int i = 0; i < 2; i++) {
        workers[i] = (worker){.seed = 2 * number + (uint64_t)i + 1, .closes = closes};
        CHECK(pthread_create(&threads[i], NULL, run, &workers[i]) == 0);
    }
    for (int i = 0; i < 2; i++) {
        CHECK(pthread_join(threads[i], NULL) == 0);
        busy += workers[i].busy;
        forked += workers[i].forked;
        for (uint32_t j = 0; !closes && j < workers[i].forked; j++) {
            CHECK(!seen[workers[i].tasks[j]]);
            seen[workers[i].tasks[j]] = true;
        }
    }
    if (closes)
        CHECK(balkreyn_tasks(&book) >= 0);
    else
        CHECK(balkreyn_tasks(&book) == (int64_t)forked);
    CHECK(balkreyn_book_close(&book) == BALKREYN_DONE);
    return busy;
}

/* clash [ROUNDS]: 20 without it, a million calls. */
int main(int count, char **words)
{
    uint32_t busy = 0, rounds = count > 1 ? (uint32_t)atoi(words[1]) : 20;

    for (uint32_t number = 0; number < rounds; number++)
        busy += round_of(number, number % 2 == 1);
    printf("clash: %u calls of two threads without a lock, %u of them busy\n", 2 * CALLS * rounds, busy);
    return 0;
}
