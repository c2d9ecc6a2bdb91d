/*
 * Scopes on POSIX threads: each task has a thread, which opens a scope of its own, and each call is made under one
 * lock. Two realms run side by side, each under its own lock. An argument says how many rounds.
 *
 * Built as example.c is, with -D_POSIX_C_SOURCE=200809L -pthread -fsanitize=thread instead. ThreadSanitizer doesn't
 * see what the library itself reads and writes. Helgrind of Valgrind does: it takes the program without a sanitizer,
 * with --suppressions=pthread.supp.
 */
#include <balkreyn.h>

#include <pthread.h>
#include <stdio.h>
#include <stdlib.h>
#include <string.h>

#define CHECK(condition)                                                                     \
    do {                                                                                     \
        if (!(condition)) {                                                                  \
            fprintf(stderr, "%s:%d: not so: %s\n", __FILE__, __LINE__, #condition);          \
            exit(1);                                                                         \
        }                                                                                    \
    } while (0)

#define MAIN 0u
#define REALMS 2
#define WIDTH 4
#define DEPTH 3

typedef struct realm {
    pthread_mutex_t lock;
    pthread_cond_t ended; /* a task ended, or a scope was cancelled */
    balkreyn_book book;
    uint64_t moment;
    long joins;
} realm;

typedef struct job {
    realm *realm;
    uint32_t task;
    uint32_t scope; /* in which the task was forked */
    uint32_t seed;
    int depth;
    pthread_t thread;
    bool has_thread;
} job;

static uint32_t rounds = 60;

static uint32_t next(uint32_t *seed)
{
    *seed = *seed * 1664525u + 1013904223u;
    return *seed >> 8;
}

static void tree(realm *r, uint32_t actor, uint32_t seed, int depth);

/* A task: it starts, opens a scope, and ends with a number or a fault. */
static void *run(void *given)
{
    job *j = given;
    realm *r = j->realm;
    uint32_t chance = next(&j->seed) % 6;

    pthread_mutex_lock(&r->lock);
    CHECK(balkreyn_start(&r->book, j->task) == BALKREYN_DONE);
    pthread_mutex_unlock(&r->lock);
    if (j->depth > 0)
        tree(r, j->task, j->seed, j->depth - 1);
    pthread_mutex_lock(&r->lock);
    if (chance == 0) {
        int64_t answer = balkreyn_cancel(&r->book, j->scope);
        CHECK(answer >= 0 || answer == BALKREYN_CLOSED); /* its owner may be closing it */
    }
    if (chance == 1)
        CHECK(balkreyn_tick(&r->book, ++r->moment) == BALKREYN_DONE);
    if (chance == 2)
        CHECK(balkreyn_fail(&r->book, j->task, (const uint8_t *)"fault", 5) == BALKREYN_DONE);
    else
        CHECK(balkreyn_finish(&r->book, j->task, chance) == BALKREYN_DONE);
    pthread_cond_broadcast(&r->ended);
    pthread_mutex_unlock(&r->lock);
    return NULL;
}

/* A scope of some tasks, which the actor joins and closes. */
static void tree(realm *r, uint32_t actor, uint32_t seed, int depth)
{
    job jobs[WIDTH];
    balkreyn_task list[WIDTH];
    uint8_t line[BALKREYN_REPLY_ROOM];
    uint64_t deadline;
    int64_t answer;

    pthread_mutex_lock(&r->lock);
    deadline = r->moment + 1 + next(&seed) % 20;
    answer = balkreyn_open(&r->book, actor, next(&seed) % 4, 0, next(&seed) % 2 ? BALKREYN_DEADLINE : 0, deadline);
    CHECK(answer > 0);
    uint32_t scope = BALKREYN_NUMBER(answer);
    for (int i = 0; i < WIDTH; i++) {
        answer = balkreyn_fork(&r->book, actor, scope, (const uint8_t *)"job", 3);
        CHECK(answer > 0);
        jobs[i] = (job){.realm = r, .task = BALKREYN_NUMBER(answer), .scope = scope, .seed = next(&seed), .depth = depth};
        jobs[i].has_thread = BALKREYN_KIND(answer) != BALKREYN_NO_THREAD;
        pthread_mutex_unlock(&r->lock);
        if (jobs[i].has_thread)
            CHECK(pthread_create(&jobs[i].thread, NULL, run, &jobs[i]) == 0);
        pthread_mutex_lock(&r->lock);
    }
    while ((answer = balkreyn_join(&r->book, actor, scope)) == BALKREYN_NOT_READY)
        pthread_cond_wait(&r->ended, &r->lock);
    CHECK(answer > 0);
    r->joins++;
    CHECK(balkreyn_outcome_tasks(&r->book, scope, list, WIDTH) >= 0);
    CHECK(balkreyn_outcome_line(&r->book, scope, line, sizeof line) > 0);
    CHECK(balkreyn_begin_close(&r->book, actor, scope) == BALKREYN_DONE);
    pthread_mutex_unlock(&r->lock);
    for (int i = 0; i < WIDTH; i++)
        if (jobs[i].has_thread)
            CHECK(pthread_join(jobs[i].thread, NULL) == 0);
    pthread_mutex_lock(&r->lock);
    pthread_cond_broadcast(&r->ended);
    CHECK(balkreyn_end_close(&r->book, actor, scope) == BALKREYN_DONE);
    pthread_mutex_unlock(&r->lock);
}

/* One realm, which lets its past go after each round. */
static void *serve(void *given)
{
    realm *r = given;

    for (uint32_t round = 0; round < rounds; round++) {
        tree(r, MAIN, round * 7919u + 1, round % DEPTH);
        pthread_mutex_lock(&r->lock);
        CHECK(balkreyn_retire(&r->book, MAIN) == BALKREYN_DONE);
        pthread_mutex_unlock(&r->lock);
    }
    return NULL;
}

int main(int count, char **words)
{
    static realm realms[REALMS];
    pthread_t threads[REALMS];
    long joins = 0;

    if (count > 1)
        rounds = (uint32_t)strtoul(words[1], NULL, 10);
    for (int i = 0; i < REALMS; i++) {
        realms[i] = (realm){.lock = PTHREAD_MUTEX_INITIALIZER, .ended = PTHREAD_COND_INITIALIZER, .book = BALKREYN_BOOK};
        CHECK(balkreyn_book_open(&realms[i].book, BALKREYN_SCOPE_LIMIT, BALKREYN_TASK_LIMIT, BALKREYN_LOAD_LIMIT) == BALKREYN_DONE);
        CHECK(pthread_create(&threads[i], NULL, serve, &realms[i]) == 0);
    }
    for (int i = 0; i < REALMS; i++) {
        CHECK(pthread_join(threads[i], NULL) == 0);
        joins += realms[i].joins;
        CHECK(balkreyn_book_close(&realms[i].book) == BALKREYN_DONE);
    }
    printf("%d realms on threads: %ld joins\n", REALMS, joins);
    return 0;
}
