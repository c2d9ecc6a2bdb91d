/*
 * Task scopes on POSIX threads over balkreyn.h: who opens, forks, joins, sleeps, cancels and closes needs no lock, clock or
 * wait of its own. Everything here is `static inline`, and keeps to one way to wait (bindings/README.md, "How to wait").
 *
 *     bh_realm realm; bh_scope scope; bh_task tasks[3];
 *     bh_begin(&realm);
 *     bh_open(&realm.main, &scope, BALKREYN_ANY_OK, 0, BALKREYN_DEADLINE, 300);
 *     for (int i = 0; i < 3; i++) bh_fork(&scope, &tasks[i], ask, shops[i]);
 *     int64_t outcome = bh_join(&scope);
 *     bh_close(&scope);
 *     bh_end(&realm);
 *
 * Scopes and tasks lie where the caller puts them, until the scope is closed. Numbers and refusals are those of balkreyn.h.
 * This file is tested, not proved. Build with -D_POSIX_C_SOURCE=200809L -pthread.
 */
#ifndef BALKREYN_HOST_H
#define BALKREYN_HOST_H

#include <balkreyn.h>

#include <pthread.h>
#include <time.h>

typedef struct bh_realm bh_realm;
typedef struct bh_scope bh_scope;
typedef struct bh_task bh_task;

/* Who acts: main of a realm, or a task. The realm knows the scopes that it is in. */
typedef struct bh_actor {
    bh_realm *realm;
    uint32_t number;
} bh_actor;

/* What a task does. It gives its value, which is 0 or above, or a number below 0 if it failed. */
typedef int64_t bh_job(bh_actor *self, void *given);

struct bh_realm {
    pthread_mutex_t lock;
    pthread_cond_t bell; /* a task ended, a scope was cancelled, or a deadline was set */
    struct timespec began;
    uint64_t at; /* the clock's last reading: events that are not noted yet came then */
    balkreyn_book book;
    bh_actor main;
};

struct bh_scope {
    bh_actor *owner;
    bh_task *tasks; /* the last one forked; each knows the one before */
    uint32_t number;
};

struct bh_task {
    bh_actor self;
    bh_task *before;
    bh_job *job;
    void *given;
    pthread_t thread;
    bool has_thread;
};

/* Begins a realm, of which the calling thread is main: BALKREYN_DONE, or BALKREYN_MEMORY. */
static inline int64_t bh_begin(bh_realm *realm)
{
    pthread_condattr_t by_clock;

    *realm = (bh_realm){.book = BALKREYN_BOOK};
    realm->main = (bh_actor){.realm = realm};
    clock_gettime(CLOCK_MONOTONIC, &realm->began);
    pthread_mutex_init(&realm->lock, NULL);
    pthread_condattr_init(&by_clock);
    pthread_condattr_setclock(&by_clock, CLOCK_MONOTONIC);
    pthread_cond_init(&realm->bell, &by_clock);
    pthread_condattr_destroy(&by_clock);
    return balkreyn_book_open(&realm->book, BALKREYN_SCOPE_LIMIT, BALKREYN_TASK_LIMIT, BALKREYN_LOAD_LIMIT);
}

/* Ends a realm of which every scope is closed. */
static inline void bh_end(bh_realm *realm)
{
    balkreyn_book_close(&realm->book);
    pthread_cond_destroy(&realm->bell);
    pthread_mutex_destroy(&realm->lock);
}

/* Milliseconds since the realm began. */
static inline uint64_t bh_now(const bh_realm *realm)
{
    struct timespec now;

    clock_gettime(CLOCK_MONOTONIC, &now);
    return (uint64_t)(now.tv_sec - realm->began.tv_sec) * 1000u + (uint64_t)((now.tv_nsec - realm->began.tv_nsec) / 1000000);
}

/* With the lock held: reads the clock, passes the deadlines that are due, and wakes who waits for what they cancel. */
static inline void bh_pass(bh_realm *realm)
{
    uint64_t next, now = bh_now(realm);

    if (now != realm->at && balkreyn_note(&realm->book, realm->at) == BALKREYN_DONE)
        realm->at = now;
    if (balkreyn_next_deadline(&realm->book, &next) == 1 && next <= now && balkreyn_tick(&realm->book, now) == BALKREYN_DONE)
        pthread_cond_broadcast(&realm->bell);
}

/* Takes the lock, with every deadline passed that is due. */
static inline balkreyn_book *bh_lock(bh_realm *realm)
{
    pthread_mutex_lock(&realm->lock);
    bh_pass(realm);
    return &realm->book;
}

/* Gives the lock back, and wakes who waits: what was done may be what they wait for. */
static inline int64_t bh_unlock(bh_realm *realm, int64_t answer)
{
    pthread_cond_broadcast(&realm->bell);
    pthread_mutex_unlock(&realm->lock);
    return answer;
}

/* With the lock held: the one way to wait. It ends by a ring, by the realm's next deadline, or at the moment. */
static inline void bh_wait(bh_realm *realm, uint64_t moment)
{
    uint64_t next;

    if (balkreyn_next_deadline(&realm->book, &next) == 1 && next < moment)
        moment = next;
    if (moment == UINT64_MAX) {
        pthread_cond_wait(&realm->bell, &realm->lock);
    } else {
        /* a deadline that is due and still stands was refused by the limit of load: it is tried again soon */
        uint64_t now = bh_now(realm), after = (moment > now ? moment : now + 1) + (uint64_t)realm->began.tv_nsec / 1000000u + 1;
        struct timespec until = {realm->began.tv_sec + (time_t)(after / 1000u), (long)(after % 1000u) * 1000000L};
        pthread_cond_timedwait(&realm->bell, &realm->lock, &until);
    }
    bh_pass(realm);
}

/* Opens a scope, of which the caller is the actor; with BALKREYN_DEADLINE it has so many milliseconds from now. Its number. */
static inline int64_t bh_open(bh_actor *actor, bh_scope *scope, uint32_t joiner, int64_t bound, uint32_t flags, uint64_t within)
{
    balkreyn_book *book = bh_lock(actor->realm);
    int64_t answer = balkreyn_open(book, actor->number, joiner, bound, flags, bh_now(actor->realm) + within + (within > 0));

    if (answer > 0)
        *scope = (bh_scope){.owner = actor, .number = (uint32_t)answer};
    bh_pass(actor->realm);
    return bh_unlock(actor->realm, answer);
}

/* Whether the actor's innermost scope is cancelled: 0, or why, by BALKREYN_KIND and BALKREYN_NUMBER. */
static inline int64_t bh_is_cancelled(bh_actor *actor)
{
    balkreyn_book *book = bh_lock(actor->realm);
    int64_t cause = balkreyn_is_cancelled(book, actor->number);

    pthread_mutex_unlock(&actor->realm->lock);
    return cause;
}

/* What a task's thread runs. */
static inline void *bh_run(void *given)
{
    bh_task *task = given;
    bh_realm *realm = task->self.realm;
    balkreyn_book *book = bh_lock(realm);
    bool runs = balkreyn_is_cancelled(book, task->self.number) == 0;
    int64_t value;

    bh_unlock(realm, runs ? balkreyn_start(book, task->self.number) : balkreyn_reject(book, task->self.number));
    if (!runs)
        return NULL;
    value = task->job(&task->self, task->given);
    book = bh_lock(realm);
    bh_unlock(realm, value < 0 ? balkreyn_fail(book, task->self.number, (const uint8_t *)"failed", 6) : balkreyn_finish(book, task->self.number, value));
    return NULL;
}

/* Forks a task, which runs the job on a thread of its own unless the scope is cancelled before: its number, or
 * BALKREYN_REJECTED if no thread was to be had, which is recorded. The task lies where the caller put it until the close. */
static inline int64_t bh_fork(bh_scope *scope, bh_task *task, bh_job *job, void *given)
{
    bh_realm *realm = scope->owner->realm;
    balkreyn_book *book = bh_lock(realm);
    int64_t answer = balkreyn_fork(book, scope->owner->number, scope->number, (const uint8_t *)"job", 3);

    if (answer > 0) {
        *task = (bh_task){.self = {.realm = realm, .number = BALKREYN_NUMBER(answer)}, .before = scope->tasks, .job = job, .given = given};
        scope->tasks = task;
        if (BALKREYN_KIND(answer) != BALKREYN_NO_THREAD) {
            task->has_thread = pthread_create(&task->thread, NULL, bh_run, task) == 0;
            answer = task->has_thread ? answer : balkreyn_reject(book, task->self.number) < 0 ? BALKREYN_MEMORY : BALKREYN_REJECTED;
        }
    }
    return bh_unlock(realm, answer > 0 ? (int64_t)BALKREYN_NUMBER(answer) : answer);
}

/* Waits until the joiner has its answer, the scope is cancelled, or its deadline passes: the outcome. */
static inline int64_t bh_join(bh_scope *scope)
{
    bh_realm *realm = scope->owner->realm;
    balkreyn_book *book = bh_lock(realm);
    int64_t answer;

    while ((answer = balkreyn_join(book, scope->owner->number, scope->number)) == BALKREYN_NOT_READY)
        bh_wait(realm, UINT64_MAX);
    return bh_unlock(realm, answer);
}

/* The value of a task, read by the scope's owner behind the join: BALKREYN_DONE, and it is written; or why there is none. */
static inline int64_t bh_result(const bh_scope *scope, const bh_task *task, int64_t *value)
{
    balkreyn_book *book = bh_lock(scope->owner->realm);
    uint8_t none;
    int64_t answer = balkreyn_result(book, scope->owner->number, task->self.number, value, &none, 0);

    pthread_mutex_unlock(&scope->owner->realm->lock);
    return answer;
}

/* Sleeps so many milliseconds: 0, or why the actor's innermost scope is cancelled, at once. */
static inline int64_t bh_sleep(bh_actor *actor, uint64_t milliseconds)
{
    bh_realm *realm = actor->realm;
    balkreyn_book *book = bh_lock(realm);
    uint64_t end = bh_now(realm) + milliseconds;
    int64_t cause;

    while ((cause = balkreyn_is_cancelled(book, actor->number)) == 0 && bh_now(realm) < end)
        bh_wait(realm, end);
    pthread_mutex_unlock(&realm->lock);
    return cause;
}

/* The journal with times, a script for scopectl: its length, and it is written if there is room for all of it. */
static inline int64_t bh_journal(bh_realm *realm, uint8_t *text, size_t room)
{
    balkreyn_book *book = bh_lock(realm);
    int64_t answer = balkreyn_note(book, realm->at);

    return bh_unlock(realm, answer < 0 ? answer : balkreyn_timed_journal(book, realm->at, text, room));
}

/* Cancels the scope and what lies in it, up to shields: BALKREYN_DONE or BALKREYN_ALREADY. Any thread of the realm may. */
static inline int64_t bh_cancel(bh_scope *scope)
{
    balkreyn_book *book = bh_lock(scope->owner->realm);

    return bh_unlock(scope->owner->realm, balkreyn_cancel(book, scope->number));
}

/* Closes the owner's innermost scope: cancels what still runs in it, waits for each thread, and says BALKREYN_DONE,
 * BALKREYN_UNJOINED, or BALKREYN_STRUCTURE if the scope is not the innermost. */
static inline int64_t bh_close(bh_scope *scope)
{
    bh_actor *owner = scope->owner;
    balkreyn_book *book = bh_lock(owner->realm);

    if (balkreyn_around(book, owner->number) != (int64_t)scope->number)
        return bh_unlock(owner->realm, BALKREYN_STRUCTURE);
    bh_unlock(owner->realm, balkreyn_begin_close(book, owner->number, scope->number));
    for (bh_task *task = scope->tasks; task != NULL; task = task->before)
        if (task->has_thread)
            pthread_join(task->thread, NULL);
    book = bh_lock(owner->realm);
    return bh_unlock(owner->realm, balkreyn_end_close(book, owner->number, scope->number));
}

#endif
