/*
 * balkreyn.h: one realm of task scopes, in C.
 *
 * A realm is a list of events. Each command is tried by the rules: it adds its event, or it is refused and
 * changes nothing. Queries change nothing. The library starts no thread, takes no lock, reads no clock and
 * calls nothing back: the host starts the tasks, keeps their results and tells the time, and the realm decides.
 *
 * Scopes and tasks have numbers, each counted from 1 over the whole realm. Who acts is a number too: 0 is main,
 * and k is task k. The realm believes the host which actor it is: let each thread act as its own task alone.
 * Moments and deadlines are in milliseconds of the realm, which balkreyn_tick sets.
 *
 * The rules are those of Java's StructuredTaskScope (JEP 505) and of the cancel scopes of Trio. docs/RULES.md
 * says them whole, and docs/SCRIPT.md the lines of balkreyn_line.
 *
 * What the caller owes, which nothing checks:
 *
 *   - A book is zeroed memory at first (BALKREYN_BOOK, or memset). Only the library writes to it from then on.
 *     Don't copy it, and don't overwrite it while it holds a realm: overwritten memory leaks, and a copy that is
 *     used once the other was closed is used after its memory was freed. It may be moved to another address.
 *   - One call at a time works on a book, queries too. Several threads take a lock of the host's around each
 *     call. A call that comes while another works on the book answers BALKREYN_BUSY and does nothing: that shows
 *     a lock which is missing, and stands in for none. Two books share nothing.
 *   - No pointer is NULL, also where the length behind it is 0 (compilers warn of one). What they point to doesn't
 *     overlap.
 *   - malloc, realloc and free come from one allocator; no call comes from a signal handler, nor in the forked
 *     child of a process with threads.
 *
 * What a text is: bytes and their number, with no zero behind them. A NAME has 1 to 24 bytes: the first from
 * 'a' to 'z', the others from 'a' to 'z', '0' to '9', '-', '_' and '.'. Names are the names of tasks, faults,
 * keys, and values that are texts.
 */
#ifndef BALKREYN_H
#define BALKREYN_H

#include <stdbool.h>
#include <stddef.h>
#include <stdint.h>

#ifdef __cplusplus
extern "C" {
#endif

/* A compiler that knows these warns where an answer is not looked at, and where a pointer is null. */
#ifndef BALKREYN_CALL
#if defined(__GNUC__) || defined(__clang__)
#define BALKREYN_CALL __attribute__((nonnull, warn_unused_result))
#else
#define BALKREYN_CALL
#endif
#endif

/* The number of this interface. balkreyn_abi() answers that of the library: call nothing else where they differ. */
#define BALKREYN_ABI 3u
/* The release, of which the packages for pkg-config, CMake, Rust and Python are too. */
#define BALKREYN_VERSION "0.2.0"

/* A book: it holds one realm, or none. Its fields are the library's. */
typedef struct balkreyn_book {
    uint64_t word;
    struct {
        uint8_t *at;
    } place;
} balkreyn_book;

/* A book that holds no realm: balkreyn_book book = BALKREYN_BOOK; */
#define BALKREYN_BOOK {0, {0}}

/* How many tasks of a scope are at each stage. */
typedef struct balkreyn_counts {
    uint32_t never;
    uint32_t waiting;
    uint32_t running;
    uint32_t finished;
} balkreyn_counts;

/* A task of the list that a join answered, with its state then: BALKREYN_UNAVAILABLE, _SUCCESS or _FAILED. */
typedef struct balkreyn_task {
    uint32_t task;
    uint32_t state;
} balkreyn_task;

/* What there is to hear of once a task ended: balkreyn_finish_told, balkreyn_fail_told. */
typedef struct balkreyn_news {
    uint32_t scope;    /* the scope in which it was forked */
    bool quiet;        /* no task of that scope waits or runs */
    bool comes;        /* a deadline comes next: balkreyn_next_deadline */
    size_t cancelled;  /* how many scopes were cancelled since the last retirement: balkreyn_nth_cancelled has them */
    uint64_t deadline; /* the one that comes next, or 0 */
} balkreyn_news;

/*
 * Answers below 0. After each of them, but BALKREYN_UNTOLD, the book and what the call would have written are as
 * they were.
 *
 * -1 to -20: the call was refused.
 */
#define BALKREYN_NO_SCOPE (-1)       /* no scope has that number */
#define BALKREYN_NOT_OWNER (-2)      /* the actor did not open the scope */
#define BALKREYN_CLOSED (-3)         /* the scope is closing or closed */
#define BALKREYN_ALREADY_JOINED (-4) /* the scope was joined before */
#define BALKREYN_NOT_JOINED (-5)     /* the scope is not joined yet */
#define BALKREYN_STRUCTURE (-6)      /* scopes or bindings would not nest */
#define BALKREYN_NO_TASK (-7)        /* no task has that number */
#define BALKREYN_WRONG_STAGE (-8)    /* the task, or the scope, is not at the stage that the call wants */
#define BALKREYN_CLOCK_BACK (-9)     /* the moment is before the present one, or the reading before the last one */
#define BALKREYN_TOO_MANY (-10)      /* a limit of scopes, tasks or load is met */
#define BALKREYN_NOT_READY (-11)     /* a task of the scope has not ended */
#define BALKREYN_NOT_BOUND (-12)     /* nothing is bound that the call asks for */
#define BALKREYN_NO_RESULT (-13)     /* the task has no result that may be read */
#define BALKREYN_NOT_SUCCESS (-14)   /* the task failed, and its value was asked for */
#define BALKREYN_NOT_FAILED (-15)    /* the task succeeded, and its fault was asked for */
#define BALKREYN_REJECTED (-16)      /* no thread was had for the task; no call here answers it */
#define BALKREYN_MEMORY (-17)        /* memory was refused */
#define BALKREYN_BAD_WORD (-18)      /* the line is no command; only the text of a reply says it */
#define BALKREYN_TOO_DEEP (-19)      /* scopes would lie more than 16 levels deep */
#define BALKREYN_RETIRED (-20)       /* the number was given before the last retirement */
/* Below: there was nothing to refuse. */
#define BALKREYN_NO_REALM (-21)      /* the book holds no realm: it was never opened, or it was closed */
#define BALKREYN_HAS_REALM (-22)     /* balkreyn_book_open: the book holds one already */
#define BALKREYN_BAD_ARGUMENT (-23)  /* a text is no NAME, or a number is none of those that are listed */
#define BALKREYN_UNTOLD (-24)        /* balkreyn_line: the line was performed, and there was no memory for its reply;
                                        of a join, balkreyn_outcome and balkreyn_outcome_line tell it */
#define BALKREYN_BUSY (-25)          /* another call works on the book just now: a lock of the host's is missing */

/* Answers of commands that are 0 or above, where it is no number of a scope or task. */
#define BALKREYN_DONE 0       /* it is recorded; of balkreyn_end_close: it was closed, and nothing was amiss */
#define BALKREYN_ALREADY 1    /* it was cancelled, closing or closed already, and nothing is recorded */
#define BALKREYN_UNJOINED 2   /* balkreyn_end_close: tasks were forked in the scope, and it was never joined */
#define BALKREYN_VIOLATED 3   /* balkreyn_end_close: the scopes were not closed in reverse order of opening */

/*
 * Some answers hold two numbers: a kind, and a scope or task (or 0). Of such an answer, which is 0 or above:
 */
#define BALKREYN_KIND(answer) ((uint32_t)((uint64_t)(answer) >> 32))
#define BALKREYN_NUMBER(answer) ((uint32_t)((uint64_t)(answer) & 0xffffffffu))

/* balkreyn_fork: the kind is 0, or this one where the scope is cancelled and the task gets no thread. */
#define BALKREYN_NO_THREAD 1u

/* balkreyn_join and balkreyn_outcome: the kinds of outcomes. */
#define BALKREYN_ALL 1u       /* all tasks succeeded; their list can be asked */
#define BALKREYN_ANY 2u       /* the task of that number was the first to succeed */
#define BALKREYN_NONE_CAME 3u /* a success was wanted, and no task ended */
#define BALKREYN_ALL_DONE 4u  /* all that was waited for came */
#define BALKREYN_ONE_FAILED 5u /* the task of that number was the first to fail */
#define BALKREYN_LIST 6u      /* all tasks; their list can be asked */
#define BALKREYN_TIMEOUT 7u   /* the scope's own deadline passed */
#define BALKREYN_PARTIAL 8u   /* the same, and the scope was to move on then; the list of its tasks can be asked */
#define BALKREYN_CANCELLED 9u /* the scope was cancelled by a call, on it or on the scope of that number */

/* balkreyn_cause: 0 of a scope that is not cancelled; else the scope that the cancel came from, and these kinds. */
#define BALKREYN_BY_CALL 1u     /* a cancel call */
#define BALKREYN_BY_CLOSE 2u    /* a close that began */
#define BALKREYN_BY_JOINER 3u   /* the joiner fired */
#define BALKREYN_BY_DEADLINE 4u /* the deadline passed */

/* balkreyn_state, and the states in a list. */
#define BALKREYN_UNAVAILABLE 0 /* it has not ended, or ended after its scope was cancelled */
#define BALKREYN_SUCCESS 1
#define BALKREYN_FAILED 2

/* balkreyn_stage. */
#define BALKREYN_NEVER 0   /* it gets no thread */
#define BALKREYN_WAITING 1 /* its thread is still to come */
#define BALKREYN_RUNNING 2
#define BALKREYN_FINISHED 3

/* balkreyn_until. */
#define BALKREYN_NO_DEADLINE 0
#define BALKREYN_AT 1   /* the moment was written */
#define BALKREYN_PAST 2 /* the scope is cancelled */

/* balkreyn_open: the joiners (JEP 505, Joiner). */
#define BALKREYN_AWAIT_OK 0u     /* awaitAllSuccessfulOrThrow */
#define BALKREYN_ALL_OK 1u       /* allSuccessfulOrThrow */
#define BALKREYN_ANY_OK 2u       /* anySuccessfulResultOrThrow */
#define BALKREYN_AWAIT 3u        /* awaitAll */
#define BALKREYN_UNTIL_FAILED 4u /* allUntil: at least `bound` failed; bound is from 0 to UINT32_MAX */
#define BALKREYN_UNTIL_OK 5u     /* allUntil: at least `bound` succeeded; the same */
#define BALKREYN_UNTIL_SUM 6u    /* allUntil: the values that are numbers add up to at least `bound` */

/* balkreyn_open: flags, which are added up. */
#define BALKREYN_DEADLINE 1u /* the scope has the deadline; else that argument counts for nothing */
#define BALKREYN_MOVE_ON 2u  /* where its own deadline passes, the join answers what had come (Trio, move_on_at) */
#define BALKREYN_SHIELD 4u   /* cancels of the scopes around it stop short of it (Trio, shield) */

/* The greatest limits of a realm. */
#define BALKREYN_SCOPE_LIMIT 4096u
#define BALKREYN_TASK_LIMIT 65536u
#define BALKREYN_LOAD_LIMIT 1048576u

/* With so many bytes of room, balkreyn_line writes each reply but that of a join that answers a list. */
#define BALKREYN_REPLY_ROOM 96u

/* The number of the library's interface. */
uint32_t balkreyn_abi(void);

/* ---- the book */

/*
 * Opens a fresh realm in the book, which holds none: BALKREYN_DONE. The limits say how many scopes and tasks it
 * takes, and how much load (an open costs 4, a fork 3, a recorded cancel, move, tick, bind or unbind 1), each
 * from 1 to its greatest value. BALKREYN_HAS_REALM, BALKREYN_BAD_ARGUMENT (a limit), BALKREYN_MEMORY.
 */
BALKREYN_CALL int64_t balkreyn_book_open(balkreyn_book *book, uint32_t scopes, uint32_t tasks, uint32_t load);

/* Closes the book: frees its realm, so that it holds none. BALKREYN_DONE, or BALKREYN_NO_REALM. */
int64_t balkreyn_book_close(balkreyn_book *book);

/*
 * ---- commands
 *
 * Each answers BALKREYN_DONE where nothing else is said, a refusal, BALKREYN_NO_REALM, or else
 * BALKREYN_BAD_ARGUMENT where a text is no NAME. (Any call on a book may answer BALKREYN_BUSY.)
 */

/* The actor opens a scope: the scope's number. BALKREYN_BAD_ARGUMENT: joiner, bound or flags. */
BALKREYN_CALL int64_t balkreyn_open(balkreyn_book *book, uint32_t actor, uint32_t joiner, int64_t bound, uint32_t flags, uint64_t deadline);

/* The actor forks a task in its scope: the task's number, and of kind BALKREYN_NO_THREAD where it gets none. */
BALKREYN_CALL int64_t balkreyn_fork(balkreyn_book *book, uint32_t actor, uint32_t scope, const uint8_t *name, size_t name_length);

/*
 * The actor forks tasks of one name in its scope, one for each answer: as many balkreyn_fork in one call. It answers how
 * many were forked. The answer of each is written in order, and behind them that of the first that was refused, where
 * one was: then no more is tried, and the answers behind are as they were.
 */
BALKREYN_CALL int64_t balkreyn_fork_many(balkreyn_book *book, uint32_t actor, uint32_t scope, const uint8_t *name, size_t name_length, int64_t *answers, size_t count);

/* No thread was had for the task, which waits for one. */
BALKREYN_CALL int64_t balkreyn_reject(balkreyn_book *book, uint32_t task);

/* The task's thread began. */
BALKREYN_CALL int64_t balkreyn_start(balkreyn_book *book, uint32_t task);

/* The task ended with a number, with a text (a NAME), or with a fault (a NAME). */
BALKREYN_CALL int64_t balkreyn_finish(balkreyn_book *book, uint32_t task, int64_t value);
BALKREYN_CALL int64_t balkreyn_finish_text(balkreyn_book *book, uint32_t task, const uint8_t *value, size_t value_length);
BALKREYN_CALL int64_t balkreyn_fail(balkreyn_book *book, uint32_t task, const uint8_t *fault, size_t fault_length);

/* The same with a number, or with a fault; if it is recorded, the news that a host asks for behind each end are written. */
BALKREYN_CALL int64_t balkreyn_finish_told(balkreyn_book *book, uint32_t task, int64_t value, balkreyn_news *news);
BALKREYN_CALL int64_t balkreyn_fail_told(balkreyn_book *book, uint32_t task, const uint8_t *fault, size_t fault_length, balkreyn_news *news);

/* Cancels the scope, and what lies in it: BALKREYN_DONE or BALKREYN_ALREADY. */
BALKREYN_CALL int64_t balkreyn_cancel(balkreyn_book *book, uint32_t scope);

/* Sets the scope's deadline anew, or takes it away. */
BALKREYN_CALL int64_t balkreyn_move(balkreyn_book *book, uint32_t scope, uint64_t deadline);
BALKREYN_CALL int64_t balkreyn_move_never(balkreyn_book *book, uint32_t scope);

/* Sets the moment. Deadlines that are not after it pass. */
BALKREYN_CALL int64_t balkreyn_tick(balkreyn_book *book, uint64_t now);

/* The actor binds a key (a NAME) to a number or a text (a NAME), and takes away the last binding of its own. */
BALKREYN_CALL int64_t balkreyn_bind(balkreyn_book *book, uint32_t actor, const uint8_t *key, size_t key_length, int64_t value);
BALKREYN_CALL int64_t balkreyn_bind_text(balkreyn_book *book, uint32_t actor, const uint8_t *key, size_t key_length, const uint8_t *value, size_t value_length);
BALKREYN_CALL int64_t balkreyn_unbind(balkreyn_book *book, uint32_t actor);

/*
 * The owner joins its scope: the outcome, as its kind and the scope or task that it names (or 0). It takes no
 * memory, so BALKREYN_MEMORY is never its answer. The list of an outcome is asked afterwards.
 */
BALKREYN_CALL int64_t balkreyn_join(balkreyn_book *book, uint32_t actor, uint32_t scope);

/* The owner begins to close the scope, and all that it opened later: BALKREYN_DONE or BALKREYN_ALREADY. */
BALKREYN_CALL int64_t balkreyn_begin_close(balkreyn_book *book, uint32_t actor, uint32_t scope);

/* The scope is closed: BALKREYN_DONE, BALKREYN_UNJOINED or BALKREYN_VIOLATED. */
BALKREYN_CALL int64_t balkreyn_end_close(balkreyn_book *book, uint32_t actor, uint32_t scope);

/* Lets the past go, where main has no scope that is not closed: the load begins anew, and numbers go on. */
BALKREYN_CALL int64_t balkreyn_retire(balkreyn_book *book, uint32_t actor);

/*
 * Notes when events came, for balkreyn_timed_journal: each that has no time yet came at this reading of the host's
 * clock, in milliseconds. A host calls it behind each command, or only once its clock moves on, with the reading of
 * before. Times go with a retirement, and nothing that the realm answers depends on them. BALKREYN_CLOCK_BACK: it is
 * before the last time. BALKREYN_MEMORY: eight bytes an event.
 */
BALKREYN_CALL int64_t balkreyn_note(balkreyn_book *book, uint64_t now);

/*
 * ---- queries
 *
 * They change nothing. Each answers what is said, a refusal, BALKREYN_NO_REALM, or else BALKREYN_BAD_ARGUMENT where
 * a text is no NAME. What goes out by a pointer is written where that is said, and else left as it was.
 */

/* What can be read of the task: BALKREYN_UNAVAILABLE, BALKREYN_SUCCESS or BALKREYN_FAILED. */
BALKREYN_CALL int64_t balkreyn_state(balkreyn_book *book, uint32_t task);

/* How far the task has come: BALKREYN_NEVER, _WAITING, _RUNNING or _FINISHED. */
BALKREYN_CALL int64_t balkreyn_stage(balkreyn_book *book, uint32_t task);

/*
 * The value of the task, read by the owner of its scope after the join: 0, and the number is written; or the
 * length of a text, which is written where there is room (24 bytes are always enough).
 */
BALKREYN_CALL int64_t balkreyn_result(balkreyn_book *book, uint32_t actor, uint32_t task, int64_t *number, uint8_t *text, size_t room);

/* The fault of the task, read by the same: the length of its text, which is written where there is room. */
BALKREYN_CALL int64_t balkreyn_fault(balkreyn_book *book, uint32_t actor, uint32_t task, uint8_t *text, size_t room);

/* Why the scope is cancelled: 0 where it is not, or the kind and the scope that the cancel came from. */
BALKREYN_CALL int64_t balkreyn_cause(balkreyn_book *book, uint32_t scope);

/*
 * The scope by which the actor is cancelled: its innermost one that is not closed, or else the one in which it was
 * forked; 0 of main where it has none open. BALKREYN_NO_TASK, BALKREYN_RETIRED.
 */
BALKREYN_CALL int64_t balkreyn_around(balkreyn_book *book, uint32_t actor);

/* Whether the actor is cancelled: as balkreyn_cause of that scope. A host needs no stack of scopes of its own. */
BALKREYN_CALL int64_t balkreyn_is_cancelled(balkreyn_book *book, uint32_t actor);

/* The earliest deadline in effect for the scope: BALKREYN_NO_DEADLINE, BALKREYN_AT (written) or BALKREYN_PAST. */
BALKREYN_CALL int64_t balkreyn_until(balkreyn_book *book, uint32_t scope, uint64_t *moment);

/* How many tasks of the scope are at each stage: 0, and the counts are written. */
BALKREYN_CALL int64_t balkreyn_counts_of(balkreyn_book *book, uint32_t scope, balkreyn_counts *counts);

/* What the actor sees the key (a NAME) bound to: as balkreyn_result. */
BALKREYN_CALL int64_t balkreyn_binding(balkreyn_book *book, uint32_t actor, const uint8_t *key, size_t key_length, int64_t *number, uint8_t *text, size_t room);

/* The moment: 0, and it is written. */
BALKREYN_CALL int64_t balkreyn_moment(balkreyn_book *book, uint64_t *moment);

/* The deadline that comes next, of a scope that isn't joined, closed or cancelled: 1, and it is written; or 0. */
BALKREYN_CALL int64_t balkreyn_next_deadline(balkreyn_book *book, uint64_t *moment);

/* The n-th scope to be cancelled since the last retirement, from 0; or 0 where no more than n were. */
BALKREYN_CALL int64_t balkreyn_nth_cancelled(balkreyn_book *book, size_t n);

/* The task that was forked in the scope after so many others; or 0 where there is none. */
BALKREYN_CALL int64_t balkreyn_task_at(balkreyn_book *book, uint32_t scope, size_t index);

/* How many scopes, and how many tasks, were numbered so far: the number of the last one. */
BALKREYN_CALL int64_t balkreyn_scopes(balkreyn_book *book);
BALKREYN_CALL int64_t balkreyn_tasks(balkreyn_book *book);

/* What the join of the scope answered: as balkreyn_join. */
BALKREYN_CALL int64_t balkreyn_outcome(balkreyn_book *book, uint32_t scope);

/*
 * The list of that outcome, task by task in fork order: how many tasks it has (0 where the outcome has no list).
 * They are written where there is room for them all. BALKREYN_MEMORY.
 */
BALKREYN_CALL int64_t balkreyn_outcome_tasks(balkreyn_book *book, uint32_t scope, balkreyn_task *tasks, size_t room);

/*
 * ---- text
 *
 * Each answers the length of its text, a refusal, BALKREYN_MEMORY or BALKREYN_NO_REALM. The text is written where
 * there is room for all of it, and else nothing is: ask again with the length that was answered.
 */

/* The line that balkreyn_line replies to the join of the scope, with its line feed: `outcome ..`. */
BALKREYN_CALL int64_t balkreyn_outcome_line(balkreyn_book *book, uint32_t scope, uint8_t *text, size_t room);

/* The tree of the scopes that are not closed, as JSON without blanks. */
BALKREYN_CALL int64_t balkreyn_dump(balkreyn_book *book, uint8_t *text, size_t room);

/* What happened since the last retirement, as a script: lines that balkreyn_line takes, each with its line feed. */
BALKREYN_CALL int64_t balkreyn_journal(balkreyn_book *book, uint8_t *text, size_t room);

/*
 * The same with the times that were noted: before an event whose time is another than the last a comment `# at N`, and
 * behind all of them one with this reading.
 */
BALKREYN_CALL int64_t balkreyn_timed_journal(balkreyn_book *book, uint64_t now, uint8_t *text, size_t room);

/*
 * Performs a line of a script, which comes without its line feed, and answers the length of the line of its reply,
 * which has one; 0 of a line that gets none. The reply is written where there is room, and the line is performed
 * in any case: give it BALKREYN_REPLY_ROOM at least, and ask balkreyn_outcome_line for a longer one. A refusal is
 * a reply (`refused N word`), and so is it that the line is no command. BALKREYN_MEMORY: nothing was performed.
 * BALKREYN_UNTOLD: it was performed, and there was no memory for its reply.
 */
BALKREYN_CALL int64_t balkreyn_line(balkreyn_book *book, const uint8_t *line, size_t line_length, uint8_t *reply, size_t room);

#ifdef __cplusplus
}
#endif

#endif
