/*
 * Random trees of scopes over balkreyn_host.h, with sleeps, cancels and deadlines. It writes the realm's journals, each of
 * which the proved program plays back without a refusal. An argument says how many trees.
 *
 * Built as threads.c is.
 */
#include <balkreyn_host.h>

#include <stdio.h>
#include <stdlib.h>
#include <string.h>

#define CHECK(condition)                                                                     \
    do {                                                                                     \
        if (!(condition)) {                                                                  \
            fprintf(stderr, "%s:%d: not so: %s\n", __FILE__, __LINE__, #condition);          \
            exit(1);                                                                         \
        }                                                                                    \
    } while (0)

#define WIDTH 4

typedef struct job {
    uint32_t seed;
    int depth;
    bh_scope *scope;
} job;

static uint32_t next(uint32_t *seed)
{
    *seed = *seed * 1664525u + 1013904223u;
    return *seed >> 8;
}

static void tree(bh_actor *actor, uint32_t seed, int depth);

static int64_t run(bh_actor *self, void *given)
{
    job *j = given;
    uint32_t chance = next(&j->seed) % 10;
    int64_t cause = bh_sleep(self, next(&j->seed) % 3);

    if (cause == 0 && j->depth > 0)
        tree(self, j->seed, j->depth - 1);
    if (chance == 0) {
        int64_t answer = bh_cancel(j->scope);
        CHECK(answer >= 0 || answer == BALKREYN_CLOSED); /* its owner may be closing it */
    }
    CHECK(cause == 0 || bh_is_cancelled(self) == cause);
    return chance == 1 ? -1 : (int64_t)chance;
}

static void tree(bh_actor *actor, uint32_t seed, int depth)
{
    static const uint64_t withins[3] = {0, 2, 60000};
    job jobs[WIDTH];
    bh_task tasks[WIDTH];
    bh_scope scope;
    int64_t value;
    uint32_t joiner = next(&seed) % 4, width = next(&seed) % (WIDTH + 1);
    uint32_t flags = (next(&seed) % 2 ? BALKREYN_DEADLINE : 0) | (next(&seed) % 3 ? 0 : BALKREYN_MOVE_ON) | (next(&seed) % 4 ? 0 : BALKREYN_SHIELD);
    int64_t outcome;

    CHECK(bh_open(actor, &scope, joiner, 0, flags, withins[next(&seed) % 3]) > 0);
    for (uint32_t i = 0; i < width; i++) {
        jobs[i] = (job){.seed = next(&seed), .depth = depth, .scope = &scope};
        CHECK(bh_fork(&scope, &tasks[i], run, &jobs[i]) > 0);
    }
    if (next(&seed) % 8 == 0)
        CHECK(bh_cancel(&scope) >= 0);
    outcome = bh_join(&scope);
    CHECK(outcome > 0);
    for (uint32_t i = 0; i < width; i++) {
        int64_t answer = bh_result(&scope, &tasks[i], &value);
        CHECK(answer == BALKREYN_DONE ? value >= 0 : answer == BALKREYN_NO_RESULT || answer == BALKREYN_NOT_SUCCESS);
        CHECK(BALKREYN_KIND(outcome) != BALKREYN_ALL || answer == BALKREYN_DONE);
    }
    CHECK(bh_close(&scope) == BALKREYN_DONE);
}

int main(int count, char **words)
{
    uint32_t trees = count > 1 ? (uint32_t)strtoul(words[1], NULL, 10) : 100;

    for (uint32_t number = 0; number < trees; number++) {
        bh_realm realm;
        CHECK(bh_begin(&realm) == BALKREYN_DONE);
        for (uint32_t turn = 0; turn < 3; turn++)
            tree(&realm.main, number * 3u + turn, 2);
        if (count > 2) {
            char name[4096];
            uint8_t none;
            int64_t length = bh_journal(&realm, &none, 0);
            uint8_t *text = malloc((size_t)length + 8);
            CHECK(text != NULL && (length = bh_journal(&realm, text, (size_t)length + 8)) > 0 && memcmp(text, "# at ", 5) == 0);
            CHECK(snprintf(name, sizeof name, "%s/%u", words[2], number) < (int)sizeof name);
            FILE *file = fopen(name, "w");
            CHECK(file != NULL && fwrite(text, 1, (size_t)length, file) == (size_t)length && fclose(file) == 0);
            free(text);
        }
        bh_end(&realm);
    }
    printf("%u realms over the host header\n", trees);
    return 0;
}
