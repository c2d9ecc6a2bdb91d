/*
 * The best of three shops' prices within 300 ms, over balkreyn_host.h. The slow shop leaves at the deadline.
 *
 *   cc -std=c11 -D_POSIX_C_SOURCE=200809L -pthread -I bindings/include bindings/c/service.c carried/libbalkreyn.a -o service
 */
#include <balkreyn_host.h>

#include <stdio.h>

typedef struct shop {
    const char *name;
    uint64_t milliseconds;
    int64_t price; /* or a number below 0: it has none */
} shop;

static int64_t ask(bh_actor *self, void *given)
{
    const shop *asked = given;

    return bh_sleep(self, asked->milliseconds) == 0 ? asked->price : -1;
}

int main(void)
{
    shop shops[3] = {{"birch", 20, 899}, {"cedar", 60000, 850}, {"elm", 10, 912}};
    bh_realm realm;
    bh_scope scope;
    bh_task tasks[3];
    int64_t price, best = INT64_MAX;

    if (bh_begin(&realm) < 0 || bh_open(&realm.main, &scope, BALKREYN_ALL_OK, 0, BALKREYN_DEADLINE | BALKREYN_MOVE_ON, 300) < 0)
        return 1;
    for (int i = 0; i < 3; i++)
        if (bh_fork(&scope, &tasks[i], ask, &shops[i]) < 0)
            printf("%s can't be asked\n", shops[i].name);
    if (BALKREYN_KIND(bh_join(&scope)) == BALKREYN_PARTIAL)
        printf("not all shops answered in time\n");
    for (int i = 0; i < 3; i++)
        if (bh_result(&scope, &tasks[i], &price) == BALKREYN_DONE && price < best)
            best = price;
    printf("best %lld\n", (long long)best);
    bh_close(&scope);
    bh_end(&realm);
    return 0;
}
