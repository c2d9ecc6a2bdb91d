/* Stands before the system's allocator, put there by the loader (LD_PRELOAD), and refuses requests for memory, as
   the word REFUSE says: `N` the N-th request alone, `N-M` that one and all up to the M-th, `N+` that one and all
   behind it, `/N` one in N, by numbers that look random; `in-turn` plays the program over and over, as turns.h says.
   They are counted from the program's beginning, over all its threads. Each refusal writes a byte to the descriptor 9. */
#define _GNU_SOURCE
#include <errno.h>
#include <limits.h>
#include <stdatomic.h>
#include <stdlib.h>
#include <string.h>
#include <unistd.h>

extern void *__libc_malloc(size_t size);
extern void *__libc_realloc(void *old, size_t size);

static long first;
static long last;
static int at_random;
static atomic_long requests;

#include "turns.h"

__attribute__((constructor)) static void read_orders(int count, char **words)
{
    const char *orders = getenv("REFUSE");
    char *rest = NULL;

    if (orders == NULL)
        return;
    if (strcmp(orders, "in-turn") == 0) {
        in_turn(count, words);
        return;
    }
    at_random = *orders == '/';
    first = strtol(orders + at_random, &rest, 10);
    last = *rest == '+' ? LONG_MAX : *rest == '-' ? strtol(rest + 1, NULL, 10) : first;
    atomic_store(&requests, 0);
}

static int is_chosen(long number)
{
    if (first == 0)
        return 0;
    if (at_random)
        return ((unsigned long)number * 0x9E3779B97F4A7C15ul >> 33) % (unsigned long)first == 0;
    return number >= first && number <= last;
}

static int is_refused(void)
{
    long number = atomic_fetch_add(&requests, 1) + 1;

    if (!is_chosen(number))
        return 0;
    if (write(9, "x", 1) != 1)
        _exit(70);
    errno = ENOMEM;
    return 1;
}

void *malloc(size_t size)
{
    return is_refused() ? NULL : __libc_malloc(size);
}

void *realloc(void *old, size_t size)
{
    return is_refused() ? NULL : __libc_realloc(old, size);
}
