/* Stands before the system's read and write, put there by the loader (LD_PRELOAD), for the descriptors 0 and 1: a call
   moves at most PIECE bytes. Once READ bytes were read in all the next read fails, and once WRITE bytes were written
   the next write does, or with STOP=1 takes no byte. What the environment doesn't name has no limit. */
#define _GNU_SOURCE
#include <dlfcn.h>
#include <errno.h>
#include <stdlib.h>
#include <unistd.h>

static size_t limit(const char *name)
{
    const char *number = getenv(name);

    return number == NULL ? (size_t)-1 : strtoul(number, NULL, 10);
}

/* How many of the bytes a call may move, where so many are left; all where the descriptor is another. */
static size_t piece(size_t count, size_t left)
{
    size_t most = limit("PIECE");

    if (count > most)
        count = most;
    return count > left ? left : count;
}

ssize_t read(int descriptor, void *bytes, size_t count)
{
    static ssize_t (*system_read)(int, void *, size_t);
    static size_t done;
    ssize_t moved;

    if (system_read == NULL)
        system_read = (ssize_t (*)(int, void *, size_t))dlsym(RTLD_NEXT, "read");
    if (descriptor != 0 || count == 0)
        return system_read(descriptor, bytes, count);
    count = piece(count, limit("READ") - done);
    if (count == 0) {
        errno = EIO;
        return -1;
    }
    moved = system_read(descriptor, bytes, count);
    done += moved > 0 ? (size_t)moved : 0;
    return moved;
}

ssize_t write(int descriptor, const void *bytes, size_t count)
{
    static ssize_t (*system_write)(int, const void *, size_t);
    static size_t done;
    ssize_t moved;

    if (system_write == NULL)
        system_write = (ssize_t (*)(int, const void *, size_t))dlsym(RTLD_NEXT, "write");
    if (descriptor != 1 || count == 0)
        return system_write(descriptor, bytes, count);
    count = piece(count, limit("WRITE") - done);
    if (count == 0) {
        errno = EIO;
        return limit("STOP") == 1 ? 0 : -1;
    }
    moved = system_write(descriptor, bytes, count);
    done += moved > 0 ? (size_t)moved : 0;
    return moved;
}
