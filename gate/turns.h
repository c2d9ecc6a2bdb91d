/* For refuse.c: one process stands before the program's beginning, and plays it again and again as a child of its own:
   first as it is, then with the first request for memory refused, then with the second, and on until a run meets no
   refusal; and the same where all requests behind it are refused too. Each run ends as the first did, with the same notes
   and the same answer; or with 1, and says why (one of CAUSES, parted by `|`) behind a beginning of those notes,
   and has written nothing but a beginning of that answer. The first run may end with 0 or 3. */
#include <fcntl.h>
#include <stdio.h>
#include <sys/mman.h>
#include <sys/wait.h>

/* What one run left: its status, and what it wrote to the descriptors 1, 2 and 9. */
typedef struct ended {
    int status;
    size_t size[3];
    char *text[3];
} ended;

static const int streams[3] = {1, 2, 9};
static int files[3];

/* Plays the program with these requests refused. The child returns from here to the program's beginning. */
static int plays(long from, long to, ended *run)
{
    pid_t child;
    int status;

    for (int i = 0; i < 3; i++)
        if (ftruncate(files[i], 0) != 0 || lseek(files[i], 0, SEEK_SET) != 0)
            _exit(71);
    lseek(0, 0, SEEK_SET);
    child = fork();
    if (child == 0) {
        for (int i = 0; i < 3; i++)
            if (dup2(files[i], streams[i]) < 0)
                _exit(71);
        alarm(60);
        first = from;
        last = to;
        atomic_store(&requests, 0);
        return 1;
    }
    if (child < 0 || waitpid(child, &status, 0) != child)
        _exit(71);
    run->status = WIFEXITED(status) ? WEXITSTATUS(status) : 256 + WTERMSIG(status);
    for (int i = 0; i < 3; i++) {
        off_t size = lseek(files[i], 0, SEEK_END);
        free(run->text[i]);
        run->text[i] = malloc((size_t)size + 1);
        run->size[i] = (size_t)size;
        if (size < 0 || run->text[i] == NULL || pread(files[i], run->text[i], (size_t)size, 0) != size)
            _exit(71);
        run->text[i][size] = '\0';
    }
    return 0;
}

static int begins(const ended *whole, const ended *run, int stream, size_t size)
{
    return size <= whole->size[stream] && memcmp(whole->text[stream], run->text[stream], size) == 0;
}

static int is_same(const ended *whole, const ended *run, int stream)
{
    return run->size[stream] == whole->size[stream] && begins(whole, run, stream, run->size[stream]);
}

/* What is wrong with the run, or NULL. */
static const char *fault_of(const ended *whole, const ended *run, const char *wanted)
{
    size_t size = run->size[1], said;

    if (run->status == whole->status)
        return !is_same(whole, run, 0) ? "answered a part" : !is_same(whole, run, 1) ? "has other notes" : NULL;
    if (run->status != 1 || run->size[2] == 0)
        return "ended with another status";
    for (; *wanted != '\0'; wanted += said + (wanted[said] == '|')) {
        said = strcspn(wanted, "|");
        if (size > said && run->text[1][size - 1] == '\n' && memcmp(run->text[1] + size - 1 - said, wanted, said) == 0)
            return !begins(whole, run, 1, size - 1 - said) ? "said what is no beginning of its notes"
                : !begins(whole, run, 0, run->size[0]) ? "wrote what is no beginning of its answer" : NULL;
    }
    return "did not say why";
}

static void in_turn(int count, char **words)
{
    ended whole = {.status = 0}, run = {.status = 0};
    const char *wanted = getenv("CAUSES");
    int failed = 0, runs = 0;

    for (int i = 0; i < 3; i++)
        files[i] = memfd_create("stream", MFD_CLOEXEC);
    if (plays(0, 0, &whole))
        return;
    if (whole.status != 0 && whole.status != 3) {
        fprintf(stderr, "test: %s ended with %d\n", words[1], whole.status);
        failed = 1;
    }
    for (int behind = 0; behind < 2 && !failed; behind++) {
        run.size[2] = 1;
        for (long number = 1; run.size[2] != 0 && !failed; number++, runs++) {
            const char *fault;
            if (plays(number, behind ? LONG_MAX : number, &run))
                return;
            fault = fault_of(&whole, &run, wanted);
            if (fault != NULL) {
                fprintf(stderr, "test: %s %s where request %ld%s was refused: status %d, '%s', '%s'\n", words[1], fault,
                    number, behind ? " and all behind it" : "", run.status, run.text[1], run.text[0]);
                failed = 1;
            }
        }
    }
    if (failed)
        _exit(1);
    printf("test:");
    for (int i = 1; i < count; i++)
        printf(" %s", words[i]);
    printf(" was right in %d runs, each request for memory refused in turn\n", runs);
    fflush(stdout);
    _exit(0);
}
