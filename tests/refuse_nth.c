/* Stands before the C library's malloc (LD_PRELOAD) and refuses the request for memory with the number of the environment's REFUSE_NTH,
   counted from 1; where REFUSE_MODE is `all`, each one after it too. Where it is `main` or `workers`, the requests of the process's first thread
   alone are counted, and those of other threads are granted, or all refused. Counting begins with the process where REFUSE_FROM is `start`, and else
   after a request of 7919 bytes; it ends at a request of 7907 bytes. A refusal is told by a line on the file descriptor of REFUSE_TELLS, and by one
   more if the next request of the same thread is for no more, as of a list that finds no room to grow to twice its size. */

#define _GNU_SOURCE
#include <errno.h>
#include <stdatomic.h>
#include <stdlib.h>
#include <string.h>
#include <unistd.h>

enum { BEGINS = 7919, ENDS = 7907 };

extern void *__libc_malloc(size_t size), *__libc_calloc(size_t count, size_t size), *__libc_realloc(void *block, size_t size);
extern void *__libc_memalign(size_t alignment, size_t size);

static atomic_long left;
static atomic_int counts;
static const char *mode;
static int tells;
static _Thread_local size_t refused;

__attribute__((constructor)) static void begin(void)
{
    atomic_store(&left, atol(getenv("REFUSE_NTH")));
    mode = getenv("REFUSE_MODE");
    tells = atoi(getenv("REFUSE_TELLS"));
    atomic_store(&counts, !strcmp(getenv("REFUSE_FROM"), "start"));
}

static void tell(const char *line)
{
    if (write(tells, line, strlen(line)) < 0)
        abort();
}

/* Whether the request that is made now is to be refused. */
static int is_due(void)
{
    if (gettid() != getpid() && (!strcmp(mode, "main") || !strcmp(mode, "workers")))
        return !strcmp(mode, "workers");
    long place = atomic_fetch_sub(&left, 1);
    return place == 1 || (place < 1 && !strcmp(mode, "all"));
}

static int is_refused(size_t size)
{
    if (size <= refused)
        tell("again\n");
    refused = 0;
    if (size == BEGINS || size == ENDS)
        atomic_store(&counts, size == BEGINS);
    if (size == BEGINS || !atomic_load(&counts))
        return 0;
    if (!is_due())
        return 0;
    tell("refused\n");
    refused = size;
    errno = ENOMEM;
    return 1;
}

void *malloc(size_t size) { return is_refused(size) ? NULL : __libc_malloc(size); }
void *calloc(size_t count, size_t size) { return is_refused(count * size) ? NULL : __libc_calloc(count, size); }
void *realloc(void *block, size_t size) { return is_refused(size) ? NULL : __libc_realloc(block, size); }
void *memalign(size_t alignment, size_t size) { return is_refused(size) ? NULL : __libc_memalign(alignment, size); }
void *aligned_alloc(size_t alignment, size_t size) { return memalign(alignment, size); }
