/* Stands before the C library's read and write (LD_PRELOAD), on standard input and standard output, which give and take at most 64 bytes at a time. After
   READ_ROOM bytes a read fails once; after WRITE_ROOM bytes a write fails once or, where WRITE_THEN is `none`, takes nothing once. Then both work again, so that
   a call that is made once more shows. A read after the end fails too. */

#define _GNU_SOURCE
#include <errno.h>
#include <limits.h>
#include <stdlib.h>
#include <string.h>
#include <sys/syscall.h>
#include <unistd.h>

static long room[2];
static int takes_none;

__attribute__((constructor)) static void begin(void)
{
    room[0] = atol(getenv("READ_ROOM"));
    room[1] = atol(getenv("WRITE_ROOM"));
    takes_none = !strcmp(getenv("WRITE_THEN"), "none");
}

/* Moves bytes by the system's own call, as many as there is room for. */
static ssize_t moved(long call, int file, void *bytes, size_t size)
{
    if (file > 1 || size == 0)
        return syscall(call, file, bytes, size);
    if (room[file] == 0) {
        room[file] = LONG_MAX;
        errno = EIO;
        return file == 1 && takes_none ? 0 : -1;
    }
    size_t most = size < 64 ? size : 64;
    ssize_t count = syscall(call, file, bytes, most < (size_t)room[file] ? most : (size_t)room[file]);
    if (count > 0)
        room[file] -= count;
    else if (file == 0)
        room[file] = 0;
    return count;
}

ssize_t read(int file, void *bytes, size_t size) { return moved(SYS_read, file, bytes, size); }
ssize_t write(int file, const void *bytes, size_t size) { return moved(SYS_write, file, (void *)bytes, size); }
