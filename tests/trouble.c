/* Makes trouble for one call of open, read or write, or of what else puts a new file in the place of another, or refuses one
   request for memory: the tests load it before the C library (glibc).

   The NTH of these calls, from 1, has the trouble KIND: 'fail' and 'interrupt' answer an error, 'short' moves
   one byte at most, and 'nothing' takes no byte of a write. A line goes to the file descriptor TELL then: the
   call's name, its descriptor (0 where it has none), how many files the program had tried to open, and how many bytes it
   had written to that descriptor. To open a file that is made is called 'create', and doesn't count as an opening. With NTH 0
   the line is 'calls N', when the program ends. Standard input gives no more at one time than a pipe holds, so that a long one
   is read as often in each run.

   With the KIND 'refuse' the NTH call of malloc or realloc gets a null pointer, and no other call has trouble. The line is how
   many bytes it asked for, and how many files the program had opened. */
#define _GNU_SOURCE
#include <errno.h>
#include <stdarg.h>
#include <stdio.h>
#include <stdlib.h>
#include <string.h>
#include <sys/stat.h>
#include <sys/syscall.h>
#include <unistd.h>
#include <fcntl.h>

#define DESCRIPTORS 16
#define PIPE 65536

void *__libc_malloc(size_t size);
void *__libc_realloc(void *old, size_t size);

static long nth, calls, requests, tried, opened, written[DESCRIPTORS];
static int tell = -1;
static const char *kind = "";

/* Once more for each run that serve.c begins. */
__attribute__((constructor)) void begin(void)
{
    const char *to = getenv("TELL");
    const char *which = getenv("TROUBLE_NTH");
    if (!to || !which || !getenv("TROUBLE_KIND"))
        return;
    kind = getenv("TROUBLE_KIND");
    nth = atol(which);
    tell = atoi(to);
}

static void say(const char *line, int length)
{
    if (tell >= 0 && syscall(SYS_write, tell, line, (size_t)length) != length)
        _exit(99);
}

__attribute__((destructor)) static void end(void)
{
    char line[64];
    if (nth == 0)
        say(line, snprintf(line, sizeof line, "calls %ld\n", calls));
}

static int is_kind(const char *word) { return strcmp(kind, word) == 0; }

/* Whether this call is the one, which it then tells. */
static int is_troubled(const char *name, int fd)
{
    char line[128];
    if (is_kind("refuse") || ++calls != nth)
        return 0;
    long before = fd >= 0 && fd < DESCRIPTORS ? written[fd] : 0;
    say(line, snprintf(line, sizeof line, "%s %d %ld %ld\n", name, fd, tried, before));
    return 1;
}

/* Sets errno and answers 1 where the kind of trouble is an error. */
static int is_error(int code)
{
    if (!is_kind("fail") && !is_kind("interrupt"))
        return 0;
    errno = is_kind("fail") ? code : EINTR;
    return 1;
}

static int is_refused(size_t size)
{
    char line[64];
    if (!is_kind("refuse") || ++requests != nth)
        return 0;
    say(line, snprintf(line, sizeof line, "%zu %ld\n", size, opened));
    return 1;
}

void *malloc(size_t size) { return is_refused(size) ? NULL : __libc_malloc(size); }
void *realloc(void *old, size_t size) { return is_refused(size) ? NULL : __libc_realloc(old, size); }

/* Whether this call has an error. */
static int is_failed(const char *name, int fd, int code) { return is_troubled(name, fd) && is_error(code); }

int open(const char *path, int flags, ...)
{
    va_list rest;
    va_start(rest, flags);
    int mode = flags & O_CREAT ? va_arg(rest, int) : 0;
    va_end(rest);
    int is_made = flags & O_CREAT;
    int has_failed = is_failed(is_made ? "create" : "open", 0, EMFILE);
    tried += !is_made;
    int fd = has_failed ? -1 : (int)syscall(SYS_openat, AT_FDCWD, path, flags, mode);
    opened += fd >= 0;
    return fd;
}

int fsync(int fd) { return is_failed("fsync", fd, EIO) ? -1 : (int)syscall(SYS_fsync, fd); }
int fchmod(int fd, mode_t mode) { return is_failed("fchmod", fd, EPERM) ? -1 : (int)syscall(SYS_fchmod, fd, mode); }
int rename(const char *from, const char *to) { return is_failed("rename", 0, EACCES) ? -1 : (int)syscall(SYS_rename, from, to); }

ssize_t readlink(const char *path, char *text, size_t size)
{
    return is_failed("readlink", 0, EACCES) ? -1 : syscall(SYS_readlink, path, text, size);
}

int statx(int fd, const char *path, int flags, unsigned mask, struct statx *found)
{
    return is_failed("statx", 0, EACCES) ? -1 : (int)syscall(SYS_statx, fd, path, flags, mask, found);
}

ssize_t read(int fd, void *buffer, size_t size)
{
    if (is_troubled("read", fd)) {
        if (is_error(EIO))
            return -1;
        if (is_kind("short") && size > 1)
            size = 1;
    }
    int is_cut = fd == STDIN_FILENO && size > PIPE && !is_kind("refuse");
    return syscall(SYS_read, fd, buffer, is_cut ? PIPE : size);
}

ssize_t write(int fd, const void *bytes, size_t size)
{
    if (is_troubled("write", fd)) {
        if (is_error(ENOSPC))
            return -1;
        if (is_kind("nothing"))
            size = 0;
        if (is_kind("short") && size > 1)
            size = 1;
    }
    ssize_t count = size ? syscall(SYS_write, fd, bytes, size) : 0;
    if (count > 0 && fd >= 0 && fd < DESCRIPTORS)
        written[fd] += count;
    return count;
}
