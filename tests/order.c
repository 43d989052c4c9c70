/* Loaded before the C library (LD_PRELOAD), this says what a program does to its files, in the order in which it does it: one line for
 * each call that succeeded, at the end of the file that ORDER_LOG names. A line has a verb and one name or two, with tabs between. A call
 * that failed did nothing, and so has no line. */
#define _GNU_SOURCE
#include <dlfcn.h>
#include <errno.h>
#include <fcntl.h>
#include <stdarg.h>
#include <stdio.h>
#include <stdlib.h>
#include <string.h>
#include <sys/syscall.h>
#include <unistd.h>

enum { LONGEST_NAME = 4096 };

/* The function of the C library that stands behind one of these. */
#define NEXT(name)                                     \
    static __typeof__(name) *next;                     \
    if (next == NULL) {                                \
        *(void **)&next = dlsym(RTLD_NEXT, #name);     \
    }

/* Raw system calls, since write() would come back to here. A log with a gap would be worse than none: then the program ends. */
static void note(const char *verb, const char *first, const char *second)
{
    char line[2 * LONGEST_NAME + 64];
    int error = errno;
    const char *log = getenv("ORDER_LOG");
    int length = snprintf(line, sizeof line, second == NULL ? "%s\t%s\n" : "%s\t%s\t%s\n", verb, first, second);
    long file = log == NULL ? -1 : syscall(SYS_openat, AT_FDCWD, log, O_WRONLY | O_CREAT | O_APPEND | O_CLOEXEC, 0666);
    if (file < 0 || length >= (int)sizeof line || syscall(SYS_write, file, line, length) != length) {
        _exit(99);
    }
    syscall(SYS_close, file);
    errno = error;
}

/* The name of the file that a descriptor belongs to is the kernel's, at this moment: a file that was renamed has its new one. */
static void note_file(const char *verb, int file)
{
    char link[64], name[LONGEST_NAME];
    int error = errno;
    snprintf(link, sizeof link, "/proc/self/fd/%d", file);
    ssize_t length = readlink(link, name, sizeof name - 1);
    name[length < 0 ? 0 : length] = 0;
    errno = error;
    note(verb, file == 0 ? "input" : file == 1 ? "output" : name, NULL);
}

/* Relative names begin with the working folder in the log. */
static const char *whole(const char *name, char *space)
{
    char here[LONGEST_NAME];
    if (name[0] == '/' || getcwd(here, sizeof here) == NULL) {
        return name;
    }
    snprintf(space, 2 * LONGEST_NAME, "%s/%s", here, name);
    return space;
}

static int opened(int file, int flags)
{
    if (file >= 0) {
        int is_changed = (flags & O_ACCMODE) != O_RDONLY || (flags & O_TRUNC) != 0;
        note_file((flags & O_CREAT) != 0 ? "make" : is_changed ? "alter" : "open", file);
    }
    return file;
}

static mode_t mode_of(int flags, va_list rest)
{
    return (flags & (O_CREAT | __O_TMPFILE)) != 0 ? va_arg(rest, mode_t) : 0;
}

#define OPEN(name, front, names)                       \
    int name front                                     \
    {                                                  \
        NEXT(name)                                     \
        va_list rest;                                  \
        va_start(rest, flags);                         \
        mode_t mode = mode_of(flags, rest);            \
        va_end(rest);                                  \
        return opened(next names, flags);              \
    }

OPEN(open, (const char *path, int flags, ...), (path, flags, mode))
OPEN(open64, (const char *path, int flags, ...), (path, flags, mode))
OPEN(openat, (int folder, const char *path, int flags, ...), (folder, path, flags, mode))

/* A call on a descriptor that answers `least` or more if it did something. */
#define ON_FILE(result, name, front, names, least)     \
    result name front                                  \
    {                                                  \
        NEXT(name)                                     \
        result answer = next names;                    \
        if (answer >= least) {                         \
            note_file(#name, file);                    \
        }                                              \
        return answer;                                 \
    }

ON_FILE(ssize_t, read, (int file, void *bytes, size_t count), (file, bytes, count), 1)
ON_FILE(ssize_t, write, (int file, const void *bytes, size_t count), (file, bytes, count), 1)
ON_FILE(int, fsync, (int file), (file), 0)
ON_FILE(int, fdatasync, (int file), (file), 0)

/* Afterwards there is no name to be had. */
int close(int file)
{
    NEXT(close)
    note_file("close", file);
    return next(file);
}

int rename(const char *from, const char *to)
{
    NEXT(rename)
    char first[2 * LONGEST_NAME], second[2 * LONGEST_NAME];
    int answer = next(from, to);
    if (answer == 0) {
        note("rename", whole(from, first), whole(to, second));
    }
    return answer;
}

int unlink(const char *path)
{
    NEXT(unlink)
    char space[2 * LONGEST_NAME];
    int answer = next(path);
    if (answer == 0) {
        note("remove", whole(path, space), NULL);
    }
    return answer;
}
