/* Stands between a program and the C library (LD_PRELOAD), and lets one call on the files of a folder
 * go wrong. By the environment:
 *
 *   SHIM_FOLDER  calls on paths that start with this, and on files opened by them, are counted
 *   SHIM_LOG     a file to which each counted call is added: its name and the path
 *   SHIM_ONLY    the name of the only call that counts; getrandom never counts otherwise
 *   SHIM_AT      the number of the call that goes wrong, from 1; 0 for all of them
 *   SHIM_HOW     before: the process is killed, and the call not done
 *                after: the call is done, and the process killed
 *                half: of a write one half is done, and the process killed; else as after
 *                short: a write does one half
 *                garble: a write changes one bit
 *                stop: the process stops, until it is continued
 *                a number: the call is not done, and this is its error
 *   SHIM_BYTES   a file with 48 bytes: of random bytes the second 32 that are asked for, and the
 *                first 16
 */
#define _GNU_SOURCE
#include <dlfcn.h>
#include <errno.h>
#include <fcntl.h>
#include <signal.h>
#include <stdarg.h>
#include <stdio.h>
#include <stdlib.h>
#include <string.h>
#include <sys/stat.h>
#include <sys/types.h>
#include <unistd.h>

#define FILES 1024
#define REAL(name, ...) ((__typeof__(&name))real(#name))(__VA_ARGS__)

enum { DONE, FAILS, DIES, HALF, SHORT, GARBLE };

static char *opened[FILES];

static void *real(const char *name)
{
    void *found = dlsym(RTLD_NEXT, name);
    if (!found)
        abort();
    return found;
}

static const char *set(const char *name)
{
    const char *value = getenv(name);
    return value ? value : "";
}

static void die(void)
{
    kill(getpid(), SIGKILL);
    for (;;)
        pause();
}

static void note(const char *name, const char *path)
{
    char line[4096];
    int fd = REAL(open64, set("SHIM_LOG"), O_WRONLY | O_CREAT | O_APPEND, 0600);
    int length = snprintf(line, sizeof line, "%s %s\n", name, path);
    if (fd >= 0 && REAL(write, fd, line, length) != length)
        abort();
    REAL(close, fd);
}

static int counted(const char *name, const char *path)
{
    const char *only = set("SHIM_ONLY"), *folder = set("SHIM_FOLDER");
    if (*only)
        return !strcmp(only, name) && (!path || !strncmp(path, folder, strlen(folder)));
    return *folder && path && !strncmp(path, folder, strlen(folder));
}

/* What becomes of a call on that path, or on no path. */
static int fate(const char *name, const char *path)
{
    static int count;
    const char *how = set("SHIM_HOW");
    int before = errno;
    if (!counted(name, path))
        return DONE;
    count++;
    if (*set("SHIM_LOG"))
        note(name, path ? path : "");
    errno = before;
    if (!*how || (atoi(set("SHIM_AT")) && atoi(set("SHIM_AT")) != count))
        return DONE;
    if (!strcmp(how, "before"))
        die();
    if (!strcmp(how, "stop"))
        kill(getpid(), SIGSTOP);
    if (!strcmp(how, "after"))
        return DIES;
    if (!strcmp(how, "half"))
        return HALF;
    if (!strcmp(how, "short"))
        return SHORT;
    if (!strcmp(how, "garble"))
        return GARBLE;
    if (!atoi(how))
        return DONE;
    errno = atoi(how);
    return FAILS;
}

static const char *path_of(int fd)
{
    return fd >= 0 && fd < FILES && opened[fd] ? opened[fd] : "";
}

/* A call with its fate. */
#define CALL(type, name, path, ...)                    \
    int is = fate(#name, path);                        \
    if (is == FAILS)                                   \
        return -1;                                     \
    type result = REAL(name, __VA_ARGS__);             \
    if (is == DIES || is == HALF)                      \
        die();

int open64(const char *path, int flags, ...)
{
    va_list rest;
    va_start(rest, flags);
    mode_t mode = va_arg(rest, mode_t);
    va_end(rest);
    CALL(int, open64, path, path, flags, mode)
    if (result >= 0 && result < FILES)
        opened[result] = strdup(path);
    return result;
}

int close(int fd)
{
    CALL(int, close, path_of(fd), fd)
    if (fd >= 0 && fd < FILES)
        opened[fd] = NULL;
    return result;
}

ssize_t read(int fd, void *bytes, size_t length)
{
    CALL(ssize_t, read, path_of(fd), fd, bytes, length)
    return result;
}

ssize_t write(int fd, const void *bytes, size_t length)
{
    char copy[65536];
    int is = fate("write", path_of(fd));
    if (is == FAILS)
        return -1;
    if (is == HALF || is == SHORT)
        length = length / 2 + 1;
    if (is == GARBLE && length <= sizeof copy) {
        memcpy(copy, bytes, length);
        copy[length / 2] ^= 1;
        bytes = copy;
    }
    ssize_t result = REAL(write, fd, bytes, length);
    if (is == DIES || is == HALF)
        die();
    return result;
}

off64_t lseek64(int fd, off64_t by, int from)
{
    CALL(off64_t, lseek64, path_of(fd), fd, by, from)
    return result;
}

int fsync(int fd)
{
    CALL(int, fsync, path_of(fd), fd)
    return result;
}

int flock(int fd, int operation)
{
    int flock(int, int);
    CALL(int, flock, path_of(fd), fd, operation)
    return result;
}

int fchmod(int fd, mode_t mode)
{
    CALL(int, fchmod, path_of(fd), fd, mode)
    return result;
}

int fchown(int fd, uid_t owner, gid_t group)
{
    CALL(int, fchown, path_of(fd), fd, owner, group)
    return result;
}

int statx(int at, const char *path, int flags, unsigned mask, struct statx *told)
{
    /* Rust asks with none whether there is such a call; the header says that there always is one. */
    const char *volatile maybe = path;
    const char *which = maybe ? maybe : "";
    if (!*which)
        which = path_of(at);
    CALL(int, statx, which, at, path, flags, mask, told)
    return result;
}

int rename(const char *from, const char *to)
{
    CALL(int, rename, to, from, to)
    return result;
}

int renameat2(int at, const char *from, int to_at, const char *to, unsigned flags)
{
    CALL(int, renameat2, to, at, from, to_at, to, flags)
    return result;
}

int linkat(int at, const char *from, int to_at, const char *to, int flags)
{
    CALL(int, linkat, to, at, from, to_at, to, flags)
    return result;
}

int unlink(const char *path)
{
    CALL(int, unlink, path, path)
    return result;
}

static void given(unsigned char *bytes, off_t from, size_t length)
{
    int fd = REAL(open64, set("SHIM_BYTES"), O_RDONLY, 0);
    if (fd < 0 || pread(fd, bytes, length, from) != (ssize_t)length)
        abort();
    REAL(close, fd);
}

ssize_t getrandom(void *bytes, size_t length, unsigned flags)
{
    static int of_32, of_16;
    ssize_t getrandom(void *, size_t, unsigned);
    if (*set("SHIM_ONLY")) {
        CALL(ssize_t, getrandom, NULL, bytes, length, flags)
        return result;
    }
    ssize_t result = REAL(getrandom, bytes, length, flags);
    if (*set("SHIM_BYTES") && length == 32 && ++of_32 == 2)
        given(bytes, 0, 32);
    if (*set("SHIM_BYTES") && length == 16 && ++of_16 == 1)
        given(bytes, 32, 16);
    return result;
}
