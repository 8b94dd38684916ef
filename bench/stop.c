/* Stops the process at one of its calls that change a file below a folder, or make it durable.

   STOP_AT    the number of that call, from 1; 0 stops at none
   STOP_IN    the folder: calls on other files, as on standard output, aren't counted
   STOP_OF    counts calls on the file of this name alone, as north.db; where it ends in *, on those whose name begins so
   STOP_HOW   before   ends the process before the call is made (without the word this one)
              half     ends it when half of a write's bytes are written; any other call as before
              lost     ends it before the call, and takes back what was written, made and renamed, and not made durable
                       since: what can be lost when the power goes
              torn     the same, but of each such write all, one half or nothing is there, by chance, and names stay
              refuse   answers EIO to that call and to all later ones; once: to that call alone
              full     answers ENOSPC to that call and to all later ones, if they are writes, make files or make durable

   Where it stops one, it writes its number and the name of its file to descriptor 9. Calls of threads are made one after
   another, so that what one writes and what is noted of it belong together. */
#define _GNU_SOURCE
#include <dlfcn.h>
#include <errno.h>
#include <fcntl.h>
#include <limits.h>
#include <pthread.h>
#include <stdarg.h>
#include <stdio.h>
#include <stdlib.h>
#include <string.h>
#include <sys/stat.h>
#include <sys/types.h>
#include <sys/uio.h>
#include <unistd.h>

/* What a call has taken the place of, to be put back where it was not made durable since. */
struct undo {
    struct undo *older;
    enum { WRITTEN, MADE, RENAMED } kind;
    /* Of what has to be made durable: the file, or the folder for a name. */
    dev_t device;
    ino_t node;
    char path[PATH_MAX], other[PATH_MAX];
    off_t at, length;
    size_t size;
    /* What was written, if that was kept. */
    char *fresh;
    size_t fresh_size;
    char bytes[];
};

/* The status of a process that was ended. */
#define STOPPED 77

static struct undo *undone;
static long calls;
/* The file of the last call that counted. */
static char last[PATH_MAX];

/* A call that counts is made under this lock, which is free again where the caller's block ends. */
static pthread_mutex_t one_at_a_time = PTHREAD_RECURSIVE_MUTEX_INITIALIZER_NP;

static void let_go(pthread_mutex_t **held)
{
    pthread_mutex_unlock(*held);
}

#define ALONE                                                                    \
    __attribute__((cleanup(let_go))) pthread_mutex_t *held = &one_at_a_time;     \
    pthread_mutex_lock(held)

static const char *word(const char *name, const char *otherwise)
{
    const char *text = getenv(name);
    return text && *text ? text : otherwise;
}

static int is_how(const char *how)
{
    return !strcmp(word("STOP_HOW", "before"), how);
}

/* Whether calls on the file of this path are counted. */
static int counts(const char *path)
{
    const char *folder = word("STOP_IN", NULL), *of = word("STOP_OF", "*");
    if (!folder || strncmp(path, folder, strlen(folder)) || (path[strlen(folder)] != '/' && path[strlen(folder)])) return 0;
    const char *name = strrchr(path, '/');
    if (!name) return 0;
    size_t length = strlen(of);
    int is_wanted = of[length - 1] == '*' ? !strncmp(name + 1, of, length - 1) : !strcmp(name + 1, of);
    if (is_wanted) snprintf(last, sizeof last, "%s", name + 1);
    return is_wanted;
}

/* The path of an open file, or an empty one. */
static const char *path_of(int fd, char *path)
{
    char link[64];
    snprintf(link, sizeof link, "/proc/self/fd/%d", fd);
    ssize_t length = readlink(link, path, PATH_MAX - 1);
    path[length < 0 ? 0 : length] = 0;
    return path;
}

/* The path by which a call names a file, seen from the root. */
static const char *path_at(int folder, const char *name, char *path)
{
    char before[PATH_MAX];
    if (name[0] == '/') return name;
    if (folder == AT_FDCWD) {
        if (!getcwd(before, sizeof before)) return name;
    } else {
        path_of(folder, before);
    }
    snprintf(path, PATH_MAX, "%.2000s/%.2000s", before, name);
    return path;
}

#define NEXT(name) (__typeof__(&name))dlsym(RTLD_NEXT, #name)

static int takes_back(void)
{
    return is_how("lost") || is_how("torn");
}

/* Puts back what was written and not made durable, the last first. */
static void lose(int with_names)
{
    for (struct undo *it = undone; it; it = it->older) {
        if (with_names && it->kind == MADE) (NEXT(unlink))(it->path);
        if (with_names && it->kind == RENAMED) (NEXT(rename))(it->other, it->path);
        int fd = it->kind == WRITTEN ? (NEXT(open))(it->path, O_WRONLY) : -1;
        if (fd < 0) continue;
        if (it->size) (NEXT(pwrite))(fd, it->bytes, it->size, it->at);
        (NEXT(ftruncate))(fd, it->length);
        close(fd);
    }
}

/* Writes again what is there of each write, the first one first. */
static void tear(struct undo *it, unsigned long seed)
{
    if (!it) return;
    tear(it->older, seed * 6364136223846793005u + 1442695040888963407u);
    int fd = it->kind == WRITTEN && it->fresh ? (NEXT(open))(it->path, O_WRONLY) : -1;
    if (fd < 0) return;
    size_t half = it->fresh_size / 2;
    unsigned long what = seed >> 40 & 3;
    if (what == 1 || what == 2) (NEXT(pwrite))(fd, it->fresh, half, it->at);
    if (what == 1 || what == 3) (NEXT(pwrite))(fd, it->fresh + half, it->fresh_size - half, it->at + half);
    close(fd);
}

/* Notes that a file was made, or got another name. */
static void note_name(const char *path, const char *other)
{
    char folder[PATH_MAX];
    struct stat found;
    struct undo *it = takes_back() ? malloc(sizeof *it) : NULL;
    if (!it) return;
    *it = (struct undo){ .older = undone, .kind = other ? RENAMED : MADE };
    snprintf(it->path, sizeof it->path, "%s", path);
    snprintf(it->other, sizeof it->other, "%s", other ? other : "");
    snprintf(folder, sizeof folder, "%s", path);
    *strrchr(folder, '/') = 0;
    if (stat(folder, &found)) return;
    it->device = found.st_dev;
    it->node = found.st_ino;
    undone = it;
}

/* Notes what a write to these bytes takes the place of, and what it writes, if that is given. */
static void note(int fd, off_t at, size_t size, const void *fresh)
{
    struct stat found;
    if (!takes_back() || fstat(fd, &found) || !S_ISREG(found.st_mode)) return;
    struct undo *it = malloc(sizeof *it + size);
    if (!it) return;
    char path[PATH_MAX];
    *it = (struct undo){ .older = undone, .kind = WRITTEN, .device = found.st_dev, .node = found.st_ino, .at = at, .length = found.st_size };
    strcpy(it->path, path_of(fd, path));
    int other = (NEXT(open))(it->path, O_RDONLY);
    ssize_t had = other < 0 ? 0 : pread(other, it->bytes, size, at);
    if (other >= 0) close(other);
    it->size = had < 0 ? 0 : had;
    it->fresh = fresh ? malloc(size) : NULL;
    if (it->fresh) it->fresh_size = size, memcpy(it->fresh, fresh, size);
    undone = it;
}

/* Forgets what was noted of a file that is now durable. */
static void settle(int fd)
{
    struct stat found;
    if (!takes_back() || fstat(fd, &found)) return;
    for (struct undo **place = &undone; *place;) {
        struct undo *it = *place;
        if (it->device == found.st_dev && it->node == found.st_ino) {
            *place = it->older;
            free(it->fresh);
            free(it);
        } else {
            place = &it->older;
        }
    }
}

/* Whether this call is the one to stop at. Doesn't return where it ends the process, but for a write of which half is done first. */
static int is_stop(int needs_room)
{
    long at = atol(word("STOP_AT", "0"));
    calls++;
    if (!at || calls < at) return 0;
    if (calls == at) dprintf(9, "%ld %s\n", calls, last);
    if (is_how("full")) return needs_room;
    if (is_how("refuse")) return 1;
    if (calls > at) return 0;
    if (is_how("once") || is_how("half")) return 1;
    if (takes_back()) lose(is_how("lost"));
    if (is_how("torn")) tear(undone, at * 0x9E3779B97F4A7C15u);
    _exit(STOPPED);
}

static int refuse(void)
{
    if (is_how("half")) _exit(STOPPED);
    errno = is_how("full") ? ENOSPC : EIO;
    return -1;
}

static int is_of(int fd)
{
    char path[PATH_MAX];
    return counts(path_of(fd, path));
}

ssize_t write(int fd, const void *bytes, size_t size)
{
    ALONE;
    if (is_of(fd)) {
        if (is_stop(1)) {
            if (is_how("half")) (NEXT(write))(fd, bytes, size / 2);
            return refuse();
        }
        note(fd, lseek(fd, 0, SEEK_CUR), size, bytes);
    }
    return (NEXT(write))(fd, bytes, size);
}

ssize_t writev(int fd, const struct iovec *parts, int count)
{
    ALONE;
    if (is_of(fd)) {
        if (is_stop(1)) {
            if (is_how("half")) (NEXT(writev))(fd, parts, count / 2);
            return refuse();
        }
        size_t size = 0;
        for (int n = 0; n < count; n++) size += parts[n].iov_len;
        note(fd, lseek(fd, 0, SEEK_CUR), size, NULL);
    }
    return (NEXT(writev))(fd, parts, count);
}

static ssize_t put(int fd, const void *bytes, size_t size, off_t at)
{
    ALONE;
    if (is_of(fd)) {
        if (is_stop(1)) {
            if (is_how("half")) (NEXT(pwrite))(fd, bytes, size / 2, at);
            return refuse();
        }
        note(fd, at, size, bytes);
    }
    return (NEXT(pwrite))(fd, bytes, size, at);
}

ssize_t pwrite(int fd, const void *bytes, size_t size, off_t at) { return put(fd, bytes, size, at); }
ssize_t pwrite64(int fd, const void *bytes, size_t size, off64_t at) { return put(fd, bytes, size, at); }

static ssize_t putv(int fd, const struct iovec *parts, int count, off_t at)
{
    ALONE;
    if (is_of(fd)) {
        if (is_stop(1)) {
            if (is_how("half")) (NEXT(pwritev))(fd, parts, count / 2, at);
            return refuse();
        }
        size_t size = 0;
        for (int n = 0; n < count; n++) size += parts[n].iov_len;
        note(fd, at, size, NULL);
    }
    return (NEXT(pwritev))(fd, parts, count, at);
}

ssize_t pwritev(int fd, const struct iovec *parts, int count, off_t at) { return putv(fd, parts, count, at); }
ssize_t pwritev64(int fd, const struct iovec *parts, int count, off64_t at) { return putv(fd, parts, count, at); }

static int cut(int fd, off_t length)
{
    ALONE;
    if (is_of(fd)) {
        if (is_stop(0)) return refuse();
        struct stat found;
        if (!fstat(fd, &found) && length < found.st_size) note(fd, length, found.st_size - length, NULL);
        else note(fd, length, 0, NULL);
    }
    return (NEXT(ftruncate))(fd, length);
}

int ftruncate(int fd, off_t length) { return cut(fd, length); }
int ftruncate64(int fd, off64_t length) { return cut(fd, length); }

int fsync(int fd)
{
    ALONE;
    if (is_of(fd)) {
        if (is_stop(1)) return refuse();
        settle(fd);
    }
    return (NEXT(fsync))(fd);
}

int fdatasync(int fd)
{
    ALONE;
    if (is_of(fd)) {
        if (is_stop(1)) return refuse();
        settle(fd);
    }
    return (NEXT(fdatasync))(fd);
}

/* Opens a file. What makes one, or cuts one, counts. */
static int opened(int folder, const char *name, int flags, mode_t mode)
{
    ALONE;
    char room[PATH_MAX];
    const char *path = path_at(folder, name, room);
    int is_making = (flags & (O_CREAT | O_TRUNC)) && counts(path);
    if (is_making && is_stop(1)) return refuse();
    int was_there = !access(path, F_OK);
    int fd = (NEXT(openat))(folder, name, flags, mode);
    if (is_making && fd >= 0 && !was_there) note_name(path, NULL);
    return fd;
}

#define MODE(flags, mode)                            \
    mode_t mode = 0;                                 \
    if ((flags) & (O_CREAT | __O_TMPFILE)) {         \
        va_list more;                                \
        va_start(more, flags);                       \
        mode = va_arg(more, mode_t);                 \
        va_end(more);                                \
    }

int open(const char *path, int flags, ...) { MODE(flags, mode) return opened(AT_FDCWD, path, flags, mode); }
int open64(const char *path, int flags, ...) { MODE(flags, mode) return opened(AT_FDCWD, path, flags, mode); }
int openat(int folder, const char *path, int flags, ...) { MODE(flags, mode) return opened(folder, path, flags, mode); }
int openat64(int folder, const char *path, int flags, ...) { MODE(flags, mode) return opened(folder, path, flags, mode); }
int creat(const char *path, mode_t mode) { return opened(AT_FDCWD, path, O_CREAT | O_WRONLY | O_TRUNC, mode); }

/* A call by the name of a file. */
static int is_named(int folder, const char *name)
{
    char path[PATH_MAX];
    return counts(path_at(folder, name, path));
}

int mkdir(const char *path, mode_t mode)
{
    ALONE;
    if (is_named(AT_FDCWD, path) && is_stop(1)) return refuse();
    return (NEXT(mkdir))(path, mode);
}

int unlink(const char *path)
{
    ALONE;
    if (is_named(AT_FDCWD, path) && is_stop(0)) return refuse();
    return (NEXT(unlink))(path);
}

int rename(const char *path, const char *other)
{
    ALONE;
    char room[PATH_MAX], more[PATH_MAX];
    int is_counted = is_named(AT_FDCWD, other);
    if (is_counted && is_stop(0)) return refuse();
    int was_there = !access(other, F_OK);
    int answer = (NEXT(rename))(path, other);
    if (is_counted && !answer && !was_there) note_name(path_at(AT_FDCWD, path, room), path_at(AT_FDCWD, other, more));
    return answer;
}

int link(const char *path, const char *other)
{
    ALONE;
    if (is_named(AT_FDCWD, other) && is_stop(0)) return refuse();
    return (NEXT(link))(path, other);
}

int fchmod(int fd, mode_t mode)
{
    ALONE;
    if (is_of(fd) && is_stop(0)) return refuse();
    return (NEXT(fchmod))(fd, mode);
}

int fchown(int fd, uid_t user, gid_t group)
{
    ALONE;
    if (is_of(fd) && is_stop(0)) return refuse();
    return (NEXT(fchown))(fd, user, group);
}
