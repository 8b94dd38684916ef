/* Refuses one allocation, of whatever thread: the one whose number, from 1, stands in REFUSE. With FOR=N it refuses N of them,
   that one first, and with LATER all that come after it too. At the end it writes to descriptor 9 how many there were. */
#define _GNU_SOURCE
#include <dlfcn.h>
#include <errno.h>
#include <stdio.h>
#include <stdlib.h>
#include <sys/syscall.h>
#include <unistd.h>

static long wanted, many, calls;
static int later;

__attribute__((constructor)) static void begin(void)
{
    const char *text = getenv("REFUSE");
    wanted = text ? atol(text) : 0;
    text = getenv("FOR");
    many = text ? atol(text) : 1;
    later = getenv("LATER") != NULL;
    calls = 0;
}

/* Whether this call is one of those that REFUSE and FOR name, or a later one. */
static int refused(void)
{
    long call = __atomic_add_fetch(&calls, 1, __ATOMIC_RELAXED);
    return wanted && call >= wanted && (later || call < wanted + many);
}

void *malloc(size_t size)
{
    static void *(*next)(size_t);
    if (!next) next = dlsym(RTLD_NEXT, "malloc");
    if (refused()) { errno = ENOMEM; return NULL; }
    return next(size);
}

void *realloc(void *old, size_t size)
{
    static void *(*next)(void *, size_t);
    if (!next) next = dlsym(RTLD_NEXT, "realloc");
    if (refused()) { errno = ENOMEM; return NULL; }
    return next(old, size);
}

static void tell(void)
{
    dprintf(9, "%ld\n", calls);
}

__attribute__((destructor)) static void end(void)
{
    tell();
}

/* A program that ends by this call runs no destructor. */
void _exit(int status)
{
    tell();
    syscall(SYS_exit_group, status);
    __builtin_unreachable();
}
