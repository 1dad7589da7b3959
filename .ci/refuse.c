/*
 * Refuses allocations of a program, which it counts from 1:
 *
 *   cc -O2 -shared -fPIC -o refuse.so refuse.c
 *   REFUSE=7 LD_PRELOAD=./refuse.so bpfcon run SCRIPT
 *
 * REFUSE=N refuses the Nth, REFUSE_FROM=N each from the Nth on, and REFUSE_ABOVE=BYTES each of more bytes. REFUSE_COUNT=FILE
 * writes into FILE how many were asked for. REFUSE_THREADS=1 refuses each thread. An allocation is a call of malloc or
 * realloc; those of the C library for itself count, too. The program is to ask for memory by no other call, and to end by
 * _exit; if allocations are counted it asks from one thread.
 */
#define _GNU_SOURCE
#include <dlfcn.h>
#include <errno.h>
#include <fcntl.h>
#include <pthread.h>
#include <stdio.h>
#include <stdlib.h>
#include <sys/syscall.h>
#include <unistd.h>

static void *(*real_malloc)(size_t);
static void *(*real_realloc)(void *, size_t);
static unsigned long asked, refused, refused_from, refused_above;

/* The number in an environment variable, 0 if there is none. */
static unsigned long number_in(const char *name)
{
    const char *text = getenv(name);

    return text ? strtoul(text, NULL, 10) : 0;
}

static void begin(void)
{
    real_malloc = (void *(*)(size_t))dlsym(RTLD_NEXT, "malloc");
    real_realloc = (void *(*)(void *, size_t))dlsym(RTLD_NEXT, "realloc");
    refused = number_in("REFUSE");
    refused_from = number_in("REFUSE_FROM");
    refused_above = number_in("REFUSE_ABOVE");
}

/* Counts an allocation of so many bytes: whether it is refused. */
static int is_refused(size_t size)
{
    if (!real_malloc)
        begin();
    asked++;
    if (asked != refused && (!refused_from || asked < refused_from) && (!refused_above || size <= refused_above))
        return 0;
    errno = ENOMEM;
    return 1;
}

void *malloc(size_t size)
{
    return is_refused(size) ? NULL : real_malloc(size);
}

void *realloc(void *old, size_t size)
{
    return is_refused(size) ? NULL : real_realloc(old, size);
}

int pthread_create(pthread_t *thread, const pthread_attr_t *attributes, void *(*start)(void *), void *given)
{
    if (number_in("REFUSE_THREADS"))
        return EAGAIN;
    return ((int (*)(pthread_t *, const pthread_attr_t *, void *(*)(void *), void *))dlsym(RTLD_NEXT, "pthread_create"))(
        thread, attributes, start, given);
}

/* Writes how many allocations were asked for. */
static void tell_count(void)
{
    const char *path = getenv("REFUSE_COUNT");
    char text[32];
    int length = snprintf(text, sizeof(text), "%lu\n", asked);
    int file = path ? open(path, O_WRONLY | O_CREAT | O_TRUNC, 0666) : -1;

    if (file < 0)
        return;
    if (write(file, text, length) != length)
        abort();
    close(file);
}

void _exit(int status)
{
    tell_count();
    syscall(SYS_exit_group, status);
    abort();
}
