/* Preloaded before a program, refuses some of its threads: those whose numbers, from 1, are FIRST_REFUSED to
   LAST_REFUSED. */
#define _GNU_SOURCE
#include <dlfcn.h>
#include <errno.h>
#include <pthread.h>
#include <stdlib.h>

typedef int start_thread(pthread_t *, const pthread_attr_t *, void *(*)(void *), void *);

static long threads;

int pthread_create(pthread_t *thread, const pthread_attr_t *how, void *(*call)(void *), void *given) {
    start_thread *start = (start_thread *)dlsym(RTLD_NEXT, "pthread_create");
    const char *first = getenv("FIRST_REFUSED"), *last = getenv("LAST_REFUSED");
    long number = __sync_add_and_fetch(&threads, 1);
    if (!start) abort();
    if (first && last && atol(first) <= number && number <= atol(last)) return EAGAIN;
    return start(thread, how, call, given);
}
