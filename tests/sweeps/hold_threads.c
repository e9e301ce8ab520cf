/* Preloaded before a program, holds some of its threads before they are started: those whose numbers, from 1, are at
   least HELD_FROM. Says so by one byte on the descriptor whose number stands in HELD_TELL, and lets the thread start
   once a byte comes on that in HELD_UNTIL. */
#define _GNU_SOURCE
#include <dlfcn.h>
#include <pthread.h>
#include <stdlib.h>
#include <unistd.h>

typedef int start_thread(pthread_t *, const pthread_attr_t *, void *(*)(void *), void *);

static long threads;

int pthread_create(pthread_t *thread, const pthread_attr_t *how, void *(*call)(void *), void *given) {
    start_thread *start = (start_thread *)dlsym(RTLD_NEXT, "pthread_create");
    const char *from = getenv("HELD_FROM"), *tell = getenv("HELD_TELL"), *until = getenv("HELD_UNTIL");
    char byte;
    if (!start || !from || !tell || !until) abort();
    if (__sync_add_and_fetch(&threads, 1) >= atol(from)) {
        if (write(atoi(tell), "x", 1) != 1 || read(atoi(until), &byte, 1) != 1) abort();
    }
    return start(thread, how, call, given);
}
