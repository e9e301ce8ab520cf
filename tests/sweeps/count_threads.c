/* Preloaded before a program, counts the threads that it starts. Reports each by a byte on the descriptor whose number
   stands in THREADS_TELL: `+` before it starts, and `-` when it has done its work. */
#define _GNU_SOURCE
#include <dlfcn.h>
#include <pthread.h>
#include <stdlib.h>
#include <unistd.h>

typedef int start_thread(pthread_t *, const pthread_attr_t *, void *(*)(void *), void *);

struct work {
    void *(*call)(void *);
    void *given;
};

static void tell(const char *what) {
    const char *number = getenv("THREADS_TELL");
    if (!number || write(atoi(number), what, 1) != 1) abort();
}

static void *worked(void *kept) {
    struct work work = *(struct work *)kept;
    free(kept);
    void *made = work.call(work.given);
    tell("-");
    return made;
}

int pthread_create(pthread_t *thread, const pthread_attr_t *how, void *(*call)(void *), void *given) {
    start_thread *start = (start_thread *)dlsym(RTLD_NEXT, "pthread_create");
    struct work *kept = malloc(sizeof *kept);
    if (!start || !kept) abort();
    *kept = (struct work){call, given};
    tell("+");
    int failed = start(thread, how, worked, kept);
    if (failed) tell("-");
    return failed;
}
