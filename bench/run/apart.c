/* A library that stands in front of a program, so that its threads have processors of their own, as far as there are enough: the first one
 * has the first processor, and those that are started have the others in turn. */
#define _GNU_SOURCE
#include <dlfcn.h>
#include <pthread.h>
#include <sched.h>
#include <stdatomic.h>
#include <unistd.h>

static atomic_uint started;

static void only(cpu_set_t *set, long processor) {
    CPU_ZERO(set);
    CPU_SET((size_t)processor, set);
}

__attribute__((constructor)) static void first(void) {
    cpu_set_t set;
    only(&set, 0);
    sched_setaffinity(0, sizeof set, &set);
}

int pthread_create(pthread_t *thread, const pthread_attr_t *with, void *(*work)(void *), void *given) {
    int (*make)(pthread_t *, const pthread_attr_t *, void *(*)(void *), void *) = dlsym(RTLD_NEXT, "pthread_create");
    long others = sysconf(_SC_NPROCESSORS_ONLN) - 1;
    pthread_attr_t attributes;
    cpu_set_t set;
    pthread_attr_init(&attributes);
    if (with) {
        size_t stack;
        int detached;
        pthread_attr_getstacksize(with, &stack);
        pthread_attr_setstacksize(&attributes, stack);
        pthread_attr_getdetachstate(with, &detached);
        pthread_attr_setdetachstate(&attributes, detached);
    }
    only(&set, others > 0 ? 1 + atomic_fetch_add(&started, 1) % others : 0);
    pthread_attr_setaffinity_np(&attributes, sizeof set, &set);
    int status = make(thread, &attributes, work, given);
    pthread_attr_destroy(&attributes);
    return status;
}
