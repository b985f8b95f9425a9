/* A library that stands in front of a program, so that no thread is ever started: whoever asked for one does its work itself. */
#include <errno.h>
#include <pthread.h>

int pthread_create(pthread_t *thread, const pthread_attr_t *with, void *(*work)(void *), void *given) {
    (void)thread;
    (void)with;
    (void)work;
    (void)given;
    return EAGAIN;
}
