/* A library to preload, with which a process gets no new thread for the first times that it asks.

       cc -O2 -shared -fPIC -o refused_threads.so refused_threads.c -ldl
       REFUSED=2 TOLD=calls LD_PRELOAD=./refused_threads.so PROGRAM ...

   The first REFUSED calls of `pthread_create`, or none where that isn't set, answer EAGAIN, as where the system has
   no room for a thread; each later one is the C library's. The file TOLD gets a byte for each call: `r` where it was
   refused, else `c`. It is written at the call, since a process may end without running what a library has for its
   end. */

#define _GNU_SOURCE
#include <dlfcn.h>
#include <errno.h>
#include <fcntl.h>
#include <pthread.h>
#include <stdatomic.h>
#include <stdlib.h>
#include <unistd.h>

typedef int create(pthread_t *, const pthread_attr_t *, void *(*)(void *), void *);

static atomic_long calls;
static long most_refused;
static int told = -1;
static create *real;

__attribute__((constructor)) static void begin(void) {
    const char *refused = getenv("REFUSED"), *file = getenv("TOLD");
    if (refused)
        most_refused = atol(refused);
    if (file)
        told = open(file, O_WRONLY | O_CREAT | O_TRUNC | O_APPEND | O_CLOEXEC, 0600);
    real = (create *)dlsym(RTLD_NEXT, "pthread_create");
    if (!real)
        _exit(127);
}

int pthread_create(pthread_t *thread, const pthread_attr_t *attributes, void *(*start)(void *), void *argument) {
    int refused = atomic_fetch_add(&calls, 1) < most_refused;
    if (told >= 0 && write(told, refused ? "r" : "c", 1) != 1)
        _exit(127);
    return refused ? EAGAIN : real(thread, attributes, start, argument);
}
