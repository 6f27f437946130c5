/* A library to preload, with which one call of a process fails: an allocation, or a call on a file of a store.

       cc -O2 -shared -fPIC -o faults.so faults.c -ldl
       KIND=malloc AT=17 COUNT=calls LD_PRELOAD=./faults.so PROGRAM ...

   KIND is `malloc` for allocations, or the name of a call on a file that lies in the folder STORE: `open`, `read`, `write`,
   `sync`, `cut`, `seek`, `lock`, or `any` of them. The call with the number AT, counted from 0, or `each` of them, answers as HOW
   says: `fails`, with no memory or with EIO; `interrupted`, with EINTR; `short`, where a read or write does one byte alone;
   `nothing`, where it does none; or `stopped`, where the process stops before the call until it is told to go on, so that
   another one can come between. The file COUNT has eight bytes, in which it is counted how many such calls there were. */

#define _GNU_SOURCE
#include <dlfcn.h>
#include <errno.h>
#include <fcntl.h>
#include <signal.h>
#include <stdarg.h>
#include <stdatomic.h>
#include <stdlib.h>
#include <string.h>
#include <sys/file.h>
#include <sys/mman.h>
#include <sys/types.h>
#include <unistd.h>

enum how { FAILS, INTERRUPTED, SHORT, NOTHING, STOPPED };
enum { NONE = -1, EACH = -2 };

static const char *kind = "", *store;
static long at = NONE;
static enum how how;
static atomic_long *count, none;
static _Atomic char of_store[1024];

static int hits(const char *this_kind) {
    int is_any = !strcmp(kind, "any") && strcmp(this_kind, "malloc");
    if (!is_any && strcmp(kind, this_kind))
        return 0;
    int is_due = atomic_fetch_add(count, 1) == at || at == EACH;
    if (!is_due || how != STOPPED)
        return is_due;
    raise(SIGSTOP);
    return 0;
}

static int on_store(int fd, const char *this_kind) {
    return fd >= 0 && fd < 1024 && of_store[fd] && hits(this_kind);
}

static int error_of(void) {
    errno = how == INTERRUPTED ? EINTR : EIO;
    return -1;
}

/* How many of these bytes a read or write does. */
static size_t part_of(size_t size) {
    return how == SHORT && size ? 1 : 0;
}

static int is_partial(void) {
    return how == SHORT || how == NOTHING;
}

static enum how how_of(const char *word) {
    static const char *words[] = {"fails", "interrupted", "short", "nothing", "stopped"};
    for (int number = FAILS; number <= STOPPED; number++)
        if (word && !strcmp(word, words[number]))
            return number;
    return FAILS;
}

__attribute__((constructor)) static void begin(void) {
    const char *number = getenv("AT"), *as = getenv("HOW"), *file = getenv("COUNT");
    count = &none;
    if (file) {
        int fd = open(file, O_RDWR | O_CREAT | O_CLOEXEC, 0600);
        void *mapped = ftruncate(fd, 8) ? MAP_FAILED : mmap(NULL, 8, PROT_READ | PROT_WRITE, MAP_SHARED, fd, 0);
        if (mapped == MAP_FAILED)
            _exit(127);
        count = mapped;
        close(fd);
    }
    how = how_of(as);
    store = getenv("STORE");
    at = !number ? NONE : !strcmp(number, "each") ? EACH : atol(number);
    if (getenv("KIND"))
        kind = getenv("KIND");
}

/* The C library's own call of this name. */
#define REAL(name) ((__typeof__(&name))dlsym(RTLD_NEXT, #name))

extern void *__libc_malloc(size_t), *__libc_realloc(void *, size_t);

void *malloc(size_t size) {
    return hits("malloc") ? NULL : __libc_malloc(size);
}

void *realloc(void *old, size_t size) {
    return hits("malloc") ? NULL : __libc_realloc(old, size);
}

int open(const char *path, int flags, ...) {
    __typeof__(&open) real = REAL(open);
    va_list rest;
    va_start(rest, flags);
    int mode = va_arg(rest, int), own = store && !strncmp(path, store, strlen(store));
    va_end(rest);
    if (own && hits("open"))
        return error_of();
    int fd = real(path, flags, mode);
    if (fd >= 0 && fd < 1024)
        of_store[fd] = own;
    return fd;
}

ssize_t read(int fd, void *bytes, size_t size) {
    __typeof__(&read) real = REAL(read);
    if (on_store(fd, "read"))
        return is_partial() ? real(fd, bytes, part_of(size)) : error_of();
    return real(fd, bytes, size);
}

ssize_t write(int fd, const void *bytes, size_t size) {
    __typeof__(&write) real = REAL(write);
    if (on_store(fd, "write"))
        return is_partial() ? real(fd, bytes, part_of(size)) : error_of();
    return real(fd, bytes, size);
}

ssize_t __write(int fd, const void *bytes, size_t size) {
    return write(fd, bytes, size);
}

int fsync(int fd) {
    __typeof__(&fsync) real = REAL(fsync);
    return on_store(fd, "sync") ? error_of() : real(fd);
}

int fdatasync(int fd) {
    __typeof__(&fdatasync) real = REAL(fdatasync);
    return on_store(fd, "sync") ? error_of() : real(fd);
}

int ftruncate(int fd, off_t size) {
    __typeof__(&ftruncate) real = REAL(ftruncate);
    return on_store(fd, "cut") ? error_of() : real(fd, size);
}

off_t lseek(int fd, off_t by, int whence) {
    __typeof__(&lseek) real = REAL(lseek);
    return on_store(fd, "seek") ? error_of() : real(fd, by, whence);
}

int flock(int fd, int operation) {
    __typeof__(&flock) real = REAL(flock);
    return on_store(fd, "lock") ? error_of() : real(fd, operation);
}
