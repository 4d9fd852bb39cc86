// Refuses one call of the program in which this library is loaded beforehand: REFUSE_CALL names it, REFUSE_AT says which of them, from
// 1 on; 0 refuses none. With REFUSE_ON set all behind it are refused too. With REFUSE_SHORT set a read or write isn't refused, but every one of them gets one byte at most. Behind the
// program's end REFUSE_TOLD, a file, has how many calls there were. Calls before the program's own start count too.
#define _GNU_SOURCE
#include <dlfcn.h>
#include <errno.h>
#include <fcntl.h>
#include <pthread.h>
#include <stdatomic.h>
#include <stdio.h>
#include <stdlib.h>
#include <string.h>
#include <sys/syscall.h>
#include <unistd.h>

static atomic_long seen;

static int is_named(const char *call) {
    static const char *named;
    if (named == NULL) named = getenv("REFUSE_CALL") != NULL ? getenv("REFUSE_CALL") : "";
    return strcmp(named, call) == 0;
}

static int is_refused(const char *call) {
    static long at = -1;
    if (at < 0) at = getenv("REFUSE_AT") != NULL ? atol(getenv("REFUSE_AT")) : 0;
    if (!is_named(call)) return 0;
    long number = atomic_fetch_add(&seen, 1) + 1;
    return number == at || (at > 0 && number > at && getenv("REFUSE_ON") != NULL);
}

static void tell(void) {
    char line[32];
    const char *path = getenv("REFUSE_TOLD");
    if (path == NULL) return;
    long file = syscall(SYS_open, path, O_WRONLY | O_CREAT | O_TRUNC, 0600);
    if (file < 0) return;
    syscall(SYS_write, file, line, snprintf(line, sizeof line, "%ld\n", atomic_load(&seen)));
    syscall(SYS_close, file);
}

__attribute__((destructor)) static void end(void) { tell(); }

void _exit(int status) {
    tell();
    syscall(SYS_exit_group, status);
    __builtin_unreachable();
}

extern void *__libc_malloc(size_t), *__libc_realloc(void *, size_t);

void *malloc(size_t size) {
    if (is_refused("malloc")) return errno = ENOMEM, NULL;
    return __libc_malloc(size);
}

void *realloc(void *old, size_t size) {
    if (is_refused("realloc")) return errno = ENOMEM, NULL;
    return __libc_realloc(old, size);
}

static size_t length(size_t size) { return getenv("REFUSE_SHORT") != NULL && size > 1 ? 1 : size; }

ssize_t read(int file, void *bytes, size_t size) {
    if (is_refused("read")) return errno = EIO, -1;
    return syscall(SYS_read, file, bytes, length(size));
}

ssize_t write(int file, const void *bytes, size_t size) {
    if (is_refused("write")) return errno = EIO, -1;
    return syscall(SYS_write, file, bytes, length(size));
}

int open(const char *path, int flags, ...) {
    if (is_refused("open")) return errno = EMFILE, -1;
    return syscall(SYS_open, path, flags, 0600);
}

int close(int file) {
    int status = syscall(SYS_close, file);
    if (is_refused("close")) return errno = EIO, -1;
    return status;
}

off_t lseek(int file, off_t to, int from) {
    if (is_refused("lseek")) return errno = EIO, -1;
    return syscall(SYS_lseek, file, to, from);
}

int pthread_create(pthread_t *thread, const pthread_attr_t *how, void *(*begin)(void *), void *with) {
    if (is_refused("pthread_create")) return EAGAIN;
    int (*own)(pthread_t *, const pthread_attr_t *, void *(*)(void *), void *) = dlsym(RTLD_NEXT, "pthread_create");
    return own(thread, how, begin, with);
}
