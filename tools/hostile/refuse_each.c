// Refuses each allocation of the program in which this library is loaded beforehand, all in one run: at each call of REFUSE_CALL,
// malloc or realloc, the program divides. The child has that call refused, with REFUSE_ON set all behind it too, and goes on to its
// own end; the parent waits for it, holds what came against REFUSE_OWN, and goes on with the call granted. So that the program can
// divide, a thread that it begins runs at once, on a stack of its own, and it must begin no two that wait for each other.
//
// REFUSE_OWN names three files, NAME.status, NAME.out and NAME.err: what comes with none refused. REFUSE_TOLD, a file, gets a line
// for each call with which anything else came than that, or status 8 with nothing written; and behind the program's end the line
// 'calls N own N none N faults N'.
#define _GNU_SOURCE
#include <errno.h>
#include <fcntl.h>
#include <pthread.h>
#include <signal.h>
#include <stdarg.h>
#include <stdio.h>
#include <stdlib.h>
#include <string.h>
#include <sys/mman.h>
#include <sys/stat.h>
#include <sys/syscall.h>
#include <sys/wait.h>
#include <ucontext.h>
#include <unistd.h>

enum { NO_MEMORY = 8, SECONDS = 60, MOST_FILES = 32 };

static long calls, own, none, faults;
static int is_child, is_begun, told = -1, own_status;
static const char *named, *own_out, *own_err;
static size_t own_out_size, own_err_size;

static void say(const char *form, ...) {
    char line[160];
    va_list given;
    va_start(given, form);
    int size = vsnprintf(line, sizeof line, form, given);
    va_end(given);
    syscall(SYS_write, told, line, size);
}

// A file's bytes, which stay mapped, and how many they are.
static const char *bytes_of(int file, size_t *size) {
    struct stat found;
    *size = fstat(file, &found) == 0 ? (size_t)found.st_size : 0;
    return *size == 0 ? "" : mmap(NULL, *size, PROT_READ, MAP_SHARED, file, 0);
}

static const char *own_part(const char *part, size_t *size) {
    char path[512];
    snprintf(path, sizeof path, "%s.%s", getenv("REFUSE_OWN"), part);
    int file = syscall(SYS_open, path, O_RDONLY | O_CLOEXEC, 0);
    const char *bytes = bytes_of(file, size);
    syscall(SYS_close, file);
    return bytes;
}

__attribute__((constructor)) static void begin(void) {
    size_t size;
    named = getenv("REFUSE_CALL");
    own_status = atoi(own_part("status", &size));
    own_out = own_part("out", &own_out_size);
    own_err = own_part("err", &own_err_size);
    told = syscall(SYS_open, getenv("REFUSE_TOLD"), O_WRONLY | O_CREAT | O_TRUNC | O_CLOEXEC, 0600);
    is_begun = 1;
}

static void end(void) {
    if (is_begun && !is_child) say("calls %ld own %ld none %ld faults %ld\n", calls, own, none, faults);
    is_begun = 0;
}

__attribute__((destructor)) static void end_of_library(void) { end(); }

void _exit(int status) {
    end();
    syscall(SYS_exit_group, status);
    __builtin_unreachable();
}

// Gives the child each file at a place of its own: what it reads is not taken from the parent.
static void reopen_files(void) {
    for (int file = 0; file < MOST_FILES; file++) {
        struct stat found;
        char path[40];
        if (file == 1 || file == 2 || file == told || fstat(file, &found) != 0 || !S_ISREG(found.st_mode)) continue;
        off_t at = syscall(SYS_lseek, file, 0, SEEK_CUR);
        snprintf(path, sizeof path, "/proc/self/fd/%d", file);
        int again = syscall(SYS_open, path, O_RDONLY | O_CLOEXEC, 0);
        if (again < 0) continue;
        syscall(SYS_lseek, again, at, SEEK_SET);
        dup2(again, file);
        syscall(SYS_close, again);
    }
}

static int is_same(int file, const char *bytes, size_t size) {
    size_t found;
    const char *got = bytes_of(file, &found);
    int same = found == size && memcmp(got, bytes, size) == 0;
    if (found != 0) munmap((void *)got, found);
    return same;
}

static void judge(int status, int out, int err) {
    int code = WIFEXITED(status) ? WEXITSTATUS(status) : -1;
    if (code == own_status && is_same(out, own_out, own_out_size) && is_same(err, own_err, own_err_size)) {
        own++;
    } else if (code == NO_MEMORY && is_same(out, "", 0) && is_same(err, "", 0)) {
        none++;
    } else {
        faults++;
        say("%s %ld: status %d signal %d\n", named, calls, code, WIFSIGNALED(status) ? WTERMSIG(status) : 0);
    }
}

// Whether the call is to be refused: in the child.
static int is_refused(const char *call) {
    if (!is_begun || strcmp(call, named) != 0) return 0;
    if (is_child) return getenv("REFUSE_ON") != NULL;
    calls++;
    int out = syscall(SYS_memfd_create, "out", MFD_CLOEXEC), err = syscall(SYS_memfd_create, "err", MFD_CLOEXEC), status = 0;
    pid_t child = fork();
    if (child == 0) {
        is_child = 1;
        dup2(out, 1);
        dup2(err, 2);
        reopen_files();
        alarm(SECONDS);
        return 1;
    }
    if (child < 0 || waitpid(child, &status, 0) != child) {
        faults++;
        say("%s %ld: not tried, error %d\n", named, calls, errno);
    } else {
        judge(status, out, err);
    }
    syscall(SYS_close, out);
    syscall(SYS_close, err);
    return 0;
}

extern void *__libc_malloc(size_t), *__libc_realloc(void *, size_t);

void *malloc(size_t size) {
    if (is_refused("malloc")) return errno = ENOMEM, NULL;
    return __libc_malloc(size);
}

void *realloc(void *old, size_t size) {
    if (is_refused("realloc")) return errno = ENOMEM, NULL;
    return __libc_realloc(old, size);
}

// A thread: it has run when this returns, also where it began others.
struct thread {
    ucontext_t inside, caller;
    void *(*body)(void *), *given;
};

enum { MOST_THREADS = 64 };
static struct thread *begun;
static void *gave[MOST_THREADS];
static unsigned threads;

static void run(void) {
    struct thread *own = begun;
    unsigned number = threads++ % MOST_THREADS;
    void *result = own->body(own->given);
    gave[number] = result;
    setcontext(&own->caller);
}

int pthread_create(pthread_t *thread, const pthread_attr_t *how, void *(*body)(void *), void *given) {
    struct thread own = {.body = body, .given = given};
    size_t size = 1 << 26;
    if (how != NULL) pthread_attr_getstacksize(how, &size);
    void *stack = mmap(NULL, size, PROT_READ | PROT_WRITE, MAP_PRIVATE | MAP_ANONYMOUS | MAP_NORESERVE, -1, 0);
    if (stack == MAP_FAILED) return EAGAIN;
    getcontext(&own.inside);
    own.inside.uc_stack.ss_sp = stack;
    own.inside.uc_stack.ss_size = size;
    begun = &own;
    *thread = threads % MOST_THREADS;
    makecontext(&own.inside, run, 0);
    swapcontext(&own.caller, &own.inside);
    munmap(stack, size);
    return 0;
}

int pthread_join(pthread_t thread, void **to) {
    if (to != NULL) *to = gave[thread % MOST_THREADS];
    return 0;
}

int pthread_detach(pthread_t thread) {
    (void)thread;
    return 0;
}
