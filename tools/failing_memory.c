/* Has one call for memory fail, for tools/check_memory: loaded before the C library, it passes on each call of malloc and
 * realloc, but for the one whose number FAILING_CALL has, counted from 1, which gets nothing. Only calls of the program's own
 * code count, and none of the C library's.
 *
 * At the program's end the file that CALLS_FILE names has two numbers: how many calls there were in all, and how many of them
 * before the program first read its standard input, or began to start a thread. A thread's own memory is taken right before it
 * is started, and counts among the calls behind. */
#define _GNU_SOURCE
#include <dlfcn.h>
#include <pthread.h>
#include <stdatomic.h>
#include <stdio.h>
#include <stdlib.h>
#include <sys/auxv.h>
#include <unistd.h>

static atomic_long calls;
static atomic_long calls_before = -1; /* the run; -1 while it has not begun */

static void *next(const char *name) {
    return dlsym(RTLD_NEXT, name);
}

static void begin_with(long count) {
    long none = -1;
    atomic_compare_exchange_strong(&calls_before, &none, count);
}

/* Whether code of the program itself stands at a place. */
static int is_own(void *place) {
    Dl_info at, program;
    return dladdr(place, &at) && dladdr((void *)getauxval(AT_ENTRY), &program) && at.dli_fbase == program.dli_fbase;
}

/* Counts a call from a place, and says whether it fails. */
static int fails(void *place) {
    const char *failing = getenv("FAILING_CALL");
    return is_own(place) && atomic_fetch_add(&calls, 1) + 1 == (failing ? atol(failing) : 0);
}

void *malloc(size_t size) {
    static void *(*passed_on)(size_t);
    if (!passed_on)
        passed_on = (void *(*)(size_t))next("malloc");
    return fails(__builtin_return_address(0)) ? NULL : passed_on(size);
}

void *realloc(void *held, size_t size) {
    static void *(*passed_on)(void *, size_t);
    if (!passed_on)
        passed_on = (void *(*)(void *, size_t))next("realloc");
    return fails(__builtin_return_address(0)) ? NULL : passed_on(held, size);
}

ssize_t read(int file, void *bytes, size_t size) {
    static ssize_t (*passed_on)(int, void *, size_t);
    if (!passed_on)
        passed_on = (ssize_t (*)(int, void *, size_t))next("read");
    if (file == STDIN_FILENO)
        begin_with(atomic_load(&calls));
    return passed_on(file, bytes, size);
}

int pthread_create(pthread_t *thread, const pthread_attr_t *with, void *(*run)(void *), void *given) {
    static int (*passed_on)(pthread_t *, const pthread_attr_t *, void *(*)(void *), void *);
    if (!passed_on)
        passed_on = (int (*)(pthread_t *, const pthread_attr_t *, void *(*)(void *), void *))next("pthread_create");
    begin_with(atomic_load(&calls) - 1);
    return passed_on(thread, with, run, given);
}

static void tell(void) {
    const char *name = getenv("CALLS_FILE");
    FILE *file = name ? fopen(name, "w") : NULL;
    if (!file)
        return;
    fprintf(file, "%ld %ld\n", atomic_load(&calls), atomic_load(&calls_before));
    fclose(file);
}

/* The program ends so, and no destructor runs. */
void _exit(int status) {
    void (*passed_on)(int) = (void (*)(int))next("_exit");
    tell();
    passed_on(status);
    abort();
}
