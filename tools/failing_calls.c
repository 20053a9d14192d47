/* Loaded before the C library into a program (LD_PRELOAD): lets chosen calls of it fail, and counts them from 1.
   FAIL_MEMORY=N    the N-th call of malloc, calloc or realloc gives no memory; N+ that one and each after it
   FAIL_OPEN=N      the N-th call of open fails; FAIL_READ=N likewise
   FAIL_WRITE=F:N   the N-th write to the descriptor F fails; ZERO_WRITE=F:N it takes nothing
   MOST_WRITE=N     a write takes at most N bytes
   At the end the counts are written to the file CALL_COUNTS: memory, open, read, writes to 1, writes to 2. */
#define _GNU_SOURCE
#include <dlfcn.h>
#include <errno.h>
#include <fcntl.h>
#include <stdarg.h>
#include <stdio.h>
#include <stdlib.h>
#include <unistd.h>

struct chosen { long number; int and_later, of; };
static struct chosen memory, opening, reading, writing, taking_nothing;
static long most, memories, opens, reads, writes[3];
static int is_begun;

/* What the variable says: [F:]N[+]. */
static struct chosen read_chosen(const char *name) {
    struct chosen c = {0, 0, 0};
    char *said = getenv(name), *end = said;
    if (said) c.number = strtol(said, &end, 10);
    if (end && *end == ':') {
        c.of = (int)c.number;
        c.number = strtol(end + 1, &end, 10);
    }
    c.and_later = end && *end == '+';
    return c;
}

__attribute__((constructor)) static void begin(void) {
    memory = read_chosen("FAIL_MEMORY");
    opening = read_chosen("FAIL_OPEN");
    reading = read_chosen("FAIL_READ");
    writing = read_chosen("FAIL_WRITE");
    taking_nothing = read_chosen("ZERO_WRITE");
    most = read_chosen("MOST_WRITE").number;
    is_begun = 1;
}

__attribute__((destructor)) static void end(void) {
    const char *name = getenv("CALL_COUNTS");
    is_begun = 0;
    FILE *file = name ? fopen(name, "w") : 0;
    if (!file) return;
    fprintf(file, "%ld %ld %ld %ld %ld\n", memories, opens, reads, writes[1], writes[2]);
    fclose(file);
}

static void *real(const char *name) {
    return dlsym(RTLD_NEXT, name);
}

/* Counts a call, and says whether it is one that fails. */
static int fails(long *count, struct chosen c) {
    if (!is_begun) return 0;
    ++*count;
    return c.number && (*count == c.number || (*count > c.number && c.and_later));
}

static void *refused(void) {
    errno = ENOMEM;
    return 0;
}

void *malloc(size_t size) {
    static void *(*next)(size_t);
    if (!next) next = (void *(*)(size_t))real("malloc");
    return fails(&memories, memory) ? refused() : next(size);
}

void *realloc(void *at, size_t size) {
    static void *(*next)(void *, size_t);
    if (!next) next = (void *(*)(void *, size_t))real("realloc");
    return fails(&memories, memory) ? refused() : next(at, size);
}

void *calloc(size_t count, size_t size) {
    static void *(*next)(size_t, size_t);
    if (!next) next = (void *(*)(size_t, size_t))real("calloc");
    return fails(&memories, memory) ? refused() : next(count, size);
}

int open(const char *path, int flags, ...) {
    static int (*next)(const char *, int, ...);
    va_list more;
    va_start(more, flags);
    int mode = flags & O_CREAT ? va_arg(more, int) : 0;
    va_end(more);
    if (!next) next = (int (*)(const char *, int, ...))real("open");
    if (!fails(&opens, opening)) return next(path, flags, mode);
    errno = EIO;
    return -1;
}

ssize_t read(int from, void *into, size_t size) {
    static ssize_t (*next)(int, void *, size_t);
    if (!next) next = (ssize_t(*)(int, void *, size_t))real("read");
    if (!fails(&reads, reading)) return next(from, into, size);
    errno = EIO;
    return -1;
}

ssize_t write(int to, const void *bytes, size_t size) {
    static ssize_t (*next)(int, const void *, size_t);
    if (!next) next = (ssize_t(*)(int, const void *, size_t))real("write");
    if (!is_begun || to < 1 || to > 2) return next(to, bytes, size);
    writes[to]++;
    if (writing.of == to && writing.number == writes[to]) {
        errno = EIO;
        return -1;
    }
    if (taking_nothing.of == to && taking_nothing.number == writes[to]) return 0;
    return next(to, bytes, most && size > (size_t)most ? (size_t)most : size);
}
