/* Loaded before the C library: it makes a request for memory, a read or a write of the program
 * fail, or come short.
 *
 * ICE_FAIL_MEMORY=N   the Nth request for memory is refused
 * ICE_FAIL_READ=N     the Nth read fails
 * ICE_FAIL_ON=1       so does each one behind it
 * ICE_FAIL_WRITE=N    the Nth write takes ICE_AFTER bytes, and the next one fails; with 0 bytes the
 *                     Nth one does
 * ICE_SHORT_READ=N    a read gives at most N bytes
 * ICE_SHORT_WRITE=N   a write takes at most N bytes
 * ICE_STOP_READ=N     the program is stopped before its Nth read, as by SIGSTOP
 * ICE_STOP_WRITE=N    the same before its Nth write
 * ICE_COUNTS=FILE     at its end the program's requests, reads and writes are counted there
 * ICE_HELD=FILE       before each write a line there tells the bytes of memory that the program
 *                     holds, and the bytes that it writes
 */
#define _GNU_SOURCE
#include <dlfcn.h>
#include <errno.h>
#include <fcntl.h>
#include <malloc.h>
#include <signal.h>
#include <stdio.h>
#include <stdlib.h>
#include <unistd.h>

static long fail_memory, fail_read, fail_write, after, fail_on;
static long short_read, short_write, stop_read, stop_write;
static long requests, reads, writes, held;
static int told = -1;

static void *(*real_malloc)(size_t);
static void *(*real_calloc)(size_t, size_t);
static void *(*real_realloc)(void *, size_t);
static int (*real_memalign)(void **, size_t, size_t);
static void *(*real_aligned)(size_t, size_t);
static void (*real_free)(void *);
static ssize_t (*real_read)(int, void *, size_t);
static ssize_t (*real_write)(int, const void *, size_t);

/* What is asked for while the calls above are being looked up, and is never given back. */
static char early[65536];
static size_t early_used;
static int ready;

static void *early_room(size_t size) {
    void *room = early + early_used;
    early_used += (size + 15) & ~(size_t)15;
    return early_used <= sizeof early ? room : NULL;
}

static long number(const char *name) {
    const char *text = getenv(name);
    return text ? atol(text) : 0;
}

__attribute__((constructor)) static void begin(void) {
    real_malloc = dlsym(RTLD_NEXT, "malloc");
    real_calloc = dlsym(RTLD_NEXT, "calloc");
    real_realloc = dlsym(RTLD_NEXT, "realloc");
    real_memalign = dlsym(RTLD_NEXT, "posix_memalign");
    real_aligned = dlsym(RTLD_NEXT, "aligned_alloc");
    real_free = dlsym(RTLD_NEXT, "free");
    real_read = dlsym(RTLD_NEXT, "read");
    real_write = dlsym(RTLD_NEXT, "write");
    fail_memory = number("ICE_FAIL_MEMORY");
    fail_read = number("ICE_FAIL_READ");
    fail_write = number("ICE_FAIL_WRITE");
    after = number("ICE_AFTER");
    fail_on = number("ICE_FAIL_ON");
    short_read = number("ICE_SHORT_READ");
    short_write = number("ICE_SHORT_WRITE");
    stop_read = number("ICE_STOP_READ");
    stop_write = number("ICE_STOP_WRITE");
    const char *name = getenv("ICE_HELD");
    told = name ? open(name, O_WRONLY | O_CREAT | O_TRUNC, 0644) : -1;
    ready = 1;
}

__attribute__((destructor)) static void end(void) {
    const char *name = getenv("ICE_COUNTS");
    char text[96];
    int length = snprintf(text, sizeof text, "%ld %ld %ld\n", requests, reads, writes);
    int file = name ? open(name, O_WRONLY | O_CREAT | O_TRUNC, 0644) : -1;
    if (file >= 0) {
        if (real_write(file, text, length) != length) _exit(127);
        close(file);
    }
}

/* Whether the call of this number fails, where the one to fail is this. */
static int fails(long count, long wanted) {
    return wanted && (fail_on ? count >= wanted : count == wanted);
}

static int is_refused(void) {
    if (!ready) return 0;
    if (!fails(++requests, fail_memory)) return 0;
    errno = ENOMEM;
    return 1;
}

/* Counts what is given as held. */
static void *given(void *room) {
    if (room) held += malloc_usable_size(room);
    return room;
}

void *malloc(size_t size) {
    if (!real_malloc) return early_room(size);
    return is_refused() ? NULL : given(real_malloc(size));
}

void *calloc(size_t count, size_t size) {
    if (!real_calloc) return early_room(count * size);
    return is_refused() ? NULL : given(real_calloc(count, size));
}

void *realloc(void *room, size_t size) {
    if (is_refused()) return NULL;
    long before = room ? malloc_usable_size(room) : 0;
    void *made = real_realloc(room, size);
    if (made) {
        held -= before;
        given(made);
    }
    return made;
}

int posix_memalign(void **room, size_t align, size_t size) {
    if (is_refused()) return ENOMEM;
    int fault = real_memalign(room, align, size);
    if (!fault) given(*room);
    return fault;
}

void *aligned_alloc(size_t align, size_t size) {
    return is_refused() ? NULL : given(real_aligned(align, size));
}

void free(void *room) {
    int is_early = (char *)room >= early && (char *)room < early + sizeof early;
    if (!room || is_early || !real_free) return;
    held -= malloc_usable_size(room);
    real_free(room);
}

ssize_t read(int file, void *to, size_t size) {
    if (++reads == stop_read) raise(SIGSTOP);
    if (fails(reads, fail_read)) {
        errno = EIO;
        return -1;
    }
    if (short_read && size > (size_t)short_read) size = short_read;
    return real_read(file, to, size);
}

ssize_t write(int file, const void *from, size_t size) {
    long failing = fail_write + (after > 0);
    if (++writes == stop_write) raise(SIGSTOP);
    if (fail_write && writes >= failing) {
        errno = EIO;
        return -1;
    }
    if (fail_write && writes == fail_write && size > (size_t)after) size = after;
    if (short_write && size > (size_t)short_write) size = short_write;
    if (told >= 0) {
        char text[64];
        int length = snprintf(text, sizeof text, "%ld %zu\n", held, size);
        if (real_write(told, text, length) != length) _exit(127);
    }
    return real_write(file, from, size);
}
