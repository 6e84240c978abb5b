/* Put before the C library (LD_PRELOAD), it refuses one growth of memory: the one whose number, from 1 on, the variable REFUSED
   tells. Growths are the calls of malloc, calloc, realloc, reallocarray, and of the aligned ones. It makes the file that
   REFUSED_MARK names when it refuses, so that who counts knows when there is no such growth any more. */
#define _GNU_SOURCE
#include <dlfcn.h>
#include <errno.h>
#include <fcntl.h>
#include <stdlib.h>
#include <string.h>
#include <unistd.h>

static unsigned long asked, wanted;
static void *(*next_malloc)(size_t);
static void *(*next_calloc)(size_t, size_t);
static void *(*next_realloc)(void *, size_t);
static void *(*next_aligned_alloc)(size_t, size_t);
static int (*next_posix_memalign)(void **, size_t, size_t);
static void (*next_free)(void *);

/* What the search for the next calls may itself ask for: it is never given back. */
static _Alignas(16) char early[4096];
static size_t early_used;
static int is_searching;

static int is_early(const void *old) {
    return (const char *)old >= early && (const char *)old < early + sizeof early;
}

static void *take_early(size_t size) {
    size_t rounded = (size + 15) & ~(size_t)15;
    if (rounded < size || rounded > sizeof early - early_used) return NULL;
    void *taken = early + early_used;
    early_used += rounded;
    return taken;
}

static void search(void) {
    if (next_free) return;
    is_searching = 1;
    next_malloc = dlsym(RTLD_NEXT, "malloc");
    next_calloc = dlsym(RTLD_NEXT, "calloc");
    next_realloc = dlsym(RTLD_NEXT, "realloc");
    next_aligned_alloc = dlsym(RTLD_NEXT, "aligned_alloc");
    next_posix_memalign = dlsym(RTLD_NEXT, "posix_memalign");
    next_free = dlsym(RTLD_NEXT, "free");
    is_searching = 0;
}

__attribute__((constructor)) static void begin(void) {
    const char *number = getenv("REFUSED");
    search();
    asked = 0;
    wanted = number ? strtoul(number, NULL, 10) : 0;
}

static int is_refused(void) {
    asked++;
    if (wanted == 0 || asked != wanted) return 0;
    const char *mark = getenv("REFUSED_MARK");
    int file = mark ? open(mark, O_CREAT | O_WRONLY, 0600) : -1;
    if (file >= 0) close(file);
    errno = ENOMEM;
    return 1;
}

void *malloc(size_t size) {
    if (is_searching) return take_early(size);
    search();
    return is_refused() ? NULL : next_malloc(size);
}

void *calloc(size_t count, size_t size) {
    if (is_searching) return take_early(count * size);
    search();
    return is_refused() ? NULL : next_calloc(count, size);
}

void *realloc(void *old, size_t size) {
    search();
    if (is_refused()) return NULL;
    if (!is_early(old)) return next_realloc(old, size);
    size_t most = (size_t)(early + sizeof early - (char *)old);
    void *grown = next_malloc(size);
    if (grown) memcpy(grown, old, size < most ? size : most);
    return grown;
}

void *reallocarray(void *old, size_t count, size_t size) {
    size_t bytes;
    if (__builtin_mul_overflow(count, size, &bytes)) {
        errno = ENOMEM;
        return NULL;
    }
    return realloc(old, bytes);
}

void *aligned_alloc(size_t alignment, size_t size) {
    search();
    return is_refused() ? NULL : next_aligned_alloc(alignment, size);
}

void *memalign(size_t alignment, size_t size) {
    return aligned_alloc(alignment, size);
}

int posix_memalign(void **to, size_t alignment, size_t size) {
    search();
    return is_refused() ? ENOMEM : next_posix_memalign(to, alignment, size);
}

void free(void *old) {
    if (is_early(old)) return;
    search();
    next_free(old);
}
