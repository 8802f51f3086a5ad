// Refuses one allocation of a process, and no other: put in front of the C library by LD_PRELOAD.
//
// REFUSE_AT is the number of the allocation, counted from 1 over malloc, calloc, realloc and the aligned forms, in all
// threads together. Where it was reached, the file that REFUSE_LOG names is made.
#define _GNU_SOURCE
#include <errno.h>
#include <fcntl.h>
#include <stdatomic.h>
#include <stdlib.h>
#include <unistd.h>

extern void *__libc_malloc(size_t);
extern void *__libc_calloc(size_t, size_t);
extern void *__libc_realloc(void *, size_t);
extern void *__libc_memalign(size_t, size_t);

static atomic_long calls;
static long refused_call;
static const char *log_name;

__attribute__((constructor)) static void begin(void) {
    const char *at = getenv("REFUSE_AT");
    log_name = getenv("REFUSE_LOG");
    refused_call = at ? atol(at) : 0;
    atomic_store(&calls, 0);
}

static int is_refused(void) {
    if (refused_call == 0 || atomic_fetch_add(&calls, 1) + 1 != refused_call)
        return 0;
    int file = log_name ? open(log_name, O_CREAT | O_WRONLY, 0600) : -1;
    if (file >= 0)
        close(file);
    errno = ENOMEM;
    return 1;
}

void *malloc(size_t size) { return is_refused() ? NULL : __libc_malloc(size); }
void *calloc(size_t count, size_t size) { return is_refused() ? NULL : __libc_calloc(count, size); }
void *realloc(void *old, size_t size) { return is_refused() ? NULL : __libc_realloc(old, size); }
void *memalign(size_t align, size_t size) { return is_refused() ? NULL : __libc_memalign(align, size); }
void *aligned_alloc(size_t align, size_t size) { return memalign(align, size); }

int posix_memalign(void **out, size_t align, size_t size) {
    void *found = memalign(align, size);
    if (!found)
        return ENOMEM;
    *out = found;
    return 0;
}
