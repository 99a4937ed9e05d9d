/* Refuses one request for memory, or it and all later ones, to the runs that tests/lib/runs.c makes, which is linked with it. */
#include <errno.h>
#include <stddef.h>
#include <stdint.h>
#include <stdlib.h>
#include <sys/mman.h>
#include <unistd.h>

extern void *__libc_malloc(size_t), *__libc_calloc(size_t, size_t), *__libc_realloc(void *, size_t);
extern void *__libc_memalign(size_t, size_t);

/* Where it is, all processes see it. */
static struct {
    uint32_t request, is_for_all_later; /* the request that is refused, counted from 1 */
    uint32_t made;
} *run;

void refuse_memory(uint32_t request, uint32_t is_for_all_later) {
    if (!run) run = mmap(NULL, sizeof *run, PROT_READ | PROT_WRITE, MAP_SHARED | MAP_ANONYMOUS, -1, 0);
    if (run == MAP_FAILED) _exit(70);
    run->request = request, run->is_for_all_later = is_for_all_later, run->made = 0;
}

uint32_t requests_for_memory(void) { return run->made; }

static int is_refused(void) {
    if (!run) return 0;
    run->made++;
    if (run->request == 0 || run->made < run->request || (run->made > run->request && !run->is_for_all_later)) return 0;
    errno = ENOMEM;
    return 1;
}

void *malloc(size_t size) { return is_refused() ? NULL : __libc_malloc(size); }
void *calloc(size_t count, size_t size) { return is_refused() ? NULL : __libc_calloc(count, size); }
void *realloc(void *old, size_t size) { return is_refused() ? NULL : __libc_realloc(old, size); }
void *aligned_alloc(size_t alignment, size_t size) { return is_refused() ? NULL : __libc_memalign(alignment, size); }

int posix_memalign(void **given, size_t alignment, size_t size) {
    if (is_refused())
        return ENOMEM;
    void *found = __libc_memalign(alignment, size);
    if (!found)
        return ENOMEM;
    *given = found;
    return 0;
}
