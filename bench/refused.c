/* An allocator in front of the C library's that refuses one growth of a program: the one whose number, from 1, is in REFUSE_AT. How many growths there
   were stands in the file that COUNT_TO names, of 8 bytes, at every moment. bench/refused builds it and puts it before a program. */
#include <errno.h>
#include <fcntl.h>
#include <stdatomic.h>
#include <stdlib.h>
#include <sys/mman.h>
#include <unistd.h>

static atomic_ulong own;
static atomic_ulong *asked = &own;
static unsigned long refuse_at;

/* What the loader took before isn't counted. */
__attribute__((constructor)) static void begin(void) {
    const char *at = getenv("REFUSE_AT"), *to = getenv("COUNT_TO");
    int file = to ? open(to, O_RDWR) : -1;
    if (file >= 0) {
        void *made = mmap(NULL, sizeof own, PROT_READ | PROT_WRITE, MAP_SHARED, file, 0);
        if (made != MAP_FAILED)
            asked = made;
        close(file);
    }
    refuse_at = at ? strtoul(at, NULL, 10) : 0;
    atomic_store(asked, 0);
}

static int is_refused(void) {
    return atomic_fetch_add(asked, 1) + 1 == refuse_at;
}

extern void *__libc_malloc(size_t);
extern void *__libc_calloc(size_t, size_t);
extern void *__libc_realloc(void *, size_t);
extern void *__libc_memalign(size_t, size_t);

static void *no_memory(void) {
    errno = ENOMEM;
    return NULL;
}

void *malloc(size_t size) {
    return is_refused() ? no_memory() : __libc_malloc(size);
}

void *calloc(size_t count, size_t size) {
    return is_refused() ? no_memory() : __libc_calloc(count, size);
}

void *realloc(void *old, size_t size) {
    return is_refused() ? no_memory() : __libc_realloc(old, size);
}

void *aligned_alloc(size_t align, size_t size) {
    return is_refused() ? no_memory() : __libc_memalign(align, size);
}

int posix_memalign(void **to, size_t align, size_t size) {
    void *made = is_refused() ? NULL : __libc_memalign(align, size);
    if (!made)
        return ENOMEM;
    *to = made;
    return 0;
}
