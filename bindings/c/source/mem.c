/* The allocator that the library's compiled calls expect, over malloc, realloc and free. An alignment is at most 16, which
 * these guarantee; a request for no bytes becomes one for as many bytes as its alignment. */
#include <stddef.h>
#include <stdlib.h>

#if defined(__GNUC__) || defined(__clang__)
#define HIDDEN __attribute__((visibility("hidden")))
#else
#define HIDDEN
#endif

/* Returned in two registers: whether a block was allocated, and where it is. */
struct block {
    size_t is_given;
    void *at;
};

HIDDEN struct block bit_set_c_alloc(size_t size, size_t align);
HIDDEN struct block bit_set_c_realloc(void *old, size_t old_size, size_t size, size_t align);
HIDDEN void bit_set_c_dealloc(void *old);

/* A pointer in the library is never null. This one stands for a failed allocation, and is never read through. */
static char nothing[16];

static struct block of(void *made) {
    struct block block = {made != NULL, made != NULL ? made : nothing};
    return block;
}

struct block bit_set_c_alloc(size_t size, size_t align) { return of(malloc(size > 0 ? size : align)); }

struct block bit_set_c_realloc(void *old, size_t old_size, size_t size, size_t align) {
    (void)old_size;
    return of(realloc(old, size > 0 ? size : align));
}

void bit_set_c_dealloc(void *old) { free(old); }
