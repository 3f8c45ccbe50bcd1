/* What the archive asks of a heap: here the C library's. An embedder without one replaces this file; see
   docs/EMBEDDING.md. */
#include <stdbool.h>
#include <stdlib.h>

typedef struct {
    bool ok;
    void *at;
} kbd48_block;

static char none;

kbd48_block rattle_alloc(size_t size, size_t align) {
    void *at = malloc(size ? size : align);
    return (kbd48_block){at != NULL, at ? at : &none};
}

kbd48_block rattle_realloc(void *old, size_t kept, size_t size, size_t align) {
    (void)kept;
    void *at = realloc(old, size ? size : align);
    return (kbd48_block){at != NULL, at ? at : &none};
}

void rattle_dealloc(void *at) { free(at); }
