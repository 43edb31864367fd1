/* The heap of the library: what it asks of the program. Compile it with the program, or link the shared library, which has it.
 *
 * A program may have three functions of its own in its place. They have to keep this:
 * - A block is aligned to each power of two up to 16 that divides its size.
 * - ok is false if there is no memory; at is then any address but null, and of a realloc the old block stays as it was.
 * - All three are of one allocator, and may be called by several threads at once. */
#include <stdbool.h>
#include <stddef.h>
#include <stdlib.h>

#ifdef __cplusplus
extern "C" {
#endif

struct rattle_block {
    bool ok;
    void *at;
};

struct rattle_block rattle_alloc(size_t size, size_t align);
struct rattle_block rattle_realloc(void *block, size_t kept, size_t size, size_t align);
void rattle_dealloc(void *block);

#ifdef __cplusplus
}
#endif

static char nowhere;

static struct rattle_block block_at(void *at) {
    struct rattle_block block;
    block.ok = at != NULL;
    block.at = at != NULL ? at : (void *)&nowhere;
    return block;
}

struct rattle_block rattle_alloc(size_t size, size_t align) {
    return block_at(malloc(size != 0 ? size : align));
}

struct rattle_block rattle_realloc(void *block, size_t kept, size_t size, size_t align) {
    (void)kept; /* so many bytes of the block have to stay: realloc keeps all */
    return block_at(realloc(block, size != 0 ? size : align));
}

void rattle_dealloc(void *block) {
    free(block);
}
