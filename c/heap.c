/* The three functions by which the library takes memory, over malloc, realloc and free.
 *
 * A block is asked for by its size and its alignment, a divisor of 16; malloc aligns to 16 on the machines that the
 * library is built for. A block of no bytes has an address of its own. Where there is no memory, ok is false, and the
 * address, which is not used, is not null. */
#include <stdbool.h>
#include <stddef.h>
#include <stdlib.h>

struct tried {
    bool ok;
    void *block;
};

static unsigned char no_block[16];

struct tried rattle_alloc(size_t size, size_t alignment);
struct tried rattle_realloc(void *block, size_t kept, size_t size, size_t alignment);
void rattle_dealloc(void *block);

static struct tried answer(void *block)
{
    struct tried tried = { block != NULL, block != NULL ? block : no_block };
    return tried;
}

struct tried rattle_alloc(size_t size, size_t alignment)
{
    return answer(malloc(size != 0 ? size : alignment));
}

struct tried rattle_realloc(void *block, size_t kept, size_t size, size_t alignment)
{
    (void)kept; /* realloc keeps what fits */
    return answer(realloc(block, size != 0 ? size : alignment));
}

void rattle_dealloc(void *block)
{
    free(block);
}
