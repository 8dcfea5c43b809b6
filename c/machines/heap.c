/* What the library takes from C, for a WebAssembly module without imports: a heap in the module's own memory, and
 * functions that compilers call. A host hands bytes in by malloc and free, which are exported.
 *
 * A block has the size of a power of two, its head of 16 bytes counted in. A block that is freed is kept for the next of
 * its size; when none is taken any more, the heap is empty as at first. So memory does not grow by calls that are made again. */
typedef unsigned long usize;

struct tried {
    _Bool ok;
    void *block;
};

struct head {
    usize power;
    struct head *next;
};

enum { LEAST = 5, MOST = 40, PAGE = 65536 };

extern unsigned char __heap_base;
static struct head *freed[MOST + 1];
static usize end_of_used, taken;
usize heap_end; /* beyond it the heap was not used since the host set this to 0 */
static unsigned char no_block[16];

/* Whether the memory reaches to this address, grown where it did not. What grow answers is not looked at: binaryen 108 lowers its
 * -1 to a number of 32 bits. */
static int reaches(usize end)
{
    usize size = __builtin_wasm_memory_size(0) * PAGE;
    if (end > size)
        __builtin_wasm_memory_grow(0, (end - size + PAGE - 1) / PAGE);
    return end <= __builtin_wasm_memory_size(0) * PAGE;
}

__attribute__((export_name("malloc"))) void *malloc(usize size)
{
    usize power = LEAST;
    while (power <= MOST && ((usize)1 << power) - sizeof(struct head) < size)
        power++;
    if (power > MOST)
        return 0;
    if (end_of_used == 0)
        end_of_used = ((usize)&__heap_base + 15) & ~(usize)15;
    struct head *head = freed[power];
    if (head != 0)
        freed[power] = head->next;
    else if (reaches(end_of_used + ((usize)1 << power)))
        head = (struct head *)end_of_used, end_of_used += (usize)1 << power;
    else
        return 0;
    if (end_of_used > heap_end)
        heap_end = end_of_used;
    head->power = power;
    taken++;
    return head + 1;
}

__attribute__((export_name("free"))) void free(void *block)
{
    if (block == 0)
        return;
    struct head *head = (struct head *)block - 1;
    head->next = freed[head->power];
    freed[head->power] = head;
    if (--taken == 0) {
        end_of_used = 0;
        for (usize power = LEAST; power <= MOST; power++)
            freed[power] = 0;
    }
}

static struct tried answer(void *block)
{
    struct tried tried = { block != 0, block != 0 ? block : no_block };
    return tried;
}

struct tried rattle_alloc(usize size, usize alignment)
{
    (void)alignment; /* a divisor of 16 */
    return answer(malloc(size));
}

struct tried rattle_realloc(void *block, usize kept, usize size, usize alignment)
{
    (void)alignment;
    struct head *head = (struct head *)block - 1;
    if (size <= ((usize)1 << head->power) - sizeof(struct head))
        return answer(block);
    void *moved = malloc(size);
    if (moved != 0) {
        __builtin_memcpy(moved, block, kept < size ? kept : size);
        free(block);
    }
    return answer(moved);
}

void rattle_dealloc(void *block)
{
    free(block);
}

void *memcpy(void *to, const void *from, usize size)
{
    unsigned char *a = to;
    const unsigned char *b = from;
    for (usize i = 0; i < size; i++)
        a[i] = b[i];
    return to;
}

void *memmove(void *to, const void *from, usize size)
{
    unsigned char *a = to;
    const unsigned char *b = from;
    if (a < b)
        return memcpy(to, from, size);
    while (size-- != 0)
        a[size] = b[size];
    return to;
}

void *memset(void *to, int byte, usize size)
{
    unsigned char *a = to;
    for (usize i = 0; i < size; i++)
        a[i] = (unsigned char)byte;
    return to;
}

typedef unsigned long u64;
typedef union {
    unsigned __int128 whole;
    struct {
        u64 low, high;
    } half;
} pair;

/* Products and shifts of 128 bits, by the names that compilers call. */
__int128 __multi3(__int128 a, __int128 b)
{
    pair x = { (unsigned __int128)a }, y = { (unsigned __int128)b }, product;
    const u64 mask = 0xffffffff;
    u64 low = (x.half.low & mask) * (y.half.low & mask), first = (x.half.low >> 32) * (y.half.low & mask) + (low >> 32);
    u64 second = (x.half.low & mask) * (y.half.low >> 32) + (first & mask);
    product.half.low = second << 32 | (low & mask);
    product.half.high = (x.half.low >> 32) * (y.half.low >> 32) + (first >> 32) + (second >> 32) +
                        x.half.low * y.half.high + x.half.high * y.half.low;
    return (__int128)product.whole;
}

__int128 __ashlti3(__int128 a, int by)
{
    pair x = { (unsigned __int128)a };
    if (by & 64)
        x.half.high = x.half.low << (by & 63), x.half.low = 0;
    else if (by != 0)
        x.half.high = x.half.high << by | x.half.low >> (64 - by), x.half.low <<= by;
    return (__int128)x.whole;
}

__int128 __lshrti3(__int128 a, int by)
{
    pair x = { (unsigned __int128)a };
    if (by & 64)
        x.half.low = x.half.high >> (by & 63), x.half.high = 0;
    else if (by != 0)
        x.half.low = x.half.low >> by | x.half.high << (64 - by), x.half.high >>= by;
    return (__int128)x.whole;
}
