/* What the C of a WebAssembly module needs that wasm2c made: numbers, memory, and operations that C has not. */
typedef uint8_t u8;
typedef int8_t s8;
typedef uint16_t u16;
typedef int16_t s16;
typedef uint32_t u32;
typedef int32_t s32;
typedef uint64_t u64;
typedef int64_t s64;
typedef double f64; /* IEEE 754 */
#if FLT_EVAL_METHOD != 0 && FLT_EVAL_METHOD != 1 || DBL_MANT_DIG != 53
#error "passkey.c needs doubles of 64 bits, computed as such (on x86 of 32 bits: -msse2 -mfpmath=sse)"
#endif

typedef struct {
    u8 *data;
    u32 pages, size;
} wasm_rt_memory_t;

enum { PAGE = 65536 };

/* A trap: the module does what its proof rules out, or its stack is used up. */
#define TRAP() (abort(), 0)
#define UNREACHABLE abort()
#define FUNC_PROLOGUE
#define FUNC_EPILOGUE

static inline u8 *at(const wasm_rt_memory_t *memory, u64 address, u64 size)
{
    if (address + size > memory->size)
        abort();
    return memory->data + address;
}

static inline u64 load(const wasm_rt_memory_t *memory, u64 address, u32 size)
{
    const u8 *from = at(memory, address, size);
    u64 value = 0;
    for (u32 i = 0; i < size; i++)
        value |= (u64)from[i] << (8 * i);
    return value;
}

static inline void store(wasm_rt_memory_t *memory, u64 address, u64 value, u32 size)
{
    u8 *to = at(memory, address, size);
    for (u32 i = 0; i < size; i++)
        to[i] = (u8)(value >> (8 * i));
}

#define LOAD(name, from, to, size)                                       \
    static inline to name(const wasm_rt_memory_t *memory, u64 address)    \
    {                                                                     \
        return (to)(from)load(memory, address, size);                     \
    }
#define STORE(name, from, size)                                           \
    static inline void name(wasm_rt_memory_t *memory, u64 address, from value) \
    {                                                                     \
        store(memory, address, value, size);                              \
    }
LOAD(i32_load, u32, u32, 4)
LOAD(i32_load8_u, u8, u32, 1)
LOAD(i32_load8_s, s8, u32, 1)
LOAD(i32_load16_u, u16, u32, 2)
LOAD(i32_load16_s, s16, u32, 2)
LOAD(i64_load, u64, u64, 8)
LOAD(i64_load8_u, u8, u64, 1)
LOAD(i64_load8_s, s8, u64, 1)
LOAD(i64_load16_u, u16, u64, 2)
LOAD(i64_load16_s, s16, u64, 2)
LOAD(i64_load32_u, u32, u64, 4)
LOAD(i64_load32_s, s32, u64, 4)

static inline f64 f64_reinterpret_i64(u64 bits)
{
    f64 number;
    memcpy(&number, &bits, sizeof number);
    return number;
}

static inline u64 i64_reinterpret_f64(f64 number)
{
    u64 bits;
    memcpy(&bits, &number, sizeof bits);
    return bits;
}

static inline f64 f64_load(const wasm_rt_memory_t *memory, u64 address)
{
    return f64_reinterpret_i64(i64_load(memory, address));
}

STORE(i32_store, u32, 4)
STORE(i32_store8, u32, 1)
STORE(i32_store16, u32, 2)
STORE(i64_store, u64, 8)
STORE(i64_store8, u64, 1)
STORE(i64_store16, u64, 2)
STORE(i64_store32, u64, 4)

#define LOAD_DATA(memory, to, from, size) memcpy(at(&(memory), to, size), from, size)

static inline void memory_fill(wasm_rt_memory_t *memory, u32 to, u32 byte, u32 size)
{
    memset(at(memory, to, size), (int)byte, size);
}

static inline void memory_copy(wasm_rt_memory_t *memory, const wasm_rt_memory_t *same, u32 to, u32 from, u32 size)
{
    memmove(at(memory, to, size), at(same, from, size), size);
}

static inline u32 leading_zeros(u64 x, u32 bits)
{
    u32 count = 0;
    while (count < bits && (x >> (bits - 1 - count) & 1) == 0)
        count++;
    return count;
}

static inline u32 trailing_zeros(u64 x, u32 bits)
{
    u32 count = 0;
    while (count < bits && (x >> count & 1) == 0)
        count++;
    return count;
}

static inline u32 ones(u64 x)
{
    u32 count = 0;
    for (; x != 0; x &= x - 1)
        count++;
    return count;
}

#define I32_CLZ(x) leading_zeros(x, 32)
#define I64_CLZ(x) leading_zeros(x, 64)
#define I32_CTZ(x) trailing_zeros(x, 32)
#define I64_CTZ(x) trailing_zeros(x, 64)
#define I32_POPCNT(x) ones(x)
#define I64_POPCNT(x) ones(x)
#define DIV_U(x, y) ((y) == 0 ? TRAP() : (x) / (y))
#define REM_U(x, y) ((y) == 0 ? TRAP() : (x) % (y))
#define I32_ROTL(x, y) ((x) << ((y) & 31) | (x) >> (-(y) & 31))
#define I32_ROTR(x, y) ((x) >> ((y) & 31) | (x) << (-(y) & 31))
#define I64_ROTL(x, y) ((x) << ((y) & 63) | (x) >> (-(y) & 63))
#define I64_ROTR(x, y) ((x) >> ((y) & 63) | (x) << (-(y) & 63))

#ifdef PASSKEY_STATIC_MEMORY
static u8 static_memory[PASSKEY_STATIC_MEMORY];
#endif

/* Makes the memory of so many pages, and tells whether it could. The new ones are not set to 0, as WebAssembly has it: the module
 * reads nothing of its stack and its heap that it has not written. */
static bool resize(wasm_rt_memory_t *memory, u64 pages)
{
#ifdef PASSKEY_STATIC_MEMORY
    if (pages * PAGE > sizeof static_memory)
        return false;
    memory->data = static_memory;
#else
    if (pages >= PAGE || pages * PAGE > SIZE_MAX)
        return false;
    u8 *data = realloc(memory->data, (size_t)(pages * PAGE));
    if (data == NULL)
        return false;
    memory->data = data;
#endif
    memory->pages = (u32)pages;
    memory->size = (u32)(pages * PAGE);
    return true;
}

static u32 wasm_rt_grow_memory(wasm_rt_memory_t *memory, u32 more)
{
    u32 before = memory->pages;
    return resize(memory, (u64)before + more) ? before : UINT32_MAX;
}
