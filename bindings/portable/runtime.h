/*
 * The runtime of the module, in place of wasm2c's: an instance lives on the stack of the call, and its memory has four parts.
 *
 *     the stack     the module's own, ROOM bytes below TOP. Above its first frame are the results of a call
 *     DATA          the module's constants, which nothing writes
 *     ITEMS         the caller's buffer of spans or of text, or its push parser or probe
 *     BYTES         the caller's bytes, which nothing writes
 *
 * Nothing is allocated, no input is copied, and nothing is kept between two calls. Each read and each write is checked to lie within one
 * part, unless bindings/portable/regions.py found that it does whatever happens. One that does not is a trap, and so is all else that
 * WebAssembly calls one: the call returns IMAGESIZE_TRAPPED.
 *
 * The arithmetic below, from I32_CLZ on, is that of wasm2c, from WABT. TRAP, DEFINE_LOAD and DEFINE_STORE are from wasm2c too, and were
 * changed. Copyright 2018 WebAssembly Community Group participants. They are licensed under the Apache License, Version 2.0, which is at
 * the end of this file.
 */
typedef uint8_t u8;
typedef int8_t s8;
typedef uint16_t u16;
typedef int16_t s16;
typedef uint32_t u32;
typedef int32_t s32;
typedef uint64_t u64;
typedef int64_t s64;

#if defined __GNUC__ || defined __clang__
#define UNLIKELY(x) __builtin_expect(!!(x), 0)
#define NEVER_INLINED __attribute__((noinline))
#define INLINED inline __attribute__((always_inline))
#define NO_RETURN __attribute__((noreturn))
#else
#define UNLIKELY(x) (x)
#define NEVER_INLINED
#define INLINED inline
#define NO_RETURN
#endif

/*
 * Where numbers have their last byte first, as in WebAssembly, they are copied. Elsewhere, and where the compiler does not say it, they are
 * read and written byte by byte.
 */
#if (defined __BYTE_ORDER__ && __BYTE_ORDER__ == __ORDER_LITTLE_ENDIAN__) || defined _WIN32
#define IS_LITTLE 1
#else
#define IS_LITTLE 0
#endif

/* The value of `flip` for a buffer of spans: 7 where numbers have their first byte first, and else 0. */
static INLINED unsigned flip_of_host(void)
{
    const u16 one = 1;
    return *(const u8 *)&one != 0 ? 0 : 7;
}

/* The addresses of the caller's buffers, above those of the module. No buffer of a real machine has 2^61 bytes. */
#define BYTES (UINT64_C(1) << 30)
#define ITEMS (UINT64_C(1) << 62)

/* The module's memory. `flip` turns the index of a byte of a span into that of the host's byte: 7 where numbers have their first byte first. */
typedef struct wasm_rt_memory_t {
    const u8 *bytes;
    u64 length;
    u64 inner; /* from how many offsets on there are 16 bytes */
    const u8 *items;
    u64 size;
    u8 *written_items; /* the same buffer with its size, or NULL and 0 if nothing may write it */
    u64 written_size;
    u64 written_inner;
    unsigned flip;
    jmp_buf trap;
    u8 room[ROOM];
} wasm_rt_memory_t;

typedef struct Z_imagesize_instance_t {
    u64 w2c_g0; /* the module's stack pointer */
    VARIABLES
    wasm_rt_memory_t w2c_memory;
} Z_imagesize_instance_t;

/* On these systems setjmp also keeps the signals, by a call of the system. The others of both calls do not. */
#if defined __APPLE__ || defined __FreeBSD__ || defined __NetBSD__ || defined __OpenBSD__
#define MARK(mem) _setjmp((mem).trap)
#define BACK(trap) _longjmp(trap, 1)
#else
#define MARK(mem) setjmp((mem).trap)
#define BACK(trap) longjmp(trap, 1)
#endif

static NEVER_INLINED NO_RETURN void trapped(wasm_rt_memory_t *mem)
{
    BACK(mem->trap);
}

/* Whether `n` bytes from an address on lie within `size` bytes from `base` on. */
#define LIES(addr, n, base, size) ((n) <= (size) && (addr) - (base) <= (size) - (n))

/* The host's bytes of `n` bytes of the module, one or more, outside of its stack. */
static NEVER_INLINED const u8 *elsewhere(wasm_rt_memory_t *mem, u64 addr, u64 n)
{
    if (addr >= ITEMS) {
        if (LIES(addr, n, ITEMS, mem->size)) {
            return mem->items + (addr - ITEMS);
        }
    } else if (addr >= BYTES) {
        if (LIES(addr, n, BYTES, mem->length)) {
            return mem->bytes + (addr - BYTES);
        }
    } else if (LIES(addr, n, DATA, sizeof constants)) {
        return constants + (addr - DATA);
    }
    trapped(mem);
    return NULL; /* for compilers that do not know that a trap returns from the call */
}

/* The same for bytes that are written. */
static NEVER_INLINED u8 *written_elsewhere(wasm_rt_memory_t *mem, u64 addr, u64 n)
{
    if (LIES(addr, n, ITEMS, mem->written_size)) {
        return mem->written_items + (addr - ITEMS);
    }
    trapped(mem);
    return NULL;
}

#define IN_ROOM(addr, n) LIES(addr, n, TOP - ROOM, ROOM)

/* A function's frame is checked as a whole. Then its accesses of the frame are not, nor are those of the functions that it calls. */
#define CHECK_FRAME(base, n) \
    do { \
        if (UNLIKELY(!IN_ROOM(base, UINT64_C(n)))) { \
            trapped(&instance->w2c_memory); \
        } \
    } while (0)

/* The host's bytes of an address that lies in a part whatever happens: in the stack, in a state that is always there, or in one of both. */
#define IN_STACK(addr) (instance->w2c_memory.room + ((addr) - (TOP - ROOM)))
#define IN_STATE(addr) (instance->w2c_memory.items + ((addr) - ITEMS))
#define IN_STATE_WRITTEN(addr) (instance->w2c_memory.written_items + ((addr) - ITEMS))
#define IN_EITHER(addr) ((addr) >= ITEMS ? IN_STATE(addr) : IN_STACK(addr))
#define IN_EITHER_WRITTEN(addr) ((addr) >= ITEMS ? IN_STATE_WRITTEN(addr) : IN_STACK(addr))

/*
 * Whether `n` bytes lie in a buffer. If the compiler knows that there are 2 to 16, one comparison is enough. It does not see the last bytes
 * of the buffer, which are found elsewhere.
 */
#if defined __GNUC__ || defined __clang__
#define IS_KNOWN(n) __builtin_constant_p(n)
#else
#define IS_KNOWN(n) 0
#endif
#define IS_INNER(addr, n, base, size, inner) \
    (IS_KNOWN(n) && (n) == 1    ? (addr) - (base) < (size) \
     : IS_KNOWN(n) && (n) <= 16 ? (addr) - (base) < (inner) \
                                : LIES(addr, n, base, size))

static INLINED const u8 *at(wasm_rt_memory_t *mem, u64 addr, u64 n)
{
    return IS_INNER(addr, n, BYTES, mem->length, mem->inner) ? mem->bytes + (addr - BYTES)
           : IN_ROOM(addr, n)                                ? mem->room + (addr - (TOP - ROOM))
                                                             : elsewhere(mem, addr, n);
}

static INLINED u8 *written_at(wasm_rt_memory_t *mem, u64 addr, u64 n)
{
    return IN_ROOM(addr, n)                                                    ? mem->room + (addr - (TOP - ROOM))
           : IS_INNER(addr, n, ITEMS, mem->written_size, mem->written_inner) ? mem->written_items + (addr - ITEMS)
                                                                               : written_elsewhere(mem, addr, n);
}

#if IS_LITTLE

/* Accesses that are near each other, and of which all happen or none, are checked together. */
typedef const u8 *READ_NEAR;
typedef u8 *WRITTEN_NEAR;
#define READ_AT(mem, addr, n) at(mem, addr, n)
#define WRITTEN_AT(mem, addr, n) written_at(mem, addr, n)

#define DEFINE_LOAD(name, t1, t2, t3) \
    static INLINED t3 known_##name(const u8 *from) \
    { \
        t1 result; \
        memcpy(&result, from, sizeof result); \
        return (t3)(t2)result; \
    } \
    static INLINED t3 name(wasm_rt_memory_t *mem, u64 addr) \
    { \
        return known_##name(at(mem, addr, sizeof(t1))); \
    } \
    static INLINED t3 near_##name(wasm_rt_memory_t *mem, READ_NEAR from) \
    { \
        (void)mem; \
        return known_##name(from); \
    }

#define DEFINE_STORE(name, t1, t2) \
    static INLINED void known_##name(u8 *to, t2 value) \
    { \
        t1 wrapped = (t1)value; \
        memcpy(to, &wrapped, sizeof wrapped); \
    } \
    static INLINED void name(wasm_rt_memory_t *mem, u64 addr, t2 value) \
    { \
        known_##name(written_at(mem, addr, sizeof(t1)), value); \
    } \
    static INLINED void near_##name(wasm_rt_memory_t *mem, WRITTEN_NEAR to, t2 value) \
    { \
        (void)mem; \
        known_##name(to, value); \
    }

#else

/* Whether an address is that of a span, whose bytes have another order. */
#define IS_FLIPPED(mem, addr) ((mem)->flip != 0 && (addr) >= ITEMS)

/* Each is checked alone. */
typedef u64 READ_NEAR;
typedef u64 WRITTEN_NEAR;
#define READ_AT(mem, addr, n) (addr)
#define WRITTEN_AT(mem, addr, n) (addr)

/* The `n` bytes of a number, its last byte first. */
static inline u64 number_at(wasm_rt_memory_t *mem, u64 addr, unsigned n)
{
    const u8 *from = IS_FLIPPED(mem, addr) ? elsewhere(mem, addr, n) - (addr - ITEMS) : at(mem, addr, n);
    u64 start = IS_FLIPPED(mem, addr) ? addr - ITEMS : 0, result = 0;
    unsigned flip = IS_FLIPPED(mem, addr) ? mem->flip : 0;
    for (unsigned i = 0; i < n; i++) {
        result |= (u64)from[(start + i) ^ flip] << 8 * i;
    }
    return result;
}

/* The same for bytes that are no span's. */
static inline u64 number_from(const u8 *from, unsigned n)
{
    u64 result = 0;
    for (unsigned i = 0; i < n; i++) {
        result |= (u64)from[i] << 8 * i;
    }
    return result;
}

static inline void put_number(u8 *to, unsigned n, u64 value)
{
    for (unsigned i = 0; i < n; i++) {
        to[i] = (u8)(value >> 8 * i);
    }
}

static inline void put_number_at(wasm_rt_memory_t *mem, u64 addr, unsigned n, u64 value)
{
    u8 *to = IS_FLIPPED(mem, addr) ? written_at(mem, addr, n) - (addr - ITEMS) : written_at(mem, addr, n);
    u64 start = IS_FLIPPED(mem, addr) ? addr - ITEMS : 0;
    unsigned flip = IS_FLIPPED(mem, addr) ? mem->flip : 0;
    for (unsigned i = 0; i < n; i++) {
        to[(start + i) ^ flip] = (u8)(value >> 8 * i);
    }
}

#define DEFINE_LOAD(name, t1, t2, t3) \
    static inline t3 name(wasm_rt_memory_t *mem, u64 addr) \
    { \
        return (t3)(t2)(t1)number_at(mem, addr, sizeof(t1)); \
    } \
    static inline t3 known_##name(const u8 *from) \
    { \
        return (t3)(t2)(t1)number_from(from, sizeof(t1)); \
    } \
    static inline t3 near_##name(wasm_rt_memory_t *mem, u64 addr) \
    { \
        return name(mem, addr); \
    }

#define DEFINE_STORE(name, t1, t2) \
    static inline void name(wasm_rt_memory_t *mem, u64 addr, t2 value) \
    { \
        put_number_at(mem, addr, sizeof(t1), (t1)value); \
    } \
    static inline void known_##name(u8 *to, t2 value) \
    { \
        put_number(to, sizeof(t1), (t1)value); \
    } \
    static inline void near_##name(wasm_rt_memory_t *mem, u64 addr, t2 value) \
    { \
        name(mem, addr, value); \
    }

#endif

DEFINE_LOAD(i32_load, u32, u32, u32)
DEFINE_LOAD(i64_load, u64, u64, u64)
DEFINE_LOAD(i32_load8_s, s8, s32, u32)
DEFINE_LOAD(i64_load8_s, s8, s64, u64)
DEFINE_LOAD(i32_load8_u, u8, u32, u32)
DEFINE_LOAD(i64_load8_u, u8, u64, u64)
DEFINE_LOAD(i32_load16_s, s16, s32, u32)
DEFINE_LOAD(i64_load16_s, s16, s64, u64)
DEFINE_LOAD(i32_load16_u, u16, u32, u32)
DEFINE_LOAD(i64_load16_u, u16, u64, u64)
DEFINE_LOAD(i64_load32_s, s32, s64, u64)
DEFINE_LOAD(i64_load32_u, u32, u64, u64)
DEFINE_STORE(i32_store, u32, u32)
DEFINE_STORE(i64_store, u64, u64)
DEFINE_STORE(i32_store8, u8, u32)
DEFINE_STORE(i32_store16, u16, u32)
DEFINE_STORE(i64_store8, u8, u64)
DEFINE_STORE(i64_store16, u16, u64)
DEFINE_STORE(i64_store32, u32, u64)

/* Copies a number of bytes that the compiler knows, by moves. They may overlap. */
#define COPY(to, from, n) \
    do { \
        u8 between[n]; \
        memcpy(between, from, n); \
        memcpy(to, between, n); \
    } while (0)

/* Fills many bytes by a call. Compilers that know the number would write a slower loop. */
static NEVER_INLINED void fill(u8 *to, u32 value, size_t n)
{
    volatile size_t all = n;
    memset(to, (u8)value, all);
}

/* An empty range may have any address. */
static NEVER_INLINED void memory_fill(wasm_rt_memory_t *mem, u64 to, u32 value, u64 n)
{
    if (n == 0) {
        return;
    }
    memset(written_at(mem, to, n), (u8)value, (size_t)n);
}

static NEVER_INLINED void memory_copy(wasm_rt_memory_t *mem, wasm_rt_memory_t *same, u64 to, u64 from, u64 n)
{
    const u8 *source;
    u8 *target;
    (void)same;
    if (n == 0) {
        return;
    }
    source = at(mem, from, n);
    target = written_at(mem, to, n);
#if !IS_LITTLE
    if (IS_FLIPPED(mem, to) || IS_FLIPPED(mem, from)) {
        /* Spans and the stack do not overlap. */
        u64 start = IS_FLIPPED(mem, from) ? from - ITEMS : 0, first = IS_FLIPPED(mem, to) ? to - ITEMS : 0;
        if ((start | first) % 8 != 0 || n % 8 != 0) {
            trapped(mem);
        }
        for (u64 i = 0; i < n; i++) {
            target[IS_FLIPPED(mem, to) ? i ^ mem->flip : i] = source[IS_FLIPPED(mem, from) ? i ^ mem->flip : i];
        }
        return;
    }
#endif
    memmove(target, source, (size_t)n);
}

#define TRAP(x) (trapped(&instance->w2c_memory), 0)
#define UNREACHABLE TRAP(UNREACHABLE)
#define FUNC_PROLOGUE
#define FUNC_EPILOGUE

#if defined __GNUC__ || defined __clang__
#define I32_CLZ(x) ((x) ? (u32)__builtin_clz(x) : 32)
#define I64_CLZ(x) ((x) ? (u64)__builtin_clzll(x) : 64)
#define I32_CTZ(x) ((x) ? (u32)__builtin_ctz(x) : 32)
#define I64_CTZ(x) ((x) ? (u64)__builtin_ctzll(x) : 64)
#define I32_POPCNT(x) ((u32)__builtin_popcount(x))
#define I64_POPCNT(x) ((u64)__builtin_popcountll(x))
#else
static u64 I64_POPCNT(u64 x)
{
    u64 n;
    for (n = 0; x != 0; n++) {
        x &= x - 1;
    }
    return n;
}

static u64 I64_CTZ(u64 x)
{
    return I64_POPCNT(~x & (x - 1));
}

static u64 I64_CLZ(u64 x)
{
    unsigned by;
    for (by = 1; by < 64; by *= 2) {
        x |= x >> by;
    }
    return 64 - I64_POPCNT(x);
}

#define I32_POPCNT(x) ((u32)I64_POPCNT(x))
#define I32_CTZ(x) ((u32)I64_CTZ((x) | UINT64_C(1) << 32))
#define I32_CLZ(x) ((u32)(I64_CLZ(x) - 32))
#endif

#define DIV_S(ut, min, x, y) \
    ((UNLIKELY((y) == 0)) ? (ut)TRAP(DIV_BY_ZERO) \
                          : (UNLIKELY((x) == (min) && (y) == -1)) ? (ut)TRAP(INT_OVERFLOW) \
                                                                  : (ut)((x) / (y)))

#define REM_S(ut, min, x, y) \
    ((UNLIKELY((y) == 0)) ? (ut)TRAP(DIV_BY_ZERO) : (UNLIKELY((x) == (min) && (y) == -1)) ? 0 : (ut)((x) % (y)))

#define I32_DIV_S(x, y) DIV_S(u32, INT32_MIN, (s32)x, (s32)y)
#define I64_DIV_S(x, y) DIV_S(u64, INT64_MIN, (s64)x, (s64)y)
#define I32_REM_S(x, y) REM_S(u32, INT32_MIN, (s32)x, (s32)y)
#define I64_REM_S(x, y) REM_S(u64, INT64_MIN, (s64)x, (s64)y)

#define DIVREM_U(op, x, y) ((UNLIKELY((y) == 0)) ? TRAP(DIV_BY_ZERO) : ((x)op(y)))

#define DIV_U(x, y) DIVREM_U(/, x, y)
#define REM_U(x, y) DIVREM_U(%, x, y)

#define ROTL(x, y, mask) (((x) << ((y) & (mask))) | ((x) >> (((mask) - (y) + 1) & (mask))))
#define ROTR(x, y, mask) (((x) >> ((y) & (mask))) | ((x) << (((mask) - (y) + 1) & (mask))))

#define I32_ROTL(x, y) ROTL(x, y, 31)
#define I64_ROTL(x, y) ROTL(x, y, 63)
#define I32_ROTR(x, y) ROTR(x, y, 31)
#define I64_ROTR(x, y) ROTR(x, y, 63)
