/* SPDX-License-Identifier: BSD-3-Clause
 *
 * The heap of the module for browsers: the calls by which the proved code asks for memory, over the module's own. It isn't
 * proved; packaging/browser/test_heap.c tries it.
 *
 *     | size: 8 | unused: 8 | bytes |      a block, at a multiple of 16; `size` counts all of it
 *
 * A block has one of four sizes for each power of two: 64, 80, 96, 112, 128, 160 and so on. A block that is given back is kept
 * in a list of its size, and taken from there first. The last block goes back to the unused end of the memory, and grows and
 * shrinks where it is. When all blocks were given back, which is so after each call of the page, all memory is unused again.
 *
 * Where the engine gives no more memory, or a limit is reached, that is answered, and nothing changes.
 */
typedef unsigned char byte;
typedef unsigned long long u64;

/* What an asking gets: whether there was memory, and where. */
struct asked {
    u64 ok;
    u64 at;
};

#define HEAD 16ull
#define LEAST 64ull
#define MOST (1ull << 40)
#define SIZES 160

#ifdef __wasm__
extern byte __heap_base;
#define PAGE 65536ull

static u64 memory_begin(void) {
    return (u64)&__heap_base;
}

static u64 memory_end(void) {
    return __builtin_wasm_memory_size(0) * PAGE;
}

/* Whether the memory has this end now. A refusal is -1, or 2^32 - 1 once the module is lowered to 32 bits. */
static int memory_grows_to(u64 end) {
    u64 pages = (end - memory_end() + PAGE - 1) / PAGE;
    u64 was = __builtin_wasm_memory_grow(0, pages);
    return was != ~0ull && was != 0xffffffffull;
}

#define EXPORT(name) __attribute__((export_name(name)))
#else
/* A trial outside a module has a memory of its own. */
static u64 memory_begin(void);
static u64 memory_end(void);
static int memory_grows_to(u64 end);
#define EXPORT(name)
#endif

static u64 top;             /* where the unused memory begins; 0: nothing is taken */
static u64 limit;           /* where it ends at most; 0: where the engine says */
static u64 given[SIZES];    /* the blocks of each size that were given back: the first of them, each with the next one after its head */
static u64 used, peak;      /* how many bytes the blocks that are taken have, and had at most */

/* The number of the least size of blocks with at least so many bytes, of which there are at least LEAST. */
static unsigned size_number(u64 bytes) {
    unsigned power = 63 - (unsigned)__builtin_clzll(bytes);
    u64 quarter = 1ull << (power - 2);
    return (power - 6) * 4 + (unsigned)((bytes - (1ull << power) + quarter - 1) / quarter);
}

static u64 size_of_number(unsigned number) {
    unsigned power = number / 4 + 6;
    return (1ull << power) + (u64)(number % 4) * (1ull << (power - 2));
}

/* The number of the size of a block that holds so many bytes. */
static unsigned number_for(u64 bytes) {
    return size_number(bytes + HEAD < LEAST ? LEAST : bytes + HEAD);
}

static u64 *size_at(u64 block) {
    return (u64 *)block;
}

static u64 *next_at(u64 block) {
    return (u64 *)(block + HEAD);
}

static int reaches(u64 end) {
    return (!limit || end <= limit) && (end <= memory_end() || memory_grows_to(end));
}

static void count_used(u64 bytes) {
    used += bytes;
    if (used > peak)
        peak = used;
}

/* The address of so many bytes, or 0. */
static u64 take(u64 bytes) {
    if (bytes >= MOST)
        return 0;
    unsigned number = number_for(bytes);
    u64 size = size_of_number(number), block = given[number];
    if (block) {
        given[number] = *next_at(block);
    } else {
        block = top ? top : (memory_begin() + 15) & ~15ull;
        if (!reaches(block + size))
            return 0;
        top = block + size;
        *size_at(block) = size;
    }
    count_used(size);
    return block + HEAD;
}

/* Takes back what `take` answered. */
static void give(u64 at) {
    u64 block = at - HEAD, size = *size_at(block);
    used -= size;
    if (used == 0) {
        top = 0;
        for (unsigned number = 0; number < SIZES; number++)
            given[number] = 0;
    } else if (block + size == top) {
        top = block;
    } else {
        *next_at(block) = given[size_number(size)];
        given[size_number(size)] = block;
    }
}

/* Makes the last block as large as it has to be for so many bytes, and says whether it could. */
static int resizes_last(u64 block, u64 bytes) {
    u64 was = *size_at(block), size = size_of_number(number_for(bytes));
    if (!reaches(block + size))
        return 0;
    top = block + size;
    *size_at(block) = size;
    used -= was;
    count_used(size);
    return 1;
}

static struct asked answer(u64 at) {
    static _Alignas(16) byte nothing[16];
    struct asked asked = {at != 0, at ? at : (u64)nothing};
    return asked;
}

/* Asks for so many bytes at a multiple of `align`, which is at most 16. */
struct asked rattle_alloc(u64 bytes, u64 align) {
    return answer(align > 16 ? 0 : take(bytes));
}

/* Asks for a block of another length, which begins with the first `kept` bytes of this one. Where there is no memory, this one
 * stays as it is. */
struct asked rattle_realloc(u64 at, u64 kept, u64 bytes, u64 align) {
    u64 block = at - HEAD, size = *size_at(block), moved;
    if (align > 16 || bytes >= MOST)
        return answer(0);
    if (bytes + HEAD <= size && bytes + HEAD > size / 4)
        return answer(at);
    if (block + size == top && resizes_last(block, bytes))
        return answer(at);
    moved = take(bytes);
    if (moved) {
        __builtin_memcpy((void *)moved, (void *)at, kept < bytes ? kept : bytes);
        give(at);
    }
    return answer(moved);
}

void rattle_dealloc(u64 at) {
    give(at);
}

/* The page takes memory for what it lends, and gives it back. 0: there is none. */
EXPORT("page_take") u64 page_take(u64 bytes) {
    return take(bytes);
}

EXPORT("page_give") void page_give(u64 at) {
    if (at)
        give(at);
}

/* Has the heap end there at most; 0: where the engine says. Tests make memory run out by it. */
EXPORT("heap_limit") void heap_limit(u64 end) {
    limit = end;
}

/* How many bytes are taken now, and were taken at most. */
EXPORT("heap_used") u64 heap_used(void) {
    return used;
}

EXPORT("heap_peak") u64 heap_peak(void) {
    return peak;
}
