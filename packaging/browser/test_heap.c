/* SPDX-License-Identifier: BSD-3-Clause
 *
 * Tries heap.c and calls.c outside a module, over a memory that grows by 64 KiB and refuses at an end:
 *
 *     cc -std=gnu11 -O1 -fsanitize=address,undefined test_heap.c -o test_heap && ./test_heap
 *
 * Blocks are taken, changed in length and given back as drawn numbers say. Each stands at a multiple of 16, has the bytes that
 * were written to it, and no two share one. Its last line is "heap: N steps".
 */
#include <stdio.h>
#include <stdlib.h>
#include <string.h>

#include "heap.c"

#define memcmp own_memcmp
#define bcmp own_bcmp
#define memcpy own_memcpy
#define memmove own_memmove
#define memset own_memset
#define byte calls_byte
#define u64 calls_u64
#define u128 calls_u128
#include "calls.c"
#undef memcmp
#undef bcmp
#undef memcpy
#undef memmove
#undef memset
#undef byte
#undef u64
#undef u128

#define MEMORY (1ull << 26)
#define STEPS 40000
#define HELD 300

static byte *memory;
static u64 grown;

static u64 memory_begin(void) {
    return (u64)memory + 5;    /* a module's heap may begin anywhere */
}

static u64 memory_end(void) {
    return (u64)memory + grown;
}

static int memory_grows_to(u64 end) {
    u64 wanted = (end - (u64)memory + 65535) / 65536 * 65536;
    if (wanted > MEMORY)
        return 0;
    grown = wanted;
    return 1;
}

static void check(int holds, const char *what) {
    if (!holds) {
        fprintf(stderr, "test_heap: %s\n", what);
        exit(1);
    }
}

static u64 drawn(void) {
    static u64 state = 42;
    state ^= state << 13;
    state ^= state >> 7;
    state ^= state << 17;
    return state;
}

/* A length: mostly short, sometimes long. */
static u64 drawn_len(void) {
    return drawn() % (1ull << drawn() % 18);
}

struct held {
    u64 at, len;
    byte fill;
};

static struct held held[HELD];

static void fill(struct held *block, u64 from) {
    memset((void *)(block->at + from), block->fill, block->len - from);
}

static void check_block(const struct held *block) {
    check(block->at % 16 == 0, "a block isn't at a multiple of 16");
    check(block->at >= memory_begin() && block->at + block->len <= memory_end(), "a block is out of the memory");
    for (u64 at = 0; at < block->len; at++)
        check(((byte *)block->at)[at] == block->fill, "a block has lost bytes");
}

static void check_apart(const struct held *block) {
    for (int other = 0; other < HELD; other++)
        if (held[other].at && &held[other] != block)
            check(block->at + block->len <= held[other].at || held[other].at + held[other].len <= block->at, "two blocks overlap");
}

/* Takes a block, or one of another length, or gives one back. */
static int step(void) {
    struct held *block = &held[drawn() % HELD];
    u64 len = drawn_len(), was = block->len;
    struct asked asked;
    if (!block->at) {
        asked = rattle_alloc(len, 1ull << drawn() % 5);
        was = 0;
        block->fill = (byte)drawn();
    } else if (drawn() % 3 == 0) {
        check_block(block);
        rattle_dealloc(block->at);
        block->at = 0;
        return 1;
    } else {
        check_block(block);
        was = was < len ? was : len;
        asked = rattle_realloc(block->at, was, len, 8);
    }
    check(asked.at != 0, "an answer has no address");
    if (!asked.ok)
        return 0;
    block->at = asked.at;
    block->len = len;
    fill(block, was);
    check_block(block);
    check_apart(block);
    return 1;
}

/* Runs the steps, and says how many were refused for want of memory. */
static int run(int steps) {
    int refused = 0;
    for (int number = 0; number < steps; number++)
        refused += !step();
    for (int place = 0; place < HELD; place++)
        if (held[place].at) {
            check_block(&held[place]);
            page_give(held[place].at);
            held[place].at = 0;
        }
    check(heap_used() == 0, "bytes are taken after all was given back");
    return refused;
}

/* Blocks of each length up to 70,000 hold it, and the least sizes are those that the head of heap.c names. */
static void sizes(void) {
    static const u64 least[] = {64, 80, 96, 112, 128, 160, 192, 224, 256};
    for (unsigned number = 0; number < sizeof least / sizeof *least; number++)
        check(size_of_number(number) == least[number], "a size isn't that of the head");
    for (u64 len = 0; len < 70000; len++) {
        unsigned number = number_for(len);
        check(size_of_number(number) >= len + HEAD, "a block is too small");
        check(number == 0 || size_of_number(number - 1) < len + HEAD, "a block is larger than it has to be");
        check(size_of_number(number) % 16 == 0, "a size isn't a multiple of 16");
    }
    for (unsigned number = 0; number < SIZES && size_of_number(number) < MOST; number++)
        check(size_number(size_of_number(number)) == number, "a size has another number");
}

/* What was given back is taken again, and an end that is too near is told. */
static void reuse_and_want(void) {
    u64 first = page_take(1000), second = page_take(1000), third;
    page_give(first);
    third = page_take(1000);
    check(third == first, "a block that was given back isn't taken again");
    heap_limit(second + 1000 + 65536);
    check(page_take(1 << 20) == 0 && !rattle_alloc(1 << 20, 8).ok, "a limit is passed");
    check(!rattle_realloc(second, 1000, 1 << 20, 8).ok, "a limit is passed by growing");
    memset((void *)second, 7, 1000);
    heap_limit(0);
    check(rattle_realloc(second, 1000, 1 << 20, 8).at == second, "the last block doesn't grow where it is");
    check(!rattle_alloc(MEMORY, 8).ok && !rattle_alloc(~0ull, 8).ok && !rattle_alloc(8, 32).ok, "what can't be had is given");
    check(rattle_alloc(0, 1).ok, "no bytes can't be had");
    page_give(0);
    used = top = 0;
    memset(given, 0, sizeof given);
}

static void numbers(void) {
    for (int number = 0; number < 100000; number++) {
        unsigned __int128 one = (unsigned __int128)drawn() << 64 | drawn(), two = (unsigned __int128)drawn() << 64 | drawn();
        int bits = (int)(drawn() % 128);
        check(__multi3(one, two) == one * two, "a product is wrong");
        check(__ashlti3(one, bits) == one << bits && __lshrti3(one, bits) == one >> bits, "a shift is wrong");
    }
}

static void bytes(void) {
    byte one[40], two[40];
    for (int number = 0; number < 20000; number++) {
        u64 len = drawn() % 40;
        for (u64 at = 0; at < 40; at++)
            one[at] = two[at] = (byte)drawn();
        if (drawn() % 2 && len)
            two[drawn() % len] = (byte)drawn();
        int ours = own_memcmp(one, two, len), theirs = memcmp(one, two, len);
        check((ours < 0) == (theirs < 0) && (ours > 0) == (theirs > 0) && !own_bcmp(one, two, len) == !theirs, "bytes compare otherwise");
    }
}

int main(void) {
    memory = aligned_alloc(65536, MEMORY);
    check(memory != 0, "no memory for the trial");
    sizes();
    reuse_and_want();
    int refused = run(STEPS);
    check(refused == 0, "memory runs out too soon");
    heap_limit(memory_begin() + (1 << 20));
    check(run(STEPS / 4) > 0, "memory never runs out");
    numbers();
    bytes();
    printf("heap: %d steps\n", STEPS + STEPS / 4);
    return 0;
}
