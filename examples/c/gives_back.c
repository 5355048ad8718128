/* SPDX-License-Identifier: BSD-3-Clause */
/*
 * Whether the library gives back what it takes: the blocks that are held before a handle is filled
 * and after it is freed, each kind of handle a thousand times, with calls that are refused.
 *
 * It counts the calls of malloc, realloc and free, so it is linked by a linker that wraps them:
 *
 *     cc .. -Wl,--wrap=malloc,--wrap=realloc,--wrap=free gives_back.c ..
 */
#include <inttypes.h>
#include <stdio.h>
#include <stdlib.h>
#include <string.h>

#include "aclc.h"

enum { ROUNDS = 1000, MOST_FIELDS = 10, MOST_RULES = 7, KEYS = 16, CATEGORIES = 4, BUDGET = 100000 };

/* The fields of an image's two tables, whose keys have 13 bytes and 37. */
enum { IP4 = 4, IP6 = 10 };

/* Blocks that were taken and not given back. */
static long held;

void *__real_malloc(size_t size);
void *__real_realloc(void *block, size_t size);
void __real_free(void *block);

void *__wrap_malloc(size_t size) {
    void *block = __real_malloc(size);
    held += block != NULL;
    return block;
}

void *__wrap_realloc(void *block, size_t size) {
    return block == NULL ? __wrap_malloc(size) : __real_realloc(block, size);
}

void __wrap_free(void *block) {
    held -= block != NULL;
    __real_free(block);
}

static void expect(const char *call, aclc_code answer, aclc_code wanted) {
    if (answer != wanted) {
        fprintf(stderr, "gives_back: %s answers %" PRIu32 " and not %" PRIu32 "\n", call, answer, wanted);
        exit(1);
    }
}

/* What a refused call, or one that takes no memory, may not change. */
static void expect_held(const char *call, long before) {
    if (held != before) {
        fprintf(stderr, "gives_back: %s: %ld blocks are held and not %ld\n", call, held, before);
        exit(1);
    }
}

/* Makes a context of one field of a byte and others of four, in place of an empty handle. */
static void create(struct aclc_context *context, size_t count) {
    struct aclc_field fields[MOST_FIELDS];
    uint32_t place;
    long before = held;
    for (size_t i = 0; i < count; i++)
        fields[i] = (struct aclc_field){ACLC_FIELD_MASK, i ? 4 : 1, (uint8_t)i, (uint8_t)i, (uint32_t)i * 4};
    fields[1].size = 3;
    expect("aclc_create", aclc_create(context, fields, count, MOST_RULES, &place), ACLC_BAD_SIZE);
    fields[1].size = 4;
    expect_held("aclc_create that is refused", before);
    expect("aclc_create", aclc_create(context, fields, count, MOST_RULES, &place), ACLC_OK);
}

/* Adds rules, in one call that is refused for its last rule, and in one that isn't. */
static void add(struct aclc_context *context, size_t fields, uint32_t rules) {
    struct aclc_rule all[MOST_RULES];
    struct aclc_value values[MOST_RULES * MOST_FIELDS];
    uint32_t rule, field;
    long before = held;
    for (uint32_t i = 0; i < rules; i++) {
        all[i] = (struct aclc_rule){1, (int32_t)i, i + 1};
        for (size_t j = 0; j < fields; j++)
            values[i * fields + j] = (struct aclc_value){i, j == 1 ? 32 : 0};
    }
    all[rules - 1].priority = -1;
    expect("aclc_add_rules", aclc_add_rules(context, all, rules, values, rules * fields, &rule, &field),
           ACLC_PRIORITY_RANGE);
    expect_held("aclc_add_rules that is refused", before);
    all[rules - 1].priority = 1;
    expect("aclc_add_rules", aclc_add_rules(context, all, rules, values, rules * fields, &rule, &field), ACLC_OK);
}

/* Makes a context with rules, builds its table twice, and a third time with too few words. */
static void build(struct aclc_context *context, size_t fields, uint32_t rules) {
    uint64_t words;
    create(context, fields);
    add(context, fields, rules);
    expect("aclc_build", aclc_build(context, BUDGET, &words), ACLC_OK);
    long before = held;
    expect("aclc_build", aclc_build(context, BUDGET, &words), ACLC_OK);
    expect("aclc_build", aclc_build(context, 1, &words), ACLC_TOO_LARGE);
    expect_held("aclc_build", before);
}

/* Asks a table for verdicts by both walks, in room that is made twice, and for marks. */
static void ask(struct aclc_table *table, size_t fields) {
    static const uint8_t keys[KEYS * 37];
    uint32_t verdicts[KEYS * CATEGORIES];
    uint8_t marks[KEYS * CATEGORIES];
    uint64_t transitions;
    size_t len = KEYS * (fields == IP4 ? 13 : 37);
    expect("aclc_table_lanes", aclc_table_lanes(table, 1), ACLC_OK);
    expect("aclc_table_lanes", aclc_table_lanes(table, KEYS), ACLC_OK);
    long before = held;
    for (uint32_t walk = ACLC_WALK_SCALAR; walk <= ACLC_WALK_LANES; walk++)
        expect("aclc_table_classify",
               aclc_table_classify(table, keys, len, CATEGORIES, walk, verdicts, KEYS * CATEGORIES, &transitions),
               ACLC_OK);
    expect("aclc_table_marks", aclc_table_marks(table, keys, len, CATEGORIES, marks, KEYS * CATEGORIES), ACLC_OK);
    expect_held("aclc_table_classify and aclc_table_marks", before);
}

/* Fills a handle with the table of some rules, whose context is freed. */
static void make(struct aclc_table *table, size_t fields, uint32_t rules) {
    struct aclc_context context = {0};
    build(&context, fields, rules);
    expect("aclc_table_copy", aclc_table_copy(&context, table), ACLC_OK);
    long before = held;
    expect("aclc_table_copy", aclc_table_copy(&context, table), ACLC_TAKEN);
    expect_held("aclc_table_copy that is refused", before);
    aclc_free(&context);
}

/* A context, whose rules and table are removed in one round, and are there at the end in the next. */
static void use_context(uint32_t rules) {
    struct aclc_context context = {0};
    build(&context, IP4, rules);
    expect("aclc_lanes", aclc_lanes(&context, KEYS), ACLC_OK);
    expect("aclc_lanes", aclc_lanes(&context, 2 * KEYS), ACLC_OK);
    if (rules % 2) {
        expect("aclc_reset_rules", aclc_reset_rules(&context), ACLC_OK);
        add(&context, IP4, rules);
        expect("aclc_reset", aclc_reset(&context), ACLC_OK);
    }
    aclc_free(&context);
    aclc_free(&context);
}

/* A copy of a table. */
static void use_copy(uint32_t rules) {
    struct aclc_table table = {0};
    make(&table, IP4, rules);
    ask(&table, IP4);
    aclc_table_free(&table);
    aclc_table_free(&table);
}

/* Three handles of one table, freed in either order. */
static void use_share(uint32_t rules) {
    struct aclc_table tables[3] = {{0}, {0}, {0}};
    make(&tables[0], IP6, rules);
    for (int i = 1; i < 3; i++)
        expect("aclc_table_share", aclc_table_share(&tables[0], &tables[i]), ACLC_OK);
    long before = held;
    expect("aclc_table_share", aclc_table_share(&tables[0], &tables[1]), ACLC_TAKEN);
    expect_held("aclc_table_share that is refused", before);
    for (int i = 0; i < 3; i++)
        ask(&tables[i], IP6);
    for (int i = 0; i < 3; i++)
        aclc_table_free(&tables[rules % 2 ? i : 2 - i]);
}

/* Two tables that are saved, and two that are loaded of it, after bytes that are no image. */
static void use_load(uint32_t rules) {
    struct aclc_table saved[2] = {{0}, {0}}, loaded[2] = {{0}, {0}};
    uint64_t place;
    size_t len = 0;
    make(&saved[0], IP4, rules);
    make(&saved[1], IP6, rules);
    expect("aclc_save", aclc_save(&saved[0], &saved[1], NULL, 0, &len), ACLC_NO_ROOM);
    uint8_t *image = malloc(len);
    if (image == NULL)
        expect("malloc", ACLC_NO_MEMORY, ACLC_OK);
    long before = held;
    expect("aclc_save", aclc_save(&saved[0], &saved[1], image, len, &len), ACLC_OK);
    expect_held("aclc_save", before);
    expect("aclc_load", aclc_load(&loaded[0], &loaded[1], image, len - 1, &place), ACLC_IMAGE_LENGTH);
    expect_held("aclc_load that is refused", before);
    expect("aclc_load", aclc_load(&loaded[0], &loaded[1], image, len, &place), ACLC_OK);
    free(image);
    ask(&loaded[0], IP4);
    ask(&loaded[1], IP6);
    for (int i = 0; i < 2; i++) {
        aclc_table_free(&saved[i]);
        aclc_table_free(&loaded[i]);
    }
}

static const struct {
    const char *name;
    void (*use)(uint32_t rules);
} HANDLES[] = {
    {"a context", use_context},
    {"a copy of a table", use_copy},
    {"a table that is shared", use_share},
    {"tables that are loaded", use_load},
};

int main(void) {
    for (size_t i = 0; i < sizeof HANDLES / sizeof HANDLES[0]; i++) {
        long before = held;
        for (uint32_t round = 0; round < ROUNDS; round++)
            HANDLES[i].use(1 + round % MOST_RULES);
        expect_held(HANDLES[i].name, before);
    }
    puts("each handle gives back what it took");
    return 0;
}
