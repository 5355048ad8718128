/* SPDX-License-Identifier: BSD-3-Clause */
/*
 * Tables that are saved and loaded in random orders of calls, lawful and not, each answer compared
 * with what it has to be. A table that was loaded has to give the verdicts and marks of the table
 * that was saved, and the same bytes when it is saved again.
 *
 *     images SEED COUNT    makes COUNT orders of twenty calls, and ends with 1 at the first wrong answer
 */
#include <inttypes.h>
#include <stdio.h>
#include <stdlib.h>
#include <string.h>

#include "aclc.h"

enum { CALLS = 20, TABLES = 4, RULES = 6, KEYS = 16, CATEGORIES = 4, MOST_FIELDS = 10 };

/* The three kinds of keys: those of an image's two tables, and others. */
enum { IP4, IP6, OTHER, KINDS };

static const size_t FIELD_COUNT[KINDS] = {4, 10, 3}, KEY_LEN[KINDS] = {13, 37, 9};

/* What a handle has to hold: what its table says of the keys of its kind. */
struct expected {
    int held, kind;
    uint32_t verdicts[KEYS * CATEGORIES];
    uint8_t marks[KEYS * CATEGORIES];
};

/* The bytes of the last image that was saved. */
struct image {
    uint8_t *bytes;
    size_t len;
    struct expected are[2];
};

static uint8_t keys[KINDS][KEYS * 37];
static uint64_t state;

static uint32_t below(uint32_t most) {
    state = state * 6364136223846793005u + 1442695040888963407u;
    return (uint32_t)(state >> 33) % most;
}

static void fail(const char *what) {
    fprintf(stderr, "images: %s\n", what);
    exit(1);
}

static void expect(const char *call, aclc_code answer, aclc_code wanted) {
    if (answer != wanted) {
        fprintf(stderr, "images: %s answers %" PRIu32 " and not %" PRIu32 "\n", call, answer, wanted);
        exit(1);
    }
}

/* What a table says of the keys of its kind. */
static void asked(struct aclc_table *table, int kind, struct expected *is) {
    uint64_t transitions;
    size_t len = KEYS * KEY_LEN[kind];
    is->held = 1;
    is->kind = kind;
    expect("aclc_table_classify",
           aclc_table_classify(table, keys[kind], len, CATEGORIES, ACLC_WALK_SCALAR, is->verdicts,
                               KEYS * CATEGORIES, &transitions), ACLC_OK);
    expect("aclc_table_marks",
           aclc_table_marks(table, keys[kind], len, CATEGORIES, is->marks, KEYS * CATEGORIES), ACLC_OK);
}

/* Whether a table says what it has to. */
static void compare(struct aclc_table *table, const struct expected *is) {
    struct expected says;
    if (!is->held)
        return;
    asked(table, is->kind, &says);
    if (memcmp(says.verdicts, is->verdicts, sizeof says.verdicts) != 0)
        fail("the table has other verdicts");
    if (memcmp(says.marks, is->marks, sizeof says.marks) != 0)
        fail("the table has other marks");
    for (size_t i = 0; i < KEYS * CATEGORIES; i++)
        if (says.marks[i] > 1 || (says.marks[i] == 1 && says.verdicts[i] != 0))
            fail("a key without a winner has a verdict");
}

/* Fills a handle with the table of a few random rules over keys of the kind, or now and then of another. */
static void make(struct aclc_table *table, struct expected *is, int usual) {
    struct aclc_context context = {0};
    struct aclc_field fields[MOST_FIELDS];
    struct aclc_rule rules[RULES];
    struct aclc_value values[RULES * MOST_FIELDS];
    int kind = below(8) ? usual : (int)below(KINDS);
    uint32_t place, field, count = below(RULES + 1);
    size_t n = FIELD_COUNT[kind];
    uint64_t words;
    for (size_t i = 0; i < n; i++)
        fields[i] = (struct aclc_field){ACLC_FIELD_MASK, i ? 4 : 1, (uint8_t)i, (uint8_t)i, (uint32_t)i * 4};
    for (uint32_t i = 0; i < count; i++) {
        rules[i] = (struct aclc_rule){1 + below(15), (int32_t)below(6), below(4)};
        for (size_t j = 0; j < n; j++)
            values[i * n + j] = (struct aclc_value){below(4), j < 2 ? below(9) : 0};
    }
    expect("aclc_create", aclc_create(&context, fields, n, RULES, &place), ACLC_OK);
    expect("aclc_add_rules", aclc_add_rules(&context, rules, count, values, count * n, &place, &field), ACLC_OK);
    expect("aclc_build", aclc_build(&context, 100000, &words), ACLC_OK);
    aclc_code code = aclc_table_copy(&context, table);
    expect("aclc_table_copy", code, is->held ? ACLC_TAKEN : ACLC_OK);
    if (code == ACLC_OK)
        asked(table, kind, is);
    aclc_free(&context);
}

/* Saves two tables, with enough room or less, or more. */
static void save(struct aclc_table *ip4, const struct expected *is4, struct aclc_table *ip6,
                 const struct expected *is6, struct image *image) {
    size_t len = 77, room, more = below(3), left = 78;
    aclc_code wanted = !is4->held || !is6->held ? ACLC_EMPTY
                       : is4->kind != IP4 || is6->kind != IP6 ? ACLC_NO_IMAGE : ACLC_NO_ROOM;
    expect("aclc_save without room", aclc_save(ip4, ip6, NULL, 0, &len), wanted);
    if (wanted != ACLC_NO_ROOM) {
        if (len != 77)
            fail("aclc_save tells a length where it refuses");
        return;
    }
    uint8_t *bytes = malloc(len + 2);
    if (bytes == NULL)
        fail("no memory");
    memset(bytes, 0xa5, len + 2);
    expect("aclc_save in less room", aclc_save(ip4, ip6, bytes, len - 1, &left), ACLC_NO_ROOM);
    if (left != len || bytes[0] != 0xa5)
        fail("aclc_save writes into less room");
    room = len + more;
    expect("aclc_save", aclc_save(ip4, ip6, bytes, room, &left), ACLC_OK);
    if (left != len || memcmp(bytes, "ACLT", 4) != 0 || bytes[len] != 0xa5 || bytes[len + 1] != 0xa5)
        fail("aclc_save writes something else");
    free(image->bytes);
    *image = (struct image){bytes, len, {*is4, *is6}};
}

/* Saves what was loaded of bytes, which gives the bytes. */
static void save_again(struct aclc_table *ip4, struct aclc_table *ip6, const uint8_t *bytes, size_t len) {
    size_t left = 0;
    uint8_t *again = malloc(len);
    if (again == NULL)
        fail("no memory");
    expect("aclc_save again", aclc_save(ip4, ip6, again, len, &left), ACLC_OK);
    if (left != len || memcmp(again, bytes, len) != 0)
        fail("a table that was loaded is saved as other bytes");
    free(again);
}

/* Loads the image that was saved last, whole, cut, too long, or with a byte changed. */
static void load(struct aclc_table *ip4, struct expected *is4, struct aclc_table *ip6,
                 struct expected *is6, const struct image *image) {
    uint64_t place = 77;
    size_t len = image->len, change = below(5);
    uint8_t *bytes = malloc(len + 1);
    if (bytes == NULL)
        fail("no memory");
    memcpy(bytes, image->bytes, len);
    bytes[len] = 0;
    if (change == 1)
        len = below((uint32_t)len);
    if (change == 2)
        len++;
    if (change == 3)
        bytes[below((uint32_t)len)] ^= (uint8_t)(1 + below(255));
    aclc_code code = aclc_load(ip4, ip6, bytes, len, &place);
    if (is4->held || is6->held) {
        expect("aclc_load", code, ACLC_TAKEN);
    } else if (code == ACLC_OK) {
        if (change == 1 || change == 2)
            fail("aclc_load takes bytes that are no image");
        is4->held = is6->held = 1;
        save_again(ip4, ip6, bytes, len);
        *is4 = image->are[0];
        *is6 = image->are[1];
        if (change == 3) {
            asked(ip4, IP4, is4);
            asked(ip6, IP6, is6);
        }
    } else {
        if (change == 0 || change == 4 || code < ACLC_IMAGE_MAGIC || code > ACLC_IMAGE_KEPT_GROUPS)
            expect("aclc_load", code, ACLC_OK);
        if (change == 2)
            expect("aclc_load of one byte more", code, ACLC_IMAGE_TRAILING);
        if (place > len)
            fail("aclc_load tells a place outside");
    }
    free(bytes);
}

/* Each pointer that is null is told, and one handle that is given twice, and nothing changes. */
static void null(struct aclc_table *table, struct aclc_table *other, int held) {
    uint8_t byte = 7;
    size_t len = 7;
    uint64_t place = 7;
    expect("aclc_save of null", aclc_save(NULL, other, &byte, 1, &len), ACLC_NULL);
    expect("aclc_save of null", aclc_save(table, NULL, &byte, 1, &len), ACLC_NULL);
    expect("aclc_save of null", aclc_save(table, other, NULL, 1, &len), ACLC_NULL);
    expect("aclc_save of null", aclc_save(table, other, &byte, 1, NULL), ACLC_NULL);
    expect("aclc_load of null", aclc_load(NULL, other, &byte, 1, &place), ACLC_NULL);
    expect("aclc_load of null", aclc_load(table, NULL, &byte, 1, &place), ACLC_NULL);
    expect("aclc_load of null", aclc_load(table, other, NULL, 1, &place), ACLC_NULL);
    expect("aclc_load of null", aclc_load(table, other, &byte, 1, NULL), ACLC_NULL);
    expect("aclc_save of one", aclc_save(table, table, &byte, 1, &len), held ? ACLC_NO_IMAGE : ACLC_EMPTY);
    expect("aclc_load of one", aclc_load(table, table, &byte, 1, &place), ACLC_TAKEN);
    expect("aclc_table_share of one", aclc_table_share(table, table), held ? ACLC_TAKEN : ACLC_EMPTY);
    if (byte != 7 || len != 7 || place != 7)
        fail("a call of null writes");
}

static void give_back(struct aclc_table *table, struct expected *is) {
    compare(table, is);
    aclc_table_free(table);
    is->held = 0;
}

/* A call on one or two of the handles. Those at even places mostly have tables of the first kind. */
static void call(struct aclc_table tables[TABLES], struct expected are[TABLES], struct image *image) {
    uint32_t one = below(TABLES), other = (one + 1 + below(TABLES - 1)) % TABLES;
    if (below(4)) {
        one = 2 * below(2);
        other = 1 + 2 * below(2);
    }
    switch (below(10)) {
    case 0: case 1: make(&tables[one], &are[one], one % 2 ? IP6 : IP4); break;
    case 2: case 3: make(&tables[other], &are[other], other % 2 ? IP6 : IP4); break;
    case 4: case 5: save(&tables[one], &are[one], &tables[other], &are[other], image); break;
    case 6: case 7:
        if (image->bytes == NULL)
            break;
        if (below(4)) {
            give_back(&tables[one], &are[one]);
            give_back(&tables[other], &are[other]);
        }
        load(&tables[one], &are[one], &tables[other], &are[other], image);
        break;
    case 8: null(&tables[one], &tables[other], are[one].held); break;
    default:
        one = below(2) ? one : other;
        give_back(&tables[one], &are[one]);
    }
}

int main(int count, char **words) {
    if (count != 3)
        fail("it needs a seed and a number of orders");
    state = strtoull(words[1], NULL, 10);
    struct image image = {0};
    for (int kind = 0; kind < KINDS; kind++)
        for (size_t i = 0; i < sizeof keys[kind]; i++)
            keys[kind][i] = (uint8_t)(below(2) ? 0 : below(4));
    for (unsigned long orders = strtoul(words[2], NULL, 10); orders > 0; orders--) {
        struct aclc_table tables[TABLES] = {{0}, {0}, {0}, {0}};
        struct expected are[TABLES];
        memset(are, 0, sizeof are);
        for (int i = 0; i < CALLS; i++)
            call(tables, are, &image);
        for (int i = 0; i < TABLES; i++)
            give_back(&tables[i], &are[i]);
    }
    free(image.bytes);
    return 0;
}
