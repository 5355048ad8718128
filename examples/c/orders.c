/* SPDX-License-Identifier: BSD-3-Clause */
/*
 * Calls of aclc.h in random orders, lawful and not, each answer compared with what it has to be.
 *
 *     orders SEED COUNT    makes COUNT orders of thirty calls, and ends with 1 at the first wrong answer
 */
#include <inttypes.h>
#include <stdio.h>
#include <stdlib.h>
#include <string.h>

#include "aclc.h"

enum { CALLS = 30, MOST = 40, FIELDS = 2, KEY_LEN = 5, KEYS = 24, CATEGORIES = 4 };

/* What a handle has to hold. */
struct expected {
    int held, built;
    uint32_t max_rules, lanes;
    size_t rules, built_rules;
    struct aclc_rule rule[MOST], built_rule[MOST];
    struct aclc_value value[MOST][FIELDS], built_value[MOST][FIELDS];
};

static const struct aclc_field LAYOUT[FIELDS] = {
    {ACLC_FIELD_RANGE, 1, 0, 0, 0},
    {ACLC_FIELD_MASK, 4, 1, 1, 4},
};

static uint64_t state;

static uint32_t below(uint32_t most) {
    state = state * 6364136223846793005u + 1442695040888963407u;
    return (uint32_t)(state >> 33) % most;
}

static void fail(const char *what) {
    fprintf(stderr, "orders: %s\n", what);
    exit(1);
}

static void expect(const char *call, aclc_code answer, aclc_code wanted) {
    if (answer != wanted) {
        fprintf(stderr, "orders: %s answers %" PRIu32 " and not %" PRIu32 "\n", call, answer, wanted);
        exit(1);
    }
}

static void create(struct aclc_context *context, struct expected *is) {
    struct aclc_field fields[FIELDS];
    uint32_t max_rules = below(8) ? below(MOST) : ACLC_MAX_RULES + 1, place = 77, fault = below(5);
    memcpy(fields, LAYOUT, sizeof fields);
    if (fault == 0)
        fields[1].kind = 3;
    if (fault == 1)
        fields[1].size = 3;
    aclc_code code = aclc_create(context, fields, FIELDS, max_rules, &place);
    if (is->held) {
        expect("aclc_create", code, ACLC_TAKEN);
        return;
    }
    if (max_rules > ACLC_MAX_RULES) {
        expect("aclc_create", code, ACLC_BAD_LIMIT);
        return;
    }
    if (fault < 2) {
        expect("aclc_create", code, fault == 0 ? ACLC_BAD_KIND : ACLC_BAD_SIZE);
        if (place != 1)
            fail("aclc_create tells another place");
        return;
    }
    expect("aclc_create", code, ACLC_OK);
    memset(is, 0, sizeof *is);
    is->held = 1;
    is->max_rules = max_rules;
}

static void add(struct aclc_context *context, struct expected *is) {
    struct aclc_rule rules[4];
    struct aclc_value values[4][FIELDS];
    uint32_t count = below(5), wrong = below(4), rule = 77, field = 77;
    size_t length = (size_t)count * FIELDS + (below(8) == 0);
    for (uint32_t i = 0; i < count; i++) {
        rules[i].category_mask = 1 + below(15);
        rules[i].priority = (int32_t)below(6);
        rules[i].userdata = below(1000);
        values[i][0].value = below(4);
        values[i][0].mask_range = 3 + below(4);
        values[i][1].value = (uint64_t)below(4) << 30;
        values[i][1].mask_range = below(33);
    }
    int bad = wrong == 0 && count > 0;
    if (bad)
        values[count - 1][1].mask_range = 33 + below(1000);
    struct aclc_value room[4 * FIELDS + 1];
    memset(room, 0, sizeof room);
    memcpy(room, values, count * sizeof values[0]);
    aclc_code code = aclc_add_rules(context, rules, count, room, length, &rule, &field);
    if (!is->held) {
        expect("aclc_add_rules", code, ACLC_EMPTY);
        return;
    }
    if (length != (size_t)count * FIELDS) {
        expect("aclc_add_rules", code, ACLC_BAD_LENGTH);
        return;
    }
    if (is->rules + count > is->max_rules) {
        expect("aclc_add_rules", code, ACLC_FULL);
        return;
    }
    if (bad) {
        expect("aclc_add_rules", code, ACLC_MASK_TOO_LONG);
        if (rule != count - 1 || field != 1)
            fail("aclc_add_rules tells another place");
        return;
    }
    expect("aclc_add_rules", code, ACLC_OK);
    memcpy(is->rule + is->rules, rules, count * sizeof rules[0]);
    memcpy(is->value + is->rules, values, count * sizeof values[0]);
    is->rules += count;
}

static void build(struct aclc_context *context, struct expected *is) {
    uint64_t budget = below(6) ? 100000 : below(2) ? below(2) ? 0 : ACLC_MAX_WORDS + 1 : 1, words = 77;
    aclc_code code = aclc_build(context, budget, &words);
    if (!is->held) {
        expect("aclc_build", code, ACLC_EMPTY);
        return;
    }
    if (budget > ACLC_MAX_WORDS) {
        expect("aclc_build", code, ACLC_BAD_BUDGET);
        return;
    }
    if (budget == 1) {
        expect("aclc_build", code, ACLC_TOO_LARGE);
        if (words <= budget)
            fail("aclc_build tells too few words");
        return;
    }
    expect("aclc_build", code, ACLC_OK);
    is->built = 1;
    is->built_rules = is->rules;
    memcpy(is->built_rule, is->rule, sizeof is->rule);
    memcpy(is->built_value, is->value, sizeof is->value);
}

/* Of a context, or of a table where one is given. */
static void lanes(struct aclc_context *context, struct aclc_table *table, struct expected *is) {
    uint32_t keys = below(8) ? below(KEYS + 1) : ACLC_MAX_KEYS + 1;
    aclc_code code = table != NULL ? aclc_table_lanes(table, keys) : aclc_lanes(context, keys);
    if (!is->held) {
        expect("aclc_lanes", code, ACLC_EMPTY);
        return;
    }
    if (keys > ACLC_MAX_KEYS) {
        expect("aclc_lanes", code, ACLC_TOO_MANY_KEYS);
        return;
    }
    expect("aclc_lanes", code, ACLC_OK);
    is->lanes = keys;
}

/* The winner by one pass over the rules, if there is one. */
static const struct aclc_rule *plain(const struct expected *is, const uint8_t *key, uint32_t category) {
    uint32_t number = (uint32_t)key[1] << 24 | (uint32_t)key[2] << 16 | (uint32_t)key[3] << 8 | key[4];
    const struct aclc_rule *best = NULL;
    for (size_t i = 0; i < is->built_rules; i++) {
        const struct aclc_rule *rule = &is->built_rule[i];
        const struct aclc_value *value = is->built_value[i];
        uint64_t mask = value[1].mask_range ? ~(uint64_t)0 << (32 - value[1].mask_range) : 0;
        if (!(rule->category_mask >> category & 1) || key[0] < value[0].value || key[0] > value[0].mask_range)
            continue;
        if (((number ^ value[1].value) & mask & 0xffffffff) != 0)
            continue;
        if (best == NULL || rule->priority > best->priority)
            best = rule;
    }
    return best;
}

/* By a context, or by a table where one is given. */
static void classify(struct aclc_context *context, struct aclc_table *table, struct expected *is) {
    static const uint32_t COUNTS[] = {1, 4, 3, 0, 17};
    uint8_t keys[KEYS * KEY_LEN + 1];
    uint32_t verdicts[KEYS * CATEGORIES + 1], count = below(KEYS + 1), walk = below(8) ? below(2) : 2;
    uint32_t categories = COUNTS[below(8) ? below(2) : 2 + below(3)];
    size_t length = (size_t)count * KEY_LEN + (below(10) == 0);
    size_t room = (size_t)count * (categories > 4 ? 4 : categories);
    uint64_t transitions = 77;
    room += below(10) == 0;
    for (size_t i = 0; i < sizeof keys; i++)
        keys[i] = (uint8_t)(i % KEY_LEN == 1 ? below(4) << 6 : below(8));
    memset(verdicts, 0xa5, sizeof verdicts);
    aclc_code wanted = ACLC_OK;
    if (!is->held)
        wanted = ACLC_EMPTY;
    else if (!is->built)
        wanted = ACLC_NOT_BUILT;
    else if (categories != 1 && categories != 4)
        wanted = ACLC_BAD_CATEGORIES;
    else if (walk > 1)
        wanted = ACLC_BAD_WALK;
    else if (length % KEY_LEN != 0 || room != (size_t)count * categories)
        wanted = ACLC_BAD_LENGTH;
    else if (walk == ACLC_WALK_LANES && count > is->lanes)
        wanted = ACLC_NO_LANES;
    aclc_code code =
        table != NULL
            ? aclc_table_classify(table, keys, length, categories, walk, verdicts, room, &transitions)
            : aclc_classify(context, keys, length, categories, walk, verdicts, room, &transitions);
    expect("aclc_classify", code, wanted);
    for (size_t i = 0; i < room; i++) {
        uint32_t verdict = 0xa5a5a5a5;
        if (wanted == ACLC_OK) {
            const struct aclc_rule *rule = plain(is, keys + i / categories * KEY_LEN, (uint32_t)(i % categories));
            verdict = rule == NULL ? 0 : rule->userdata;
        }
        if (verdicts[i] != verdict)
            fail("aclc_classify writes another verdict");
    }
    if (wanted != ACLC_OK && transitions != 77)
        fail("aclc_classify counts where it refuses");
}

/* Keys that stand apart, by a context, or by a table where one is given. One may be too short. */
static void classify_apart(struct aclc_context *context, struct aclc_table *table, struct expected *is) {
    static const uint32_t COUNTS[] = {1, 4, 3, 0, 17};
    struct aclc_key keys[KEYS];
    uint8_t bytes[KEYS + KEY_LEN];
    uint32_t verdicts[KEYS * CATEGORIES + 1], count = below(KEYS + 1), walk = below(8) ? below(2) : 2;
    uint32_t categories = COUNTS[below(8) ? below(2) : 2 + below(3)], wrong = below(4 * KEYS);
    size_t room = (size_t)count * (categories > 4 ? 4 : categories) + (below(10) == 0);
    uint64_t transitions = 77;
    for (size_t i = 0; i < sizeof bytes; i++)
        bytes[i] = (uint8_t)(below(2) ? below(8) : below(4) << 6);
    for (uint32_t i = 0; i < KEYS; i++)
        keys[i] = (struct aclc_key){bytes + below(KEYS), i == wrong ? below(KEY_LEN) : KEY_LEN};
    memset(verdicts, 0xa5, sizeof verdicts);
    aclc_code wanted = ACLC_OK;
    if (!is->held)
        wanted = ACLC_EMPTY;
    else if (!is->built)
        wanted = ACLC_NOT_BUILT;
    else if (wrong < count)
        wanted = ACLC_BAD_LENGTH;
    else if (categories != 1 && categories != 4)
        wanted = ACLC_BAD_CATEGORIES;
    else if (walk > 1)
        wanted = ACLC_BAD_WALK;
    else if (room != (size_t)count * categories)
        wanted = ACLC_BAD_LENGTH;
    else if (walk == ACLC_WALK_LANES && count > is->lanes)
        wanted = ACLC_NO_LANES;
    aclc_code code =
        table != NULL
            ? aclc_table_classify_keys(table, keys, count, categories, walk, verdicts, room, &transitions)
            : aclc_classify_keys(context, keys, count, categories, walk, verdicts, room, &transitions);
    expect("aclc_classify_keys", code, wanted);
    for (size_t i = 0; i < room; i++) {
        uint32_t verdict = 0xa5a5a5a5;
        if (wanted == ACLC_OK) {
            const struct aclc_rule *rule = plain(is, keys[i / categories].bytes, (uint32_t)(i % categories));
            verdict = rule == NULL ? 0 : rule->userdata;
        }
        if (verdicts[i] != verdict)
            fail("aclc_classify_keys writes another verdict");
    }
    if (wanted != ACLC_OK && transitions != 77)
        fail("aclc_classify_keys counts where it refuses");
}

/* By a context, or by a table where one is given. */
static void marks(struct aclc_context *context, struct aclc_table *table, const struct expected *is) {
    static const uint32_t COUNTS[] = {1, 4, 3, 0, 17};
    uint8_t keys[KEYS * KEY_LEN + 1], found[KEYS * CATEGORIES + 1];
    uint32_t count = below(KEYS + 1), categories = COUNTS[below(8) ? below(2) : 2 + below(3)];
    size_t length = (size_t)count * KEY_LEN + (below(10) == 0);
    size_t room = (size_t)count * (categories > 4 ? 4 : categories) + (below(10) == 0);
    for (size_t i = 0; i < sizeof keys; i++)
        keys[i] = (uint8_t)(i % KEY_LEN == 1 ? below(4) << 6 : below(8));
    memset(found, 0xa5, sizeof found);
    aclc_code wanted = ACLC_OK;
    if (!is->held)
        wanted = ACLC_EMPTY;
    else if (!is->built)
        wanted = ACLC_NOT_BUILT;
    else if (categories != 1 && categories != 4)
        wanted = ACLC_BAD_CATEGORIES;
    else if (length % KEY_LEN != 0 || room != (size_t)count * categories)
        wanted = ACLC_BAD_LENGTH;
    aclc_code code = table != NULL ? aclc_table_marks(table, keys, length, categories, found, room)
                                   : aclc_marks(context, keys, length, categories, found, room);
    expect("aclc_marks", code, wanted);
    for (size_t i = 0; i < room; i++) {
        uint8_t mark = 0xa5;
        if (wanted == ACLC_OK)
            mark = plain(is, keys + i / categories * KEY_LEN, (uint32_t)(i % categories)) == NULL;
        if (found[i] != mark)
            fail("aclc_marks writes another mark");
    }
}

/* Each pointer that is null is told, and nothing changes: what comes after finds all as it was. */
static void null(struct aclc_context *context, struct aclc_table *table) {
    struct aclc_rule rule = {1, 1, 1};
    struct aclc_value value = {0, 0};
    uint8_t byte = 7;
    uint32_t number = 7;
    uint64_t wide = 7;
    size_t len = 7;
    const struct aclc_key key = {&byte, 1}, nowhere = {NULL, 0};
    aclc_code codes[] = {
        aclc_create(NULL, LAYOUT, FIELDS, 1, &number), aclc_create(context, NULL, 1, 1, &number),
        aclc_create(context, LAYOUT, FIELDS, 1, NULL),
        aclc_add_rules(NULL, &rule, 1, &value, 1, &number, &number),
        aclc_add_rules(context, NULL, 1, &value, 1, &number, &number),
        aclc_add_rules(context, &rule, 1, NULL, 1, &number, &number),
        aclc_add_rules(context, &rule, 1, &value, 1, NULL, &number),
        aclc_add_rules(context, &rule, 1, &value, 1, &number, NULL),
        aclc_build(NULL, 1, &wide), aclc_build(context, 1, NULL), aclc_lanes(NULL, 1),
        aclc_classify(NULL, &byte, 1, 1, 0, &number, 1, &wide),
        aclc_classify(context, NULL, 1, 1, 0, &number, 1, &wide),
        aclc_classify(context, &byte, 1, 1, 0, NULL, 1, &wide),
        aclc_classify(context, &byte, 1, 1, 0, &number, 1, NULL),
        aclc_classify_keys(NULL, &key, 1, 1, 0, &number, 1, &wide),
        aclc_classify_keys(context, NULL, 1, 1, 0, &number, 1, &wide),
        aclc_classify_keys(context, &nowhere, 1, 1, 0, &number, 1, &wide),
        aclc_classify_keys(context, &key, 1, 1, 0, NULL, 1, &wide),
        aclc_classify_keys(context, &key, 1, 1, 0, &number, 1, NULL),
        aclc_table_classify_keys(NULL, &key, 1, 1, 0, &number, 1, &wide),
        aclc_table_classify_keys(table, &nowhere, 1, 1, 0, &number, 1, &wide),
        aclc_table_classify_keys(table, &key, 1, 1, 0, NULL, 1, &wide),
        aclc_table_classify_keys(table, &key, 1, 1, 0, &number, 1, NULL),
        aclc_marks(NULL, &byte, 1, 1, &byte, 1), aclc_marks(context, NULL, 1, 1, &byte, 1),
        aclc_marks(context, &byte, 1, 1, NULL, 1),
        aclc_sizes(NULL, &len, &len, &wide), aclc_sizes(context, NULL, &len, &wide),
        aclc_sizes(context, &len, NULL, &wide), aclc_sizes(context, &len, &len, NULL),
        aclc_reset_rules(NULL), aclc_reset(NULL),
        aclc_table_copy(NULL, table), aclc_table_copy(context, NULL),
        aclc_table_share(NULL, table), aclc_table_share(table, NULL), aclc_table_lanes(NULL, 1),
        aclc_table_classify(NULL, &byte, 1, 1, 0, &number, 1, &wide),
        aclc_table_classify(table, NULL, 1, 1, 0, &number, 1, &wide),
        aclc_table_classify(table, &byte, 1, 1, 0, NULL, 1, &wide),
        aclc_table_classify(table, &byte, 1, 1, 0, &number, 1, NULL),
        aclc_table_marks(NULL, &byte, 1, 1, &byte, 1), aclc_table_marks(table, NULL, 1, 1, &byte, 1),
        aclc_table_marks(table, &byte, 1, 1, NULL, 1),
        aclc_table_sizes(NULL, &len, &len, &wide), aclc_table_sizes(table, NULL, &len, &wide),
        aclc_table_sizes(table, &len, NULL, &wide), aclc_table_sizes(table, &len, &len, NULL),
    };
    aclc_free(NULL);
    aclc_table_free(NULL);
    for (size_t i = 0; i < sizeof codes / sizeof codes[0]; i++)
        expect("a call of null", codes[i], ACLC_NULL);
    if (byte != 7 || number != 7 || wide != 7 || len != 7)
        fail("a call of null writes");
}

static void sizes(struct aclc_context *context, struct expected *is) {
    size_t rules = 77, key_len = 77;
    uint64_t words = 77;
    aclc_code code = aclc_sizes(context, &rules, &key_len, &words);
    if (!is->held) {
        expect("aclc_sizes", code, ACLC_EMPTY);
        return;
    }
    expect("aclc_sizes", code, ACLC_OK);
    if (rules != is->rules || key_len != KEY_LEN || (words != 0) != is->built)
        fail("aclc_sizes tells other sizes");
}

static void reset(struct aclc_context *context, struct expected *is) {
    int all = below(2) == 0;
    aclc_code code = all ? aclc_reset(context) : aclc_reset_rules(context);
    expect("aclc_reset", code, is->held ? ACLC_OK : ACLC_EMPTY);
    is->rules = 0;
    if (all)
        is->built = 0;
}

static void copy(struct aclc_context *context, const struct expected *is, struct aclc_table *table,
                 struct expected *of) {
    aclc_code code = aclc_table_copy(context, table);
    if (!is->held || of->held || !is->built) {
        expect("aclc_table_copy", code, !is->held ? ACLC_EMPTY : of->held ? ACLC_TAKEN : ACLC_NOT_BUILT);
        return;
    }
    expect("aclc_table_copy", code, ACLC_OK);
    *of = *is;
    of->lanes = 0;
}

static void share(struct aclc_table *table, const struct expected *is, struct aclc_table *other,
                  struct expected *of) {
    aclc_code code = aclc_table_share(table, other);
    if (!is->held || of->held) {
        expect("aclc_table_share", code, !is->held ? ACLC_EMPTY : ACLC_TAKEN);
        return;
    }
    expect("aclc_table_share", code, ACLC_OK);
    *of = *is;
    of->lanes = 0;
}

/* Of how many rules a table is: those that none before them covers, of any address and kept itself. */
static size_t uncovered(const struct expected *is) {
    size_t kept = 0, wide[MOST], wides = 0;
    for (size_t i = 0; i < is->built_rules; i++) {
        const struct aclc_rule *rule = &is->built_rule[i];
        const struct aclc_value *value = is->built_value[i];
        int covered = 0;
        for (size_t j = 0; j < wides; j++) {
            const struct aclc_rule *other = &is->built_rule[wide[j]];
            const struct aclc_value *range = is->built_value[wide[j]];
            covered |= rule->priority <= other->priority
                       && (rule->category_mask & ~other->category_mask) == 0
                       && range->value <= value->value && value->mask_range <= range->mask_range;
        }
        if (covered)
            continue;
        kept++;
        if (value[1].mask_range == 0)
            wide[wides++] = i;
    }
    return kept;
}

static void table_sizes(struct aclc_table *table, const struct expected *is) {
    size_t rules = 77, key_len = 77;
    uint64_t words = 0;
    aclc_code code = aclc_table_sizes(table, &rules, &key_len, &words);
    expect("aclc_table_sizes", code, is->held ? ACLC_OK : ACLC_EMPTY);
    if (is->held && (rules != uncovered(is) || key_len != KEY_LEN || words == 0))
        fail("aclc_table_sizes tells other sizes");
}

/* A call on one of two tables. */
static void table_call(struct aclc_context *context, const struct expected *is,
                       struct aclc_table tables[2], struct expected are[2]) {
    uint32_t one = below(2);
    struct aclc_table *table = &tables[one];
    switch (below(10)) {
    case 0: case 1: copy(context, is, table, &are[one]); break;
    case 2: share(table, &are[one], &tables[1 - one], &are[1 - one]); break;
    case 3: lanes(NULL, table, &are[one]); break;
    case 4: classify(NULL, table, &are[one]); break;
    case 5: classify_apart(NULL, table, &are[one]); break;
    case 6: table_sizes(table, &are[one]); break;
    case 7: marks(NULL, table, &are[one]); break;
    case 8: null(context, table); break;
    default:
        aclc_table_free(table);
        are[one].held = 0;
    }
}

/* Each number of an answer has a text of its own, and all others have one text. */
static void texts(void) {
    const char *none = aclc_strerror(1000);
    for (aclc_code one = 0; one < 100; one++) {
        int is_answer = one <= ACLC_NO_ROOM || (one >= ACLC_TOO_MANY_FIELDS && one <= ACLC_OFFSET_TOO_LARGE) ||
                        (one >= ACLC_NO_CATEGORY && one <= ACLC_EMPTY_RANGE) ||
                        (one >= ACLC_IMAGE_MAGIC && one <= ACLC_IMAGE_KEPT_GROUPS);
        if ((strcmp(aclc_strerror(one), none) != 0) != is_answer || strlen(none) == 0)
            fail("aclc_strerror has a text for what is no answer, or none for one that is");
        for (aclc_code other = 0; is_answer && other < one; other++)
            if (strcmp(aclc_strerror(one), aclc_strerror(other)) == 0)
                fail("aclc_strerror has one text for two answers");
    }
}

int main(int count, char **words) {
    if (count != 3)
        fail("it needs a seed and a number of orders");
    state = strtoull(words[1], NULL, 10);
    texts();
    for (unsigned long orders = strtoul(words[2], NULL, 10); orders > 0; orders--) {
        struct aclc_context context = {0};
        struct aclc_table tables[2] = {{0}, {0}};
        struct expected is, are[2];
        memset(&is, 0, sizeof is);
        memset(are, 0, sizeof are);
        for (int i = 0; i < CALLS; i++) {
            if (i > CALLS / 4 && below(2) == 0) {
                table_call(&context, &is, tables, are);
                continue;
            }
            switch (below(11)) {
            case 0: case 1: create(&context, &is); break;
            case 2: case 3: add(&context, &is); break;
            case 4: build(&context, &is); break;
            case 5: lanes(&context, NULL, &is); break;
            case 6: classify(&context, NULL, &is); break;
            case 7: classify_apart(&context, NULL, &is); break;
            case 8: sizes(&context, &is); break;
            case 9: marks(&context, NULL, &is); break;
            default:
                if (below(3) != 0) {
                    reset(&context, &is);
                } else {
                    aclc_free(&context);
                    is.held = 0;
                }
            }
        }
        aclc_free(&context);
        aclc_table_free(&tables[0]);
        aclc_table_free(&tables[1]);
    }
    return 0;
}
