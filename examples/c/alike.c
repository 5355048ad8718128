/* SPDX-License-Identifier: BSD-3-Clause */
/*
 * Compares what rte_acl.h of this repository answers with what aclc.h does: alike [LISTS [SEED]]
 *
 * Each list is drawn: a layout whose groups lie anywhere in a packet and whose fields stand at any
 * places of a rule, rules with few priorities, with userdata 0, and some that take no part in the
 * build, and packets. It is built by rte_acl.h, in two parts and under limits of bytes, and by
 * aclc.h of what this file reads of the same structs, byte by byte. Verdicts and refusals have to
 * be the same. It prints a line of sums, and ends with 1 at the first that differs.
 */
#include <errno.h>
#include <stdbool.h>
#include <stdint.h>
#include <stdio.h>
#include <stdlib.h>
#include <string.h>

#include <rte_acl.h>

#include <aclc.h>

enum { LISTS = 200, PACKETS = 300, BUFFER = 200, MOST_GROUPS = 12, MOST_RULES = 12, WORD = 8 };
enum { MOST_FIELDS = 1 + 4 * MOST_GROUPS, PLACES = MOST_FIELDS + 3 };
enum { MOST_KEY = 1 + 8 * MOST_GROUPS };
enum { CATEGORIES = RTE_ACL_MAX_CATEGORIES, MOST_BYTES = 1 << 20 };

RTE_ACL_RULE_DEF(drawn_rule, PLACES);

struct list {
    struct rte_acl_config config;
    uint32_t rule_count;
    struct drawn_rule rules[MOST_RULES];
    uint8_t packets[PACKETS][BUFFER];
};

static struct {
    uint64_t lists, verdicts, matched, refused;
} sums;

static uint64_t state;

/* A random number below a bound: splitmix64 of Steele, Lea and Flood. */
static uint64_t below(uint64_t bound)
{
    uint64_t x = state += 0x9e3779b97f4a7c15u;

    x = (x ^ x >> 30) * 0xbf58476d1ce4e5b9u;
    x = (x ^ x >> 27) * 0x94d049bb133111ebu;
    x ^= x >> 31;
    return bound == 0 ? x : x % bound;
}

static void expect(const char *what, long long answer, long long wanted)
{
    if (answer == wanted)
        return;
    printf("list %llu: %s: rte_acl.h has %lld, and aclc.h %lld\n", (unsigned long long)sums.lists,
           what, answer, wanted);
    exit(1);
}

/* A byte, and groups of one to four fields, or of one of eight bytes, with any input indices. */
static void draw_layout(struct rte_acl_config *config)
{
    static const uint8_t sizes[][5] = {{4}, {2, 2}, {1, 1, 2}, {2, 1, 1}, {1, 1, 1, 1}, {8}};
    static const uint8_t byte[2] = {1};
    uint64_t groups = below(MOST_GROUPS + 1);
    uint8_t places[PLACES], input = (uint8_t)below(200);

    for (uint8_t at = 0; at < PLACES; at++) {
        uint8_t other = (uint8_t)below(at + 1u);
        places[at] = places[other];
        places[other] = at;
    }
    memset(config, 0, sizeof *config);
    for (uint64_t group = 0; group <= groups; group++, input = (uint8_t)(input + 1 + below(3))) {
        const uint8_t *size = group == 0 ? byte : sizes[below(sizeof sizes / sizeof *sizes)];
        uint32_t offset = (uint32_t)below(BUFFER - 8);

        for (; *size != 0; offset += *size++, config->num_fields++)
            config->defs[config->num_fields] = (struct rte_acl_field_def){
                (uint8_t)below(3), *size, places[config->num_fields], input, offset};
    }
    config->num_categories = 1 + (uint32_t)below(CATEGORIES);
}

static uint64_t number_at(const uint8_t *bytes, unsigned size)
{
    uint64_t number = 0;

    for (unsigned at = 0; at < size; at++)
        number = number << 8 | bytes[at];
    return number;
}

/* A value that a packet matches, or in one case of two any number; now and then an unlawful one. */
static void draw_value(const struct rte_acl_field_def *def, uint64_t number,
                       struct rte_acl_field *field)
{
    const unsigned bits = 8u * def->size;
    const uint64_t greatest = UINT64_MAX >> (64 - bits), wide = below(0) & greatest >> below(bits);
    const bool any = below(2) == 0;

    field->value.u64 = below(4) == 0 ? number ^ wide : number;
    field->mask_range.u64 = any ? 0 : below(0) & below(0);
    if (def->type == RTE_ACL_FIELD_TYPE_RANGE) {
        field->value.u64 = any ? 0 : number - (number < wide ? number : wide);
        field->mask_range.u64 = any ? greatest : number;
    } else if (def->type == RTE_ACL_FIELD_TYPE_MASK) {
        field->mask_range.u64 = any ? 0 : below(bits + 1);
        /* What stands behind the four bytes that say how long a mask is doesn't count. */
        field->mask_range.u64 |= below(2) << 40;
    }
    if (below(2000) == 0)
        field->mask_range.u64 = def->type == RTE_ACL_FIELD_TYPE_MASK ? bits + 1 : 0;
}

static void draw_list(struct list *list)
{
    draw_layout(&list->config);
    for (int at = 0; at < PACKETS; at++) {
        if (at > 0 && below(4) != 0)
            memcpy(list->packets[at], list->packets[below((uint64_t)at)], BUFFER);
        for (int byte = 0; byte < BUFFER; byte++)
            if (at == 0 || below(16) == 0)
                list->packets[at][byte] = (uint8_t)below(0);
    }
    list->rule_count = 1 + (uint32_t)below(MOST_RULES);
    memset(list->rules, 0, sizeof list->rules);
    for (uint32_t at = 0; at < list->rule_count; at++) {
        struct drawn_rule *rule = &list->rules[at];
        const uint8_t *packet = list->packets[below(PACKETS)];

        rule->data.priority = 1 + (int32_t)below(5);
        rule->data.category_mask = 1u << below(CATEGORIES) | ((uint32_t)below(0) << 16);
        rule->data.category_mask |= (uint32_t)(below(2) ? below(1u << CATEGORIES) : 0);
        rule->data.userdata = below(4) == 0 ? 0 : (uint32_t)below(0);
        for (uint32_t place = 0; place < list->config.num_fields; place++) {
            const struct rte_acl_field_def *def = &list->config.defs[place];
            draw_value(def, number_at(packet + def->offset, def->size),
                       &rule->field[def->field_index]);
        }
    }
}

/* The number in the first bytes of a member, which is in the machine's order. */
static uint64_t member_of(const union rte_acl_field_types *member, unsigned size)
{
    uint64_t number = 0;

    memcpy(&number, member, size);
    return number;
}

/* Fills a context of aclc.h with what the list says, and answers what that does. */
static aclc_code fill(const struct list *list, struct aclc_context *context)
{
    const struct rte_acl_config *config = &list->config;
    struct aclc_field fields[MOST_FIELDS];
    struct aclc_value values[MOST_RULES * MOST_FIELDS];
    struct aclc_rule rules[MOST_RULES];
    uint32_t count = 0, place, rule, field;
    uint8_t group = 0;
    size_t value = 0;

    for (uint32_t at = 0; at < config->num_fields; at++) {
        const struct rte_acl_field_def *def = &config->defs[at];
        if (at > 0 && def->input_index != def[-1].input_index)
            group += def[-1].size == 8 ? 2 : 1;
        fields[at] = (struct aclc_field){def->type, def->size, (uint8_t)at, group, def->offset};
    }
    for (uint32_t at = 0; at < list->rule_count; at++) {
        const struct drawn_rule *one = &list->rules[at];
        uint32_t mask = one->data.category_mask & ((1u << config->num_categories) - 1);
        if (mask == 0)
            continue;
        rules[count++] = (struct aclc_rule){mask, one->data.priority, one->data.userdata};
        for (uint32_t of = 0; of < config->num_fields; of++) {
            const struct rte_acl_field_def *def = &config->defs[of];
            const struct rte_acl_field *said = &one->field[def->field_index];
            unsigned size = def->type == RTE_ACL_FIELD_TYPE_MASK ? 4 : def->size;
            values[value++] = (struct aclc_value){member_of(&said->value, def->size),
                                                  member_of(&said->mask_range, size)};
        }
    }
    if (count == 0)
        return ACLC_EMPTY_RANGE;
    expect("layout", 0, aclc_create(context, fields, config->num_fields, count, &place));
    return aclc_add_rules(context, rules, count, values, value, &rule, &field);
}

/* What a build by rte_acl.h should answer under a limit, of what one by aclc.h does. */
static int wanted_build(struct aclc_context *context, aclc_code filled, size_t max_size)
{
    uint64_t words;
    aclc_code code;

    if (filled != ACLC_OK)
        return -EINVAL;
    if (max_size != 0 && max_size < WORD)
        return -ERANGE;
    code = aclc_build(context, max_size / WORD, &words);
    return code == ACLC_TOO_LARGE ? -ERANGE : code == ACLC_OK ? 0 : -ENOMEM;
}

/* Compares verdicts of some packets, in some categories. */
static void compare(const struct list *list, struct rte_acl_ctx *ctx, struct aclc_context *context)
{
    static uint32_t verdicts[PACKETS * CATEGORIES], wanted[PACKETS * CATEGORIES];
    static uint8_t keys[PACKETS * MOST_KEY];
    const uint32_t categories = below(5) ? 4 * (uint32_t)below(CATEGORIES / 4 + 1) : 0;
    const uint32_t columns = categories ? categories : 1, count = (uint32_t)below(PACKETS + 1);
    const uint8_t *data[PACKETS];
    size_t len = 0;
    uint64_t transitions;

    for (uint32_t at = 0; at < count; at++) {
        data[at] = list->packets[below(PACKETS)];
        for (uint32_t of = 0; of < list->config.num_fields; of++)
            for (unsigned byte = 0; byte < list->config.defs[of].size; byte++)
                keys[len++] = data[at][list->config.defs[of].offset + byte];
    }
    memset(verdicts, 0xff, sizeof verdicts);
    expect("classify", rte_acl_classify(ctx, data, verdicts, count, columns), 0);
    expect("classify", 0, aclc_classify(context, keys, len, columns, ACLC_WALK_SCALAR, wanted,
                                        (size_t)count * columns, &transitions));
    for (uint32_t at = 0; at < count * columns; at++) {
        expect("verdict", verdicts[at], wanted[at]);
        sums.matched += wanted[at] != 0;
    }
    for (uint32_t at = count * columns; at < PACKETS * CATEGORIES; at++)
        expect("what stands behind the verdicts", verdicts[at], UINT32_MAX);
    sums.verdicts += (uint64_t)count * columns;
}

/* Builds under limits around what the table takes, and compares what the last build left. */
static void build_and_compare(struct list *list, struct rte_acl_ctx *ctx)
{
    struct aclc_context context = {0};
    const aclc_code filled = fill(list, &context);
    const size_t most = list->rule_count <= 3 ? 0 : MOST_BYTES;
    bool built = false;
    uint64_t words = 0;

    if (filled == ACLC_OK && aclc_build(&context, most / WORD, &words) != ACLC_OK)
        words = MOST_BYTES / WORD;
    for (int round = 0; round < 4; round++) {
        size_t all = (size_t)words * WORD, limits[] = {most, all, all - 1, 1 + below(WORD)};
        int wanted;

        list->config.max_size = limits[round];
        wanted = wanted_build(&context, filled, limits[round]);
        expect("build", rte_acl_build(ctx, &list->config), wanted);
        built = built || wanted == 0;
        sums.refused += wanted != 0;
        if (built)
            compare(list, ctx, &context);
    }
    aclc_free(&context);
}

int main(int count, char **words)
{
    static struct list list;
    uint64_t lists = count > 1 ? strtoull(words[1], NULL, 10) : LISTS;

    state = count > 2 ? strtoull(words[2], NULL, 10) : 1;
    for (; sums.lists < lists; sums.lists++) {
        struct rte_acl_param param = {"alike", SOCKET_ID_ANY, sizeof(struct drawn_rule),
                                      MOST_RULES};
        struct rte_acl_ctx *ctx = rte_acl_create(&param);
        uint32_t first;

        draw_list(&list);
        first = (uint32_t)below(list.rule_count + 1);
        if (ctx == NULL || rte_acl_add_rules(ctx, (struct rte_acl_rule *)list.rules, first) ||
            rte_acl_add_rules(ctx, (struct rte_acl_rule *)(list.rules + first),
                              list.rule_count - first))
            return 2;
        build_and_compare(&list, ctx);
        rte_acl_free(ctx);
    }
    printf("lists %llu verdicts %llu matched %llu builds refused %llu, none differs\n",
           (unsigned long long)lists, (unsigned long long)sums.verdicts,
           (unsigned long long)sums.matched, (unsigned long long)sums.refused);
    return 0;
}
