/* SPDX-License-Identifier: BSD-3-Clause */
/*
 * Classifies random packets by random lists of rules:
 *
 *     random_lists VERDICTS [LISTS [SEED [PRIORITIES [ZEROS]]]]
 *
 * It is written for librte_acl, and doesn't know which library it is linked with: the script
 * compare_run builds it with DPDK's and with the one of this repository, and compares the files
 * VERDICTS. Such a file has for each list a line of what it is and of what the build answers, and
 * for each packet a line of its verdicts. Layout, rules and packets are drawn by SEED and by the
 * number of the list. No two rules of a list have the same priority, so that every verdict is
 * defined, or where PRIORITIES is given and not 0, each has one of so many. One of ZEROS rules has
 * userdata 0, or one of 20. It prints a line of sums at the end.
 */
#include <stdbool.h>
#include <stdint.h>
#include <stdio.h>
#include <stdlib.h>
#include <string.h>

#include <rte_acl.h>
#include <rte_eal.h>

enum { PACKETS = 200, BUFFER = 128, MOST_GROUPS = 5, MOST_FIELDS = 1 + 4 * MOST_GROUPS };
enum { MOST_RULES = 24, LISTS = 1000, MOST_CATEGORIES = RTE_ACL_MAX_CATEGORIES };

RTE_ACL_RULE_DEF(random_rule, MOST_FIELDS);

/* A list of rules, and the packets that are classified by it. */
struct list {
    struct rte_acl_config config;
    uint32_t categories;
    uint32_t rule_count;
    struct random_rule rules[MOST_RULES];
    uint8_t packets[PACKETS][BUFFER];
};

/* What all lists had. */
struct sums {
    uint64_t lists, built, rules, verdicts, matched;
};

static uint64_t state;

/* How many priorities there are, or 0 where no two rules have the same. */
static uint64_t priorities;

/* One of so many rules has userdata 0. */
static uint64_t zeros = 20;

/* A random number below a bound: splitmix64 of Steele, Lea and Flood. */
static uint64_t below(uint64_t bound)
{
    uint64_t x = state += 0x9e3779b97f4a7c15u;

    x = (x ^ x >> 30) * 0xbf58476d1ce4e5b9u;
    x = (x ^ x >> 27) * 0x94d049bb133111ebu;
    x ^= x >> 31;
    return bound == 0 ? x : x % bound;
}

static bool once_in(uint64_t times)
{
    return below(times) == 0;
}

/* Adds a field to a layout. Its place in the rule is given later. */
static void add_field(struct rte_acl_config *config, uint8_t size, uint8_t input, uint32_t offset)
{
    struct rte_acl_field_def *def = &config->defs[config->num_fields];

    def->type = (uint8_t)below(3);
    def->size = size;
    def->field_index = (uint8_t)config->num_fields++;
    def->input_index = input;
    def->offset = offset;
}

/* Gives the fields of a rule a random order. */
static void shuffle_places(struct rte_acl_config *config)
{
    for (uint32_t at = config->num_fields - 1; at > 0; at--) {
        uint32_t other = (uint32_t)below(at + 1);
        uint8_t place = config->defs[at].field_index;

        config->defs[at].field_index = config->defs[other].field_index;
        config->defs[other].field_index = place;
    }
}

/* A random layout: a byte, and groups of four bytes in one to four fields, or a field of eight. */
static void draw_layout(struct rte_acl_config *config)
{
    static const uint8_t sizes[][5] = {{4}, {2, 2}, {1, 1, 2}, {2, 1, 1}, {1, 1, 1, 1}, {8}};
    uint8_t input = (uint8_t)below(3);

    memset(config, 0, sizeof *config);
    add_field(config, 1, input, (uint32_t)below(BUFFER - 8));
    for (uint64_t group = below(MOST_GROUPS + 1); group > 0; group--) {
        const uint8_t *size = sizes[below(sizeof sizes / sizeof *sizes)];
        uint32_t offset = (uint32_t)below(BUFFER - 8);

        input = (uint8_t)(input + 1 + below(3));
        for (; *size != 0; offset += *size++)
            add_field(config, *size, input, offset);
    }
    if (once_in(3))
        shuffle_places(config);
}

/* The number of a field in a packet. */
static uint64_t number_of(const struct rte_acl_field_def *def, const uint8_t *packet)
{
    uint64_t number = 0;

    for (uint8_t at = 0; at < def->size; at++)
        number = number << 8 | packet[def->offset + at];
    return number;
}

static void put(union rte_acl_field_types *member, uint8_t size, uint64_t number)
{
    if (size == 1)
        member->u8 = (uint8_t)number;
    else if (size == 2)
        member->u16 = (uint16_t)number;
    else if (size == 4)
        member->u32 = (uint32_t)number;
    else
        member->u64 = number;
}

/* A value that the number of a packet matches, or in one case of two any number. */
static void draw_value(const struct rte_acl_field_def *def, uint64_t number,
                       struct rte_acl_field *field)
{
    const unsigned bits = 8u * def->size;
    const uint64_t greatest = UINT64_MAX >> (64 - bits);
    const uint64_t wide = below(0) & greatest >> below(bits);
    bool any = once_in(2);

    if (def->type == RTE_ACL_FIELD_TYPE_RANGE) {
        put(&field->value, def->size, any ? 0 : number - (number < wide ? number : wide));
        put(&field->mask_range, def->size,
            any ? greatest : number + (greatest - number < wide ? greatest - number : wide));
        return;
    }
    put(&field->value, def->size, once_in(4) ? number ^ wide : number);
    if (def->type == RTE_ACL_FIELD_TYPE_MASK)
        field->mask_range.u32 = any ? 0 : (uint32_t)below(bits + 1);
    else
        put(&field->mask_range, def->size, any ? 0 : below(0) & below(0));
}

/* Rules that match some packets each, with priorities that go up or down by unequal steps. */
static void draw_rules(struct list *list)
{
    bool up = once_in(2);
    int32_t priority = up ? (int32_t)below(1000) : RTE_ACL_MAX_PRIORITY - (int32_t)below(1000);

    list->rule_count = 1 + (uint32_t)below(MOST_RULES);
    memset(list->rules, 0, sizeof list->rules);
    for (uint32_t at = 0; at < list->rule_count; at++) {
        struct random_rule *rule = &list->rules[at];
        const uint8_t *packet = list->packets[below(PACKETS)];

        priority += (up ? 1 : -1) * (1 + (int32_t)below(1000000));
        rule->data.priority = priorities != 0 ? 1 + (int32_t)below(priorities) : priority;
        rule->data.category_mask = 1 + (uint32_t)below((1u << MOST_CATEGORIES) - 1);
        rule->data.userdata = once_in(zeros) ? 0 : (uint32_t)below(0);
        for (uint32_t place = 0; place < list->config.num_fields; place++) {
            const struct rte_acl_field_def *def = &list->config.defs[place];

            draw_value(def, number_of(def, packet), &rule->field[def->field_index]);
        }
    }
}

/* Packets of which some differ little from others. */
static void draw_packets(struct list *list)
{
    for (int at = 0; at < PACKETS; at++) {
        if (at > 0 && !once_in(4))
            memcpy(list->packets[at], list->packets[below((uint64_t)at)], BUFFER);
        for (int byte = 0; byte < BUFFER; byte++)
            if (at == 0 || once_in(16))
                list->packets[at][byte] = (uint8_t)below(0);
    }
}

static void draw_list(struct list *list)
{
    draw_layout(&list->config);
    draw_packets(list);
    draw_rules(list);
    list->config.num_categories = 1 + (uint32_t)below(MOST_CATEGORIES);
    list->categories = (uint32_t)below(MOST_CATEGORIES / RTE_ACL_RESULTS_MULTIPLIER + 1);
    list->categories *= (uint32_t)RTE_ACL_RESULTS_MULTIPLIER;
    if (list->categories == 0)
        list->categories = 1;
}

/* Adds the rules in two parts, and builds. It answers what the build does. */
static int build(struct rte_acl_ctx *ctx, const struct list *list)
{
    uint32_t first = (uint32_t)below(list->rule_count + 1);
    uint32_t rest = list->rule_count - first;

    if (rte_acl_add_rules(ctx, (const struct rte_acl_rule *)list->rules, first) ||
        rte_acl_add_rules(ctx, (const struct rte_acl_rule *)(list->rules + first), rest))
        exit(3);
    return rte_acl_build(ctx, &list->config);
}

/* Writes the verdicts of all packets. */
static void classify(struct rte_acl_ctx *ctx, const struct list *list, FILE *file,
                     struct sums *sums)
{
    static uint32_t verdicts[PACKETS * MOST_CATEGORIES];
    const uint8_t *data[PACKETS];

    for (int at = 0; at < PACKETS; at++)
        data[at] = list->packets[at];
    (void)rte_acl_set_ctx_classify(ctx, (enum rte_acl_classify_alg)below(4));
    if (rte_acl_classify(ctx, data, verdicts, PACKETS, list->categories))
        exit(5);
    for (uint32_t at = 0; at < PACKETS * list->categories; at++) {
        fprintf(file, "%u%c", verdicts[at], (at + 1) % list->categories != 0 ? ' ' : '\n');
        sums->matched += verdicts[at] != 0;
    }
    sums->verdicts += (uint64_t)PACKETS * list->categories;
}

static void take_list(struct list *list, uint64_t seed, FILE *file, struct sums *sums)
{
    struct rte_acl_param param = {"random", SOCKET_ID_ANY, RTE_ACL_RULE_SZ(MOST_FIELDS),
                                  MOST_RULES};
    struct rte_acl_ctx *ctx = rte_acl_create(&param);
    int answer;

    if (ctx == NULL)
        exit(2);
    state = seed << 32 ^ sums->lists;
    draw_list(list);
    answer = build(ctx, list);
    fprintf(file, "list %llu: %u fields, %u rules, %u categories of %u, build %d\n",
            (unsigned long long)sums->lists++, list->config.num_fields, list->rule_count,
            list->categories, list->config.num_categories, answer);
    sums->rules += list->rule_count;
    sums->built += answer == 0;
    if (answer == 0)
        classify(ctx, list, file, sums);
    rte_acl_free(ctx);
}

int main(int count, char **words)
{
    char eal[][20] = {"random_lists",   "--no-huge", "--no-pci", "--no-shconf",
                      "--no-telemetry", "-l", "0",   "-m",       "512",
                      "--log-level=1"};
    char *eal_words[sizeof eal / sizeof *eal];
    static struct list list;
    struct sums sums = {0, 0, 0, 0, 0};
    uint64_t lists = count > 2 ? strtoull(words[2], NULL, 10) : LISTS;
    FILE *file;

    for (size_t at = 0; at < sizeof eal / sizeof *eal; at++)
        eal_words[at] = eal[at];
    if (count < 2 || rte_eal_init(sizeof eal / sizeof *eal, eal_words) < 0)
        return 2;
    priorities = count > 4 ? strtoull(words[4], NULL, 10) : 0;
    zeros = count > 5 ? strtoull(words[5], NULL, 10) : zeros;
    file = fopen(words[1], "w");
    if (file == NULL)
        return 7;
    while (sums.lists < lists)
        take_list(&list, count > 3 ? strtoull(words[3], NULL, 10) : 1, file, &sums);
    if (fclose(file))
        return 7;
    printf("lists %llu built %llu rules %llu packets %llu verdicts %llu matched %llu\n",
           (unsigned long long)sums.lists, (unsigned long long)sums.built,
           (unsigned long long)sums.rules, (unsigned long long)(sums.built * PACKETS),
           (unsigned long long)sums.verdicts, (unsigned long long)sums.matched);
    return 0;
}
