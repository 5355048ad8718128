/* SPDX-License-Identifier: BSD-3-Clause */
/*
 * Prints what each call of rte_acl.h answers, to unlawful arguments too: call_answers [open]
 *
 * As random_lists.c it is written for librte_acl. Without a word it asks only what librte_acl has a
 * defined answer to, and both libraries print the same. With the word open it asks the rest.
 */
#include <stdbool.h>
#include <stdint.h>
#include <stdio.h>
#include <string.h>

#include <rte_acl.h>
#include <rte_eal.h>
#include <rte_errno.h>

enum { FIELDS = 5, UNTOUCHED = 99 };

RTE_ACL_RULE_DEF(flow_rule, FIELDS);

static const struct rte_acl_field_def flow_fields[FIELDS] = {
    {RTE_ACL_FIELD_TYPE_BITMASK, 1, 0, 0, 0}, {RTE_ACL_FIELD_TYPE_MASK, 4, 1, 1, 1},
    {RTE_ACL_FIELD_TYPE_MASK, 4, 2, 2, 5},    {RTE_ACL_FIELD_TYPE_RANGE, 2, 3, 3, 9},
    {RTE_ACL_FIELD_TYPE_RANGE, 2, 4, 3, 11},
};

/* TCP from port 80 of 10.0.0.1 to port 443 of 192.168.1.5. */
static const uint8_t packet[16] = {6, 10, 0, 0, 1, 192, 168, 1, 5, 0, 80, 1, 187, 0, 0, 0};

#define SHOW(call) printf("%s = %d\n", #call, (int)(call))

static struct rte_acl_ctx *created(const char *name, uint32_t rule_size, uint32_t rules)
{
    struct rte_acl_param param = {name, SOCKET_ID_ANY, rule_size, rules};

    rte_errno = 0;
    return rte_acl_create(&param);
}

/* A context of two rules for the tests of one call. */
static struct rte_acl_ctx *fresh(void)
{
    rte_acl_free(rte_acl_find_existing("fresh"));
    return created("fresh", RTE_ACL_RULE_SZ(FIELDS), 2);
}

static struct rte_acl_config flow_config(uint32_t categories)
{
    struct rte_acl_config config;

    memset(&config, 0, sizeof config);
    config.num_categories = categories;
    config.num_fields = FIELDS;
    memcpy(config.defs, flow_fields, sizeof flow_fields);
    return config;
}

/* A rule that matches every packet. */
static struct flow_rule any_rule(uint32_t categories, int32_t priority, uint32_t userdata)
{
    struct flow_rule rule;

    memset(&rule, 0, sizeof rule);
    rule.data = (struct rte_acl_rule_data){categories, priority, userdata};
    rule.field[3].mask_range.u16 = UINT16_MAX;
    rule.field[4].mask_range.u16 = UINT16_MAX;
    return rule;
}

static int add(struct rte_acl_ctx *ctx, struct flow_rule rule)
{
    return rte_acl_add_rules(ctx, (const struct rte_acl_rule *)&rule, 1);
}

static int add_any(struct rte_acl_ctx *ctx, uint32_t categories, int32_t priority)
{
    return add(ctx, any_rule(categories, priority, 7));
}

static int build(struct rte_acl_ctx *ctx, uint32_t categories)
{
    struct rte_acl_config config = flow_config(categories);

    return rte_acl_build(ctx, &config);
}

/* What a build for one rule answers, and then the verdict of the packet. */
static int verdict_of(struct flow_rule rule, struct rte_acl_config config)
{
    struct rte_acl_ctx *ctx = fresh();
    const uint8_t *data[1] = {packet};
    uint32_t verdict = UNTOUCHED;
    int answer;

    (void)add(ctx, rule);
    answer = rte_acl_build(ctx, &config);
    if (answer == 0)
        answer = rte_acl_classify(ctx, data, &verdict, 1, 1);
    return answer != 0 ? answer : (int)verdict;
}

/* Classifies the packet, and prints all that is written. */
static int classify(const struct rte_acl_ctx *ctx, uint32_t categories, unsigned alg)
{
    const uint8_t *data[1] = {packet};
    uint32_t verdicts[32];
    int answer;

    for (int at = 0; at < 32; at++)
        verdicts[at] = UNTOUCHED;
    answer =
        alg == RTE_ACL_CLASSIFY_DEFAULT
            ? rte_acl_classify(ctx, data, verdicts, 1, categories)
            : rte_acl_classify_alg(ctx, data, verdicts, 1, categories,
                                   (enum rte_acl_classify_alg)alg);
    for (int at = 0; at < 32 && verdicts[at] != UNTOUCHED; at++)
        printf("%u ", verdicts[at]);
    return answer;
}

static void ask_names(void)
{
    const char *cut = "a name that has more bytes than fit";
    struct rte_acl_ctx *one = created("one", RTE_ACL_RULE_SZ(FIELDS), 10), *other;

    rte_errno = 0;
    SHOW(rte_acl_create(NULL) == NULL && rte_errno == EINVAL);
    SHOW(created(NULL, 96, 10) == NULL && rte_errno == EINVAL);
    SHOW(created("one", 32, 1) == one && rte_errno == 0);
    SHOW(rte_acl_find_existing("one") == one);
    SHOW(rte_acl_find_existing("on") == NULL && rte_errno == ENOENT);
    other = created("", 0, 0);
    SHOW(other != NULL && other != one && rte_acl_find_existing("") == other);
    rte_acl_free(other);
    SHOW(rte_acl_find_existing("") == NULL);
    other = created(cut, 96, 10);
    SHOW(other != NULL && rte_acl_find_existing(cut) == NULL);
    SHOW(rte_acl_find_existing("a name that has more bytes than") == other);
    rte_acl_free(other);
    rte_acl_free(NULL);
    rte_acl_free(one);
    SHOW(rte_acl_find_existing("one") == NULL);
}

static void ask_rules(void)
{
    struct rte_acl_ctx *ctx = fresh(), *narrow = created("narrow", 0, 10);
    struct flow_rule rules[3] = {any_rule(1, 1, 1), any_rule(1, 1, 1), any_rule(1, 0, 1)};

    SHOW(add_any(NULL, 1, 1));
    SHOW(rte_acl_add_rules(ctx, NULL, 1));
    SHOW(rte_acl_add_rules(ctx, NULL, 0));
    SHOW(rte_acl_add_rules(ctx, (const struct rte_acl_rule *)rules, 0));
    SHOW(add_any(narrow, 1, 1));
    SHOW(add_any(ctx, 1, RTE_ACL_MIN_PRIORITY - 1));
    SHOW(add_any(ctx, 1, -1));
    SHOW(add_any(ctx, 1, RTE_ACL_MAX_PRIORITY + 1));
    SHOW(add_any(ctx, 0, 1));
    SHOW(add_any(ctx, 0x10000, 1));
    SHOW(rte_acl_add_rules(ctx, (const struct rte_acl_rule *)(rules + 1), 2));
    SHOW(rte_acl_add_rules(ctx, (const struct rte_acl_rule *)rules, 3));
    SHOW(add_any(ctx, 0x8000, RTE_ACL_MAX_PRIORITY));
    SHOW(rte_acl_add_rules(ctx, (const struct rte_acl_rule *)rules, 2));
    SHOW(add_any(ctx, 1, RTE_ACL_MIN_PRIORITY));
    SHOW(add_any(ctx, 1, 1));
    rte_acl_reset_rules(ctx);
    SHOW(rte_acl_add_rules(ctx, (const struct rte_acl_rule *)rules, 2));
    rte_acl_reset(ctx);
    SHOW(add_any(ctx, 1, 1));
    rte_acl_reset_rules(NULL);
    rte_acl_reset(NULL);
    rte_acl_free(narrow);
}

static void ask_builds(void)
{
    struct rte_acl_ctx *ctx = fresh();
    struct rte_acl_config config = flow_config(1);

    SHOW(rte_acl_build(NULL, &config));
    SHOW(rte_acl_build(ctx, NULL));
    SHOW(build(ctx, 1));
    (void)add_any(ctx, 2, 1);
    SHOW(build(ctx, 1));
    SHOW(build(ctx, 0));
    SHOW(build(ctx, 2));
    SHOW(classify(ctx, 4, 0));
    SHOW(build(ctx, 3));
    SHOW(build(ctx, RTE_ACL_MAX_CATEGORIES));
    SHOW(build(ctx, RTE_ACL_MAX_CATEGORIES + 1));
    SHOW(classify(ctx, 4, 0));
    config.max_size = 1;
    config.num_categories = 2;
    SHOW(rte_acl_build(ctx, &config));
    config.max_size = 1 << 20;
    SHOW(rte_acl_build(ctx, &config));
}

static void ask_fields(void)
{
    struct rte_acl_config config = flow_config(1);
    struct flow_rule rule = any_rule(1, 1, 7), port = rule, swapped = rule;

    config.num_fields = 0;
    SHOW(verdict_of(rule, config));
    config.num_fields = RTE_ACL_MAX_FIELDS + 1;
    SHOW(verdict_of(rule, config));
    config = flow_config(1);
    config.defs[2].type = 3;
    SHOW(verdict_of(rule, config));
    config = flow_config(1);
    config.defs[1].size = 3;
    SHOW(verdict_of(rule, config));
    config.defs[1].size = 0;
    SHOW(verdict_of(rule, config));
    config = flow_config(1);
    config.num_fields = 1;
    SHOW(verdict_of(rule, config));
    config = flow_config(1);
    for (int at = 0; at < FIELDS; at++)
        config.defs[at].input_index = (uint8_t)(9 - 2 * config.defs[at].input_index);
    port.field[4].value.u16 = port.field[4].mask_range.u16 = 443;
    SHOW(verdict_of(port, config));
    config = flow_config(1);
    config.defs[3].field_index = 4;
    config.defs[4].field_index = 3;
    SHOW(verdict_of(port, config));
    swapped.field[3].value.u16 = swapped.field[3].mask_range.u16 = 443;
    SHOW(verdict_of(swapped, config));
}

static void ask_values(void)
{
    const struct rte_acl_config config = flow_config(1);
    struct flow_rule rule = any_rule(1, 1, 7);

    SHOW(verdict_of(any_rule(1, 1, 0), config));
    rule.field[2].value.u32 = 0xc0a8014d;
    rule.field[2].mask_range.u32 = 24;
    SHOW(verdict_of(rule, config));
    rule.field[2].mask_range.u32 = 32;
    SHOW(verdict_of(rule, config));
    rule = any_rule(1, 1, 7);
    rule.field[0].value.u8 = 0x16;
    rule.field[0].mask_range.u8 = 0x0f;
    SHOW(verdict_of(rule, config));
    rule = any_rule(1, 1, 7);
    rule.field[4].value.u32 = 0x50000 + 443;
    rule.field[4].mask_range.u32 = 0x70000 + 443;
    SHOW(verdict_of(rule, config));
}

static void ask_verdicts(void)
{
    struct rte_acl_ctx *ctx = fresh();

    (void)add(ctx, any_rule(0x00f1, 2, 21));
    (void)add(ctx, any_rule(0xfff2, 1, 11));
    (void)build(ctx, RTE_ACL_MAX_CATEGORIES);
    for (uint32_t categories = 0; categories < 20; categories++)
        SHOW(classify(ctx, categories, 0));
    SHOW(classify(ctx, 4, RTE_ACL_CLASSIFY_SCALAR));
    SHOW(classify(ctx, 4, RTE_ACL_CLASSIFY_SSE));
    SHOW(classify(ctx, 4, RTE_ACL_CLASSIFY_NEON));
    SHOW(classify(ctx, 4, RTE_ACL_CLASSIFY_ALTIVEC));
    SHOW(rte_acl_classify(ctx, NULL, NULL, 0, 1));
    SHOW(rte_acl_classify(ctx, NULL, NULL, 0, 2));
    rte_acl_reset_rules(ctx);
    SHOW(classify(ctx, 4, 0));
    SHOW(rte_acl_set_ctx_classify(ctx, RTE_ACL_CLASSIFY_SCALAR));
    SHOW(rte_acl_set_ctx_classify(ctx, RTE_ACL_CLASSIFY_DEFAULT));
    SHOW(rte_acl_set_ctx_classify(ctx, RTE_ACL_CLASSIFY_NEON));
    SHOW(rte_acl_set_ctx_classify(ctx, RTE_ACL_CLASSIFY_ALTIVEC));
    SHOW(rte_acl_set_ctx_classify(ctx, (enum rte_acl_classify_alg)8));
    SHOW(rte_acl_set_ctx_classify(ctx, (enum rte_acl_classify_alg)-1));
    SHOW(rte_acl_set_ctx_classify(NULL, RTE_ACL_CLASSIFY_SCALAR));
    SHOW(classify(ctx, 4, 0));
    rte_acl_free(ctx);
}

static void ask_open_fields(void)
{
    struct rte_acl_config config = flow_config(1);
    struct flow_rule rule = any_rule(1, 1, 7);

    config.defs[0].size = 4;
    SHOW(verdict_of(rule, config));
    config = flow_config(1);
    config.defs[1].input_index = 0;
    SHOW(verdict_of(rule, config));
    config = flow_config(1);
    config.num_fields = 4;
    SHOW(verdict_of(rule, config));
    config = flow_config(1);
    config.defs[4].offset = 12;
    SHOW(verdict_of(rule, config));
    config = flow_config(1);
    config.defs[4].field_index = FIELDS;
    SHOW(verdict_of(rule, config));
    config = flow_config(1);
    rule.field[1].mask_range.u32 = 33;
    SHOW(verdict_of(rule, config));
    rule = any_rule(1, 1, 7);
    rule.field[4].value.u16 = 500;
    rule.field[4].mask_range.u16 = 50;
    SHOW(verdict_of(rule, config));
}

static void ask_open(void)
{
    struct rte_acl_ctx *ctx = fresh(), *narrow = created("narrow", 8, 10);

    SHOW(rte_acl_find_existing(NULL) == NULL && rte_errno == ENOENT);
    SHOW(created("huge", UINT32_MAX, UINT32_MAX) == NULL && rte_errno == ENOMEM);
    SHOW(add_any(narrow, 1, 1));
    SHOW(classify(NULL, 1, 0));
    SHOW(classify(ctx, 1, 0));
    (void)add(ctx, any_rule(1, 5, 51));
    (void)add(ctx, any_rule(1, 5, 52));
    (void)build(ctx, 1);
    SHOW(classify(ctx, 1, 0));
    SHOW(classify(ctx, 20, 0));
    SHOW(classify(ctx, 1, 8));
    SHOW(classify(ctx, 1, RTE_ACL_CLASSIFY_AVX2));
    SHOW(classify(ctx, 1, RTE_ACL_CLASSIFY_AVX512X32));
    SHOW(rte_acl_set_ctx_classify(ctx, RTE_ACL_CLASSIFY_AVX512X32));
    SHOW(rte_acl_classify(ctx, NULL, NULL, 1, 1));
    rte_acl_reset_rules(ctx);
    SHOW(build(ctx, 1));
    SHOW(classify(ctx, 1, 0));
    rte_acl_reset(ctx);
    SHOW(classify(ctx, 1, 0));
    ask_open_fields();
    rte_acl_free(narrow);
    rte_acl_free(rte_acl_find_existing("fresh"));
}

int main(int count, char **words)
{
    char eal[][20] = {"call_answers",   "--no-huge", "--no-pci", "--no-shconf",
                      "--no-telemetry", "-l", "0",   "-m",       "512",
                      "--log-level=1"};
    char *eal_words[sizeof eal / sizeof *eal];

    for (size_t at = 0; at < sizeof eal / sizeof *eal; at++)
        eal_words[at] = eal[at];
    if (rte_eal_init(sizeof eal / sizeof *eal, eal_words) < 0)
        return 2;
    if (count > 1 && strcmp(words[1], "open") == 0) {
        ask_open();
        return 0;
    }
    ask_names();
    ask_rules();
    ask_builds();
    ask_fields();
    ask_values();
    ask_verdicts();
    return 0;
}
