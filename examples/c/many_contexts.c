/* SPDX-License-Identifier: BSD-3-Clause */
/*
 * How much memory contexts of three rules take: many_contexts [CONTEXTS [BYTES]]
 *
 * It is written for librte_acl. Each context has rules of five fields, is built, and classifies
 * once. It prints how many bytes of memory a context takes, by what the system says of the process,
 * and ends with 1 if those are more than BYTES.
 */
#include <stdbool.h>
#include <stdint.h>
#include <stdio.h>
#include <stdlib.h>
#include <string.h>
#include <unistd.h>

#include <rte_acl.h>
#include <rte_eal.h>

enum { CONTEXTS = 10000, RULES = 3, FIELDS = 5, PACKET = 16 };

RTE_ACL_RULE_DEF(flow_rule, FIELDS);

static const struct rte_acl_field_def flow_fields[FIELDS] = {
    {RTE_ACL_FIELD_TYPE_BITMASK, 1, 0, 0, 0}, {RTE_ACL_FIELD_TYPE_MASK, 4, 1, 1, 1},
    {RTE_ACL_FIELD_TYPE_MASK, 4, 2, 2, 5},    {RTE_ACL_FIELD_TYPE_RANGE, 2, 3, 3, 9},
    {RTE_ACL_FIELD_TYPE_RANGE, 2, 4, 3, 11},
};

/* The bytes of memory that the process has. */
static size_t resident(void)
{
    FILE *file = fopen("/proc/self/statm", "r");
    unsigned long all, here = 0;

    if (file == NULL || fscanf(file, "%lu %lu", &all, &here) != 2)
        exit(2);
    fclose(file);
    return here * (size_t)sysconf(_SC_PAGESIZE);
}

/* Three rules: a network, a port of one host, and the rest. */
static void draw_rules(struct flow_rule *rules, uint32_t number)
{
    memset(rules, 0, RULES * sizeof *rules);
    for (uint32_t at = 0; at < RULES; at++) {
        rules[at].data = (struct rte_acl_rule_data){1, (int32_t)(RULES - at), at + 1};
        rules[at].field[3].mask_range.u16 = UINT16_MAX;
        rules[at].field[4].mask_range.u16 = UINT16_MAX;
    }
    rules[0].field[1].value.u32 = 10u << 24 | number << 8;
    rules[0].field[1].mask_range.u32 = 24;
    rules[1].field[2].value.u32 = 192u << 24 | number;
    rules[1].field[2].mask_range.u32 = 32;
    rules[1].field[4].value.u16 = rules[1].field[4].mask_range.u16 = 443;
}

/* Makes a context, and asks for the verdict of a packet that its first rule matches. */
static bool make(uint32_t number)
{
    char name[RTE_ACL_NAMESIZE];
    struct rte_acl_param param = {name, SOCKET_ID_ANY, RTE_ACL_RULE_SZ(FIELDS), RULES};
    const uint8_t packet[PACKET] = {6, 10, (uint8_t)(number >> 8), (uint8_t)number, 1};
    const uint8_t *data[1] = {packet};
    struct flow_rule rules[RULES];
    struct rte_acl_config config;
    struct rte_acl_ctx *ctx;
    uint32_t verdict = 0;

    snprintf(name, sizeof name, "%u", number);
    ctx = rte_acl_create(&param);
    draw_rules(rules, number);
    memset(&config, 0, sizeof config);
    config.num_categories = 1;
    config.num_fields = FIELDS;
    memcpy(config.defs, flow_fields, sizeof flow_fields);
    return ctx != NULL && !rte_acl_add_rules(ctx, (const struct rte_acl_rule *)rules, RULES) &&
           !rte_acl_build(ctx, &config) && !rte_acl_classify(ctx, data, &verdict, 1, 1) &&
           verdict == 1;
}

int main(int count, char **words)
{
    char eal[][20] = {"many_contexts",  "--no-huge", "--no-pci", "--no-shconf",
                      "--no-telemetry", "-l", "0",   "-m",       "512",
                      "--log-level=1"};
    char *eal_words[sizeof eal / sizeof *eal];
    uint32_t contexts = count > 1 ? (uint32_t)atol(words[1]) : CONTEXTS;
    size_t most = count > 2 ? (size_t)atol(words[2]) : SIZE_MAX, before, each;

    for (size_t at = 0; at < sizeof eal / sizeof *eal; at++)
        eal_words[at] = eal[at];
    if (rte_eal_init(sizeof eal / sizeof *eal, eal_words) < 0)
        return 2;
    before = resident();
    for (uint32_t number = 0; number < contexts; number++)
        if (!make(number)) {
            printf("context %u can't be made, or has another verdict\n", number);
            return 1;
        }
    each = (resident() - before) / contexts;
    printf("contexts %u bytes each %zu\n", contexts, each);
    return each > most;
}
