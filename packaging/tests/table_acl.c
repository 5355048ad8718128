/* SPDX-License-Identifier: BSD-3-Clause */
/*
 * table_acl.c: rules and packets by the table of librte_table that stands on librte_acl.
 *
 * The words are those of DPDK's EAL. It adds rules over a byte and a number of 32 bits, deletes
 * every third one, looks packets up, and prints for each packet the number of the rule that it
 * hits, or a dash. Numbers are drawn by a rule of its own, so that each run is the same.
 */
#include <inttypes.h>
#include <rte_eal.h>
#include <rte_mbuf.h>
#include <rte_table_acl.h>
#include <stdio.h>
#include <string.h>

enum { RULES = 60, PACKETS = 64, ROUNDS = 20, FIELDS = 2 };

static uint32_t state = 1;

/* The next drawn number, of 15 bits. */
static uint32_t draw(void)
{
    state = state * 1103515245u + 12345u;
    return state >> 16 & 0x7fff;
}

/* A rule: some values of the byte, and a prefix of the number. Of two rules the first wins. */
static struct rte_table_acl_rule_add_params rule_at(int place)
{
    struct rte_table_acl_rule_add_params rule;
    uint32_t low = draw() % 4;

    memset(&rule, 0, sizeof rule);
    rule.priority = place;
    rule.field_value[0].value.u8 = low;
    rule.field_value[0].mask_range.u8 = low + draw() % 2;
    rule.field_value[1].value.u32 = draw() % 8 << 29 | draw() % 16 << 24;
    rule.field_value[1].mask_range.u32 = draw() % 9;
    return rule;
}

/* Makes the table, with the rules that aren't deleted. */
static void *make_table(void)
{
    /* The first place of the table has no rule. */
    struct rte_table_acl_params params = {
        .name = "table", .n_rules = RULES + 1, .n_rule_fields = FIELDS};
    struct rte_table_acl_rule_add_params rules[RULES];
    void *table, *entry;
    uint64_t number;
    int found;

    params.field_format[0] = (struct rte_acl_field_def){RTE_ACL_FIELD_TYPE_RANGE, 1, 0, 0, 0};
    params.field_format[1] = (struct rte_acl_field_def){RTE_ACL_FIELD_TYPE_MASK, 4, 1, 1, 4};
    table = rte_table_acl_ops.f_create(&params, SOCKET_ID_ANY, sizeof number);
    for (int place = 0; table != NULL && place < RULES; place++) {
        rules[place] = rule_at(place);
        number = place;
        if (rte_table_acl_ops.f_add(table, &rules[place], &number, &found, &entry) != 0)
            return NULL;
    }
    for (int place = 0; table != NULL && place < RULES; place += 3)
        if (rte_table_acl_ops.f_delete(table, &rules[place], &found, &number) != 0)
            return NULL;
    return table;
}

/* Looks so many packets up, and prints what they hit. */
static int look_up(void *table, struct rte_mbuf **packets)
{
    void *entries[PACKETS];
    uint64_t hits;

    for (int at = 0; at < PACKETS; at++) {
        uint8_t *data = rte_pktmbuf_mtod(packets[at], uint8_t *);
        uint32_t number = rte_cpu_to_be_32(draw() % 8 << 29 | draw() % 16 << 24 | draw());
        data[0] = draw() % 5;
        memcpy(data + 4, &number, sizeof number);
    }
    if (rte_table_acl_ops.f_lookup(table, packets, UINT64_MAX, &hits, entries) != 0)
        return -1;
    for (int at = 0; at < PACKETS; at++)
        if (hits >> at & 1)
            printf("%" PRIu64 "\n", *(uint64_t *)entries[at]);
        else
            printf("-\n");
    return 0;
}

int main(int count, char **words)
{
    struct rte_mbuf *packets[PACKETS];
    struct rte_mempool *pool;
    void *table;

    if (rte_eal_init(count, words) < 0)
        return 1;
    pool = rte_pktmbuf_pool_create("pool", 2 * PACKETS, 0, 0, 256, SOCKET_ID_ANY);
    table = make_table();
    if (pool == NULL || table == NULL || rte_pktmbuf_alloc_bulk(pool, packets, PACKETS) != 0)
        return 2;
    for (int round = 0; round < ROUNDS; round++)
        if (look_up(table, packets) != 0)
            return 3;
    return rte_table_acl_ops.f_free(table) != 0;
}
