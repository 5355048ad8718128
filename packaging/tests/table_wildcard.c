/* SPDX-License-Identifier: BSD-3-Clause */
/*
 * table_wildcard.c: entries and keys by the wildcard table of librte_table, by which pipelines of
 * DPDK's SWX match, and which stands on librte_acl.
 *
 * The words are those of DPDK's EAL. For some tables it draws entries over keys of 11 bytes, of
 * which the table's mask leaves one out, looks keys up, and prints for each the number of the entry
 * that it hits, or a dash. Numbers are drawn by a rule of its own, so that each run is the same.
 */
#include <inttypes.h>
#include <rte_eal.h>
#include <rte_memory.h>
#include <rte_swx_table_wm.h>
#include <stdio.h>
#include <string.h>

enum { TABLES = 8, ENTRIES = 50, KEYS = 200, KEY_SIZE = 11, OFFSET = 2, BUFFER = 32 };

static uint32_t state = 1;

/* The next drawn number below a bound. */
static uint32_t draw(uint32_t most)
{
    state = state * 1103515245u + 12345u;
    return (state >> 16 & 0x7fff) % most;
}

static uint8_t numbers[ENTRIES][KEY_SIZE], masks[ENTRIES][KEY_SIZE];
static struct rte_swx_table_entry entries[ENTRIES];

/* An entry: a few bytes have to be as its key says, by all bits or by some. The first one wins. */
static void draw_entry(uint32_t place)
{
    struct rte_swx_table_entry *entry = &entries[place];

    for (int at = 0; at < KEY_SIZE; at++) {
        numbers[place][at] = (uint8_t)draw(4);
        masks[place][at] = draw(3) > 0 ? 0 : draw(2) ? 0xff : 1;
    }
    *entry = (struct rte_swx_table_entry){.key = numbers[place], .key_mask = masks[place]};
    entry->key_priority = place;
    entry->action_id = place;
}

/* Looks keys up, and prints what they hit. */
static int look_up(const struct rte_swx_table_ops *ops, void *table)
{
    uint8_t buffer[BUFFER] = {0}, mailbox[64] = {0}, *action_data;
    const uint8_t *key = buffer;
    uint64_t action;
    size_t entry;
    int hit;

    for (int number = 0; number < KEYS; number++) {
        for (int at = 0; at < KEY_SIZE; at++)
            buffer[OFFSET + at] = (uint8_t)draw(4);
        if (ops->lkp(table, mailbox, (uint8_t **)&key, &action, &action_data, &entry, &hit) != 1)
            return -1;
        if (hit)
            printf("%" PRIu64 "\n", action);
        else
            printf("-\n");
    }
    return 0;
}

/* Makes a table of so many drawn entries, and looks keys up. */
static int try_table(const struct rte_swx_table_ops *ops, uint32_t count)
{
    uint8_t mask[KEY_SIZE];
    struct rte_swx_table_params params = {.match_type = RTE_SWX_TABLE_MATCH_WILDCARD,
                                          .key_size = KEY_SIZE,
                                          .key_offset = OFFSET,
                                          .key_mask0 = mask,
                                          .n_keys_max = ENTRIES};
    struct rte_swx_table_entry_list list;
    void *table;
    int answer;

    memset(mask, 0xff, sizeof mask);
    mask[0] = 0;
    TAILQ_INIT(&list);
    for (uint32_t place = 0; place < count; place++) {
        draw_entry(place);
        TAILQ_INSERT_TAIL(&list, &entries[place], node);
    }
    table = ops->create(&params, &list, NULL, SOCKET_ID_ANY);
    if (table == NULL || ops->mailbox_size_get() > 64)
        return -1;
    answer = look_up(ops, table);
    ops->free(table);
    return answer;
}

int main(int count, char **words)
{
    if (rte_eal_init(count, words) < 0)
        return 1;
    for (uint32_t number = 0; number < TABLES; number++)
        if (try_table(&rte_swx_table_wildcard_match_ops, number * ENTRIES / (TABLES - 1)) != 0)
            return 2;
    return 0;
}
