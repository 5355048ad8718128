/* SPDX-License-Identifier: BSD-3-Clause */
/*
 * Classifies by one context from many threads at once: many_threads [SECONDS [THREADS]]
 *
 * It is written for librte_acl, as random_lists.c. Each thread classifies a random part of some
 * packets, in 1 to 16 categories, over and over, and compares with what the first thread was told
 * before. There may be more threads than the library has handles for at once. It prints a line at
 * the end, and fails where a verdict differs.
 */
#include <pthread.h>
#include <stdatomic.h>
#include <stdbool.h>
#include <stdint.h>
#include <stdio.h>
#include <stdlib.h>
#include <string.h>
#include <time.h>

#include <rte_acl.h>
#include <rte_eal.h>

enum { PACKETS = 1000, RULES = 100, FIELDS = 2, CATEGORIES = 16, PACKET = 8 };

RTE_ACL_RULE_DEF(pair_rule, FIELDS);

static struct rte_acl_ctx *ctx;
static uint8_t packets[PACKETS][PACKET];
static const uint8_t *data[PACKETS];
static uint32_t wanted[PACKETS][CATEGORIES];
static atomic_bool ended;
static atomic_ullong calls, differing;

static uint32_t next(uint32_t *state)
{
    *state = *state * 1664525u + 1013904223u;
    return *state >> 8;
}

static void prepare(void)
{
    struct rte_acl_param param = {"pairs", SOCKET_ID_ANY, RTE_ACL_RULE_SZ(FIELDS), RULES};
    struct rte_acl_config config;
    uint32_t state = 1;

    memset(&config, 0, sizeof config);
    config.num_categories = CATEGORIES;
    config.num_fields = FIELDS;
    config.defs[0] = (struct rte_acl_field_def){RTE_ACL_FIELD_TYPE_RANGE, 1, 0, 0, 0};
    config.defs[1] = (struct rte_acl_field_def){RTE_ACL_FIELD_TYPE_MASK, 4, 1, 1, 4};
    ctx = rte_acl_create(&param);
    for (int at = 0; ctx != NULL && at < RULES; at++) {
        struct pair_rule rule;

        memset(&rule, 0, sizeof rule);
        rule.data = (struct rte_acl_rule_data){1 + next(&state) % 0xffff, 1 + at, 1 + next(&state)};
        rule.field[0].value.u8 = next(&state) & 127;
        rule.field[0].mask_range.u8 = (uint8_t)(rule.field[0].value.u8 + (next(&state) & 127));
        rule.field[1].value.u32 = next(&state) << 8;
        rule.field[1].mask_range.u32 = next(&state) % 6;
        if (rte_acl_add_rules(ctx, (const struct rte_acl_rule *)&rule, 1))
            exit(3);
    }
    if (ctx == NULL || rte_acl_build(ctx, &config))
        exit(4);
    for (int at = 0; at < PACKETS; at++) {
        for (int byte = 0; byte < PACKET; byte++)
            packets[at][byte] = (uint8_t)next(&state);
        data[at] = packets[at];
    }
    if (rte_acl_classify(ctx, data, wanted[0], PACKETS, CATEGORIES))
        exit(5);
}

static void *classify(void *seed)
{
    uint32_t state = (uint32_t)(uintptr_t)seed, *verdicts = malloc(sizeof wanted);
    unsigned long long rounds = 0;

    for (; verdicts != NULL && !ended; rounds++) {
        uint32_t first = next(&state) % PACKETS, count = 1 + next(&state) % (PACKETS - first);
        uint32_t categories = next(&state) % (CATEGORIES / 4 + 1) * 4;

        categories += categories == 0;
        if (rte_acl_classify(ctx, data + first, verdicts, count, categories))
            differing++;
        for (uint32_t at = 0; at < count; at++)
            differing += memcmp(verdicts + at * categories, wanted[first + at],
                                categories * sizeof *verdicts) != 0;
    }
    calls += rounds;
    free(verdicts);
    return NULL;
}

int main(int count, char **words)
{
    char eal[][20] = {"many_threads",   "--no-huge", "--no-pci", "--no-shconf",
                      "--no-telemetry", "-l", "0",   "-m",       "512",
                      "--log-level=1"};
    char *eal_words[sizeof eal / sizeof *eal];
    int seconds = count > 1 ? atoi(words[1]) : 10, threads = count > 2 ? atoi(words[2]) : 8;
    pthread_t *all = calloc((size_t)threads, sizeof *all);

    for (size_t at = 0; at < sizeof eal / sizeof *eal; at++)
        eal_words[at] = eal[at];
    if (all == NULL || rte_eal_init(sizeof eal / sizeof *eal, eal_words) < 0)
        return 2;
    prepare();
    for (int at = 0; at < threads; at++)
        if (pthread_create(&all[at], NULL, classify, (void *)(uintptr_t)(at + 1)))
            return 6;
    nanosleep(&(struct timespec){.tv_sec = seconds}, NULL);
    ended = true;
    for (int at = 0; at < threads; at++)
        pthread_join(all[at], NULL);
    free(all);
    rte_acl_free(ctx);
    fprintf(stderr, "calls %llu\n", (unsigned long long)calls);
    printf("threads %d differing verdicts %llu\n", threads, (unsigned long long)differing);
    return differing != 0;
}
