/* SPDX-License-Identifier: BSD-3-Clause */
/*
 * Builds a context anew, over and over, while threads classify by it: rebuilds [SECONDS [THREADS]]
 *
 * One more thread dumps it, to nowhere.
 *
 * It is written for rte_acl.h, and needs this repository's library: with DPDK's a call of classify
 * may not be under way. Every verdict says the build that it comes of. Those of one call have to be
 * of one build, which isn't older than that of the thread's call before, nor than the last build
 * that ended before the call. It prints a line at the end, and fails where one isn't so.
 */
#include <pthread.h>
#include <stdatomic.h>
#include <stdbool.h>
#include <stdint.h>
#include <stdio.h>
#include <stdlib.h>
#include <string.h>
#include <time.h>
#include <unistd.h>

#include <rte_acl.h>

enum { PACKETS = 64, RULES = 20, FIELDS = 2, PACKET = 8, MOST_BUILDS = 1 << 24 };

RTE_ACL_RULE_DEF(pair_rule, FIELDS);

static struct rte_acl_ctx *ctx;
static uint8_t packets[PACKETS][PACKET];
static const uint8_t *data[PACKETS];
static atomic_bool ended;
static _Atomic uint32_t built;
static atomic_ullong calls, wrong;

/* A rule for each of some bytes, and one that matches each packet. Userdata has build and rule. */
static int build(uint32_t number)
{
    struct rte_acl_config config;

    memset(&config, 0, sizeof config);
    config.num_categories = 1;
    config.num_fields = FIELDS;
    config.defs[0] = (struct rte_acl_field_def){RTE_ACL_FIELD_TYPE_RANGE, 1, 0, 0, 0};
    config.defs[1] = (struct rte_acl_field_def){RTE_ACL_FIELD_TYPE_MASK, 4, 1, 1, 4};
    rte_acl_reset_rules(ctx);
    for (uint32_t at = 0; at < RULES; at++) {
        struct pair_rule rule;
        memset(&rule, 0, sizeof rule);
        rule.data = (struct rte_acl_rule_data){1, (int32_t)(RULES - at), number << 8 | at};
        rule.field[0].mask_range.u8 = 255;
        rule.field[1].value.u32 = (at + number % 2) << 24;
        rule.field[1].mask_range.u32 = at + 1 < RULES ? 8 : 0;
        if (rte_acl_add_rules(ctx, (const struct rte_acl_rule *)&rule, 1))
            return -1;
    }
    return rte_acl_build(ctx, &config);
}

/* Whether each packet has the verdict that the build of the first one gives it. */
static bool is_of_one_build(const uint32_t *verdicts)
{
    uint32_t number = verdicts[0] >> 8;

    for (uint32_t at = 0; at < PACKETS; at++) {
        uint32_t rule = packets[at][4] - number % 2;
        if (verdicts[at] != (number << 8 | (rule < RULES - 1 ? rule : RULES - 1)))
            return false;
    }
    return true;
}

static void *classify(void *unused)
{
    uint32_t verdicts[PACKETS], last = 0;
    unsigned long long rounds = 0;

    (void)unused;
    for (; !ended; rounds++) {
        uint32_t ready = built;
        if (ready > last)
            last = ready;
        if (rte_acl_classify(ctx, data, verdicts, PACKETS, 1) || !is_of_one_build(verdicts) ||
            verdicts[0] >> 8 < last)
            wrong++;
        last = verdicts[0] >> 8;
    }
    calls += rounds;
    return NULL;
}

static void *dump(void *unused)
{
    (void)unused;
    while (!ended)
        rte_acl_list_dump();
    return NULL;
}

int main(int count, char **words)
{
    struct rte_acl_param param = {"rebuilt", SOCKET_ID_ANY, RTE_ACL_RULE_SZ(FIELDS), RULES};
    int seconds = count > 1 ? atoi(words[1]) : 5, threads = count > 2 ? atoi(words[2]) : 4;
    pthread_t *all = calloc((size_t)threads, sizeof *all), dumps;
    FILE *line = fdopen(dup(STDOUT_FILENO), "w");
    time_t end = time(NULL) + seconds;

    for (int at = 0; at < PACKETS; at++) {
        packets[at][4] = (uint8_t)(at % (RULES + 2) + 1);
        data[at] = packets[at];
    }
    ctx = rte_acl_create(&param);
    if (all == NULL || ctx == NULL || line == NULL || build(0) ||
        freopen("/dev/null", "w", stdout) == NULL || pthread_create(&dumps, NULL, dump, NULL))
        return 2;
    for (int at = 0; at < threads; at++)
        if (pthread_create(&all[at], NULL, classify, NULL))
            return 3;
    for (uint32_t number = 1; time(NULL) < end && number < MOST_BUILDS; number++) {
        if (build(number))
            return 4;
        built = number;
    }
    ended = true;
    for (int at = 0; at < threads; at++)
        pthread_join(all[at], NULL);
    pthread_join(dumps, NULL);
    rte_acl_free(ctx);
    free(all);
    fprintf(stderr, "builds %u calls %llu\n", (unsigned)built, (unsigned long long)calls);
    fprintf(line, "threads %d wrong verdicts %llu\n", threads, (unsigned long long)wrong);
    fclose(line);
    return wrong != 0;
}
