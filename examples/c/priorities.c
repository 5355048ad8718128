/* SPDX-License-Identifier: BSD-3-Clause */
/*
 * Builds a context anew at a real-time priority, while a thread of lower priority on the same
 * processor classifies by it: priorities [BUILDS]
 *
 * The build wakes amid calls of the other thread, and has to wait for them. If it did so without
 * sleeping, the other thread would never run, and SIGALRM would end the program. It ends with 77
 * if the system allows no such priorities.
 */
#define _GNU_SOURCE
#include <errno.h>
#include <pthread.h>
#include <sched.h>
#include <stdatomic.h>
#include <stdbool.h>
#include <stdint.h>
#include <stdio.h>
#include <stdlib.h>
#include <string.h>
#include <time.h>
#include <unistd.h>

#include <rte_acl.h>

enum { PACKETS = 20000, BUILDS = 50, SECONDS = 20, LOW = 1, HIGH = 2, NOT_ALLOWED = 77 };

RTE_ACL_RULE_DEF(byte_rule, 1);

static struct rte_acl_ctx *ctx;
static const uint8_t packet[1] = {7};
static const uint8_t *data[PACKETS];
static uint32_t verdicts[PACKETS];
static atomic_bool ended, wrong;
static atomic_ullong calls;

/* Binds this thread to the first processor that it may run on, at a real-time priority. */
static bool bind_at(int priority)
{
    struct sched_param param = {.sched_priority = priority};
    cpu_set_t all, one;
    int cpu = 0;

    CPU_ZERO(&one);
    if (sched_getaffinity(0, sizeof all, &all) != 0)
        return false;
    while (cpu + 1 < CPU_SETSIZE && !CPU_ISSET(cpu, &all))
        cpu++;
    CPU_SET(cpu, &one);
    return pthread_setaffinity_np(pthread_self(), sizeof one, &one) == 0 &&
           pthread_setschedparam(pthread_self(), SCHED_FIFO, &param) == 0;
}

static void *classify(void *unused)
{
    if (!bind_at(LOW))
        wrong = true;
    for (; !ended && !wrong; calls++)
        if (rte_acl_classify(ctx, data, verdicts, PACKETS, 1) || verdicts[PACKETS - 1] != 5)
            wrong = true;
    return unused;
}

static int build(void)
{
    struct rte_acl_config config;

    memset(&config, 0, sizeof config);
    config.num_categories = 1;
    config.num_fields = 1;
    config.defs[0] = (struct rte_acl_field_def){RTE_ACL_FIELD_TYPE_RANGE, 1, 0, 0, 0};
    return rte_acl_build(ctx, &config);
}

int main(int count, char **words)
{
    struct rte_acl_param param = {"waits", SOCKET_ID_ANY, RTE_ACL_RULE_SZ(1), 1};
    struct byte_rule rule = {.data = {1, 1, 5}};
    int builds = count > 1 ? atoi(words[1]) : BUILDS, done = 0;
    pthread_t reader;

    alarm(SECONDS);
    if (!bind_at(HIGH)) {
        fprintf(stderr, "priorities: the system allows none: %s\n", strerror(errno));
        return NOT_ALLOWED;
    }
    rule.field[0].mask_range.u8 = UINT8_MAX;
    for (int at = 0; at < PACKETS; at++)
        data[at] = packet;
    ctx = rte_acl_create(&param);
    if (ctx == NULL || rte_acl_add_rules(ctx, (const struct rte_acl_rule *)&rule, 1) || build() ||
        pthread_create(&reader, NULL, classify, NULL))
        return 2;
    for (; done < builds && !wrong; done++) {
        /* The reader runs meanwhile, and the end of the sleep stops it amid a call. */
        nanosleep(&(struct timespec){.tv_nsec = 1000000 + done * 10000}, NULL);
        if (build())
            return 3;
    }
    ended = true;
    pthread_join(reader, NULL);
    rte_acl_free(ctx);
    fprintf(stderr, "calls %llu\n", (unsigned long long)calls);
    printf("builds %d wrong %d\n", done, (int)wrong);
    return wrong || calls == 0;
}
