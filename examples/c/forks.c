/* SPDX-License-Identifier: BSD-3-Clause */
/*
 * Forks while threads classify, build and make contexts, and makes calls in each child:
 * forks [CHILDREN]
 *
 * A child has none of those threads, and calls that were under way in them never end there. Still
 * each call of rte_acl.h has to answer there, by SIGALRM at the latest, and by aclc.h each call on
 * a handle that no other thread was calling on. It prints a line at the end.
 */
#include <pthread.h>
#include <stdatomic.h>
#include <stdbool.h>
#include <stdint.h>
#include <stdio.h>
#include <stdlib.h>
#include <string.h>
#include <sys/wait.h>
#include <unistd.h>

#include <rte_acl.h>

#include <aclc.h>

enum { THREADS = 4, CHILDREN = 50, PACKETS = 1000, SECONDS = 20, VERDICT = 5 };

/* More threads of a child than a context has places for calls: each place is used there. */
enum { IN_CHILD = 130 };

RTE_ACL_RULE_DEF(byte_rule, 1);

static struct rte_acl_ctx *asked, *rebuilt;
static const uint8_t packet[1] = {7};
static const uint8_t *data[PACKETS];
static atomic_bool ended;
static atomic_ullong wrong;

static int build(struct rte_acl_ctx *ctx)
{
    struct byte_rule rule = {.data = {1, 1, VERDICT}};
    struct rte_acl_config config;

    memset(&config, 0, sizeof config);
    config.num_categories = 1;
    config.num_fields = 1;
    config.defs[0] = (struct rte_acl_field_def){RTE_ACL_FIELD_TYPE_RANGE, 1, 0, 0, 0};
    rule.field[0].mask_range.u8 = UINT8_MAX;
    rte_acl_reset_rules(ctx);
    if (rte_acl_add_rules(ctx, (const struct rte_acl_rule *)&rule, 1))
        return -1;
    return rte_acl_build(ctx, &config);
}

static struct rte_acl_ctx *created(const char *name)
{
    struct rte_acl_param param = {name, SOCKET_ID_ANY, RTE_ACL_RULE_SZ(1), 1};

    return rte_acl_create(&param);
}

/* Whether so many packets get the verdict. */
static bool is_right(struct rte_acl_ctx *ctx, uint32_t count)
{
    uint32_t verdicts[PACKETS];

    if (rte_acl_classify(ctx, data, verdicts, count, 1))
        return false;
    for (uint32_t at = 0; at < count; at++)
        if (verdicts[at] != VERDICT)
            return false;
    return true;
}

static void *classify(void *unused)
{
    while (!ended)
        wrong += !is_right(asked, PACKETS) || !is_right(rebuilt, PACKETS);
    return unused;
}

static void *rebuild(void *unused)
{
    while (!ended)
        wrong += build(rebuilt) != 0;
    return unused;
}

static void *create_and_free(void *unused)
{
    while (!ended)
        rte_acl_free(created("short-lived"));
    return unused;
}

/* A context of aclc.h with a rule for each byte, its table built and copied. */
static bool fill(struct aclc_context *context, struct aclc_table *table)
{
    const struct aclc_field field = {ACLC_FIELD_RANGE, 1, 0, 0, 0};
    const struct aclc_rule rule = {1, 1, VERDICT};
    const struct aclc_value value = {0, UINT8_MAX};
    uint32_t place, at, of;
    uint64_t words;

    return aclc_create(context, &field, 1, 1, &place) == ACLC_OK &&
           aclc_add_rules(context, &rule, 1, &value, 1, &at, &of) == ACLC_OK &&
           aclc_build(context, 0, &words) == ACLC_OK &&
           aclc_table_copy(context, table) == ACLC_OK;
}

static bool is_right_by(struct aclc_table *table)
{
    uint32_t verdict = 0;
    uint64_t transitions;

    return aclc_table_classify(table, packet, 1, 1, ACLC_WALK_SCALAR, &verdict, 1, &transitions) ==
               ACLC_OK &&
           verdict == VERDICT;
}

static void *classify_by(void *table)
{
    while (!ended)
        wrong += !is_right_by(table);
    return NULL;
}

static void *classify_in_child(void *unused)
{
    wrong += !is_right(asked, 1) || !is_right(rebuilt, 1);
    return unused;
}

static int call_in_child(struct aclc_table *own)
{
    struct aclc_context context = {0};
    struct aclc_table table = {0};
    pthread_t thread;

    alarm(SECONDS);
    if (rte_acl_find_existing("asked") != asked || !is_right(asked, PACKETS))
        return 2;
    for (int at = 0; at < IN_CHILD; at++)
        if (pthread_create(&thread, NULL, classify_in_child, NULL) || pthread_join(thread, NULL))
            return 3;
    if (wrong != 0 || build(asked) || build(rebuilt) || !is_right(asked, 1))
        return 4;
    rte_acl_reset(rebuilt);
    rte_acl_free(rebuilt);
    rte_acl_free(asked);
    asked = created("asked");
    if (asked == NULL || build(asked) || !is_right(asked, 1))
        return 5;
    if (!is_right_by(own) || !fill(&context, &table) || !is_right_by(&table))
        return 6;
    aclc_table_free(&table);
    aclc_free(&context);
    aclc_table_free(own);
    return 0;
}

int main(int count, char **words)
{
    int children = count > 1 ? atoi(words[1]) : CHILDREN, failed = 0;
    pthread_t threads[THREADS + 3];
    struct aclc_context context = {0};
    struct aclc_table own = {0}, other = {0};
    void *(*const others[])(void *) = {rebuild, create_and_free, classify_by};

    for (int at = 0; at < PACKETS; at++)
        data[at] = packet;
    asked = created("asked");
    rebuilt = created("rebuilt");
    if (build(asked) || build(rebuilt) || !fill(&context, &own) ||
        aclc_table_share(&own, &other) != ACLC_OK)
        return 2;
    for (int at = 0; at < THREADS + 3; at++)
        if (pthread_create(&threads[at], NULL, at < THREADS ? classify : others[at - THREADS],
                           &other))
            return 3;
    for (int at = 0; at < children && failed == 0; at++) {
        pid_t child = fork();
        if (child == 0)
            _exit(call_in_child(&own));
        if (child < 0 || waitpid(child, &failed, 0) != child)
            return 4;
    }
    ended = true;
    for (int at = 0; at < THREADS + 3; at++)
        pthread_join(threads[at], NULL);
    rte_acl_free(asked);
    rte_acl_free(rebuilt);
    aclc_table_free(&own);
    aclc_table_free(&other);
    aclc_free(&context);
    if (failed != 0)
        printf("a child ends with %d by signal %d\n", WEXITSTATUS(failed), WTERMSIG(failed));
    printf("children %d wrong verdicts %llu\n", children, (unsigned long long)wrong);
    return failed != 0 || wrong != 0;
}
