/* SPDX-License-Identifier: BSD-3-Clause */
/*
 * Eight threads that classify by one table, each through a handle of its own.
 *
 *     threads [SECONDS]    each makes 1,000 batches, or as many as it can in so many seconds
 *
 * The table is made once, and shared: nothing of it is copied. Each thread starts after its handle is
 * filled and is joined before the handle is freed, which orders the calls as aclc.h asks for.
 */
#include <inttypes.h>
#include <pthread.h>
#include <stdio.h>
#include <stdlib.h>
#include <string.h>
#include <time.h>

#include "aclc.h"

enum { THREADS = 8, BATCHES = 1000, KEYS = 256, KEY_LEN = 5, RULES = 4 };

static const struct aclc_field LAYOUT[] = {
    {ACLC_FIELD_RANGE, 1, 0, 0, 0},
    {ACLC_FIELD_MASK, 4, 1, 1, 4},
};

static const struct aclc_rule TAGS[RULES] = {{1, 1, 10}, {1, 4, 20}, {1, 3, 30}, {1, 2, 40}};

static const struct aclc_value VALUES[RULES][2] = {
    {{0, 255}, {0, 0}},
    {{6, 6}, {0x0a000000, 8}},
    {{6, 17}, {0xc0a80000, 16}},
    {{17, 17}, {0, 0}},
};

static uint8_t keys[KEYS * KEY_LEN];
static uint32_t wanted[KEYS];
/* When the threads end, or 0 where they make so many batches. */
static time_t end;

struct worker {
    pthread_t thread;
    struct aclc_table table;
    uint64_t batches, wrong;
};

static void *work(void *given) {
    struct worker *worker = given;
    uint32_t verdicts[KEYS];
    uint64_t transitions;
    for (; end ? time(NULL) < end : worker->batches < BATCHES; worker->batches++) {
        memset(verdicts, 0, sizeof verdicts);
        if (aclc_table_classify(&worker->table, keys, sizeof keys, 1, ACLC_WALK_SCALAR, verdicts,
                                KEYS, &transitions) != ACLC_OK ||
            memcmp(verdicts, wanted, sizeof wanted) != 0)
            worker->wrong++;
    }
    return NULL;
}

/* Makes the table, and what each thread has to find. The context isn't asked for after that. */
static aclc_code make_table(struct aclc_table *table) {
    struct aclc_context context = {0};
    uint32_t place, field;
    uint64_t words, transitions;
    aclc_code code = aclc_create(&context, LAYOUT, 2, RULES, &place);
    if (code == ACLC_OK)
        code = aclc_add_rules(&context, TAGS, RULES, VALUES[0], RULES * 2, &place, &field);
    if (code == ACLC_OK)
        code = aclc_build(&context, 100000, &words);
    if (code == ACLC_OK)
        code = aclc_classify(&context, keys, sizeof keys, 1, ACLC_WALK_SCALAR, wanted, KEYS,
                             &transitions);
    if (code == ACLC_OK)
        code = aclc_table_copy(&context, table);
    aclc_free(&context);
    return code;
}

int main(int count, char **words) {
    static struct worker workers[THREADS];
    struct aclc_table table = {0};
    uint64_t batches = 0, wrong = 0;
    for (int at = 0; at < KEYS; at++) {
        static const uint8_t NETS[] = {10, 192, 11};
        uint8_t *key = keys + at * KEY_LEN;
        key[0] = (uint8_t)(at % 3 == 0 ? 6 : at % 3 == 1 ? 17 : 1);
        key[1] = NETS[at / 3 % 3];
        key[2] = (uint8_t)(at % 2 ? 168 : 0);
        key[4] = (uint8_t)at;
    }
    aclc_code code = make_table(&table);
    for (int at = 0; at < THREADS && code == ACLC_OK; at++)
        code = aclc_table_share(&table, &workers[at].table);
    aclc_table_free(&table);
    if (code != ACLC_OK) {
        fprintf(stderr, "threads: %" PRIu32 "\n", code);
        return 1;
    }
    if (count > 1)
        end = time(NULL) + strtol(words[1], NULL, 10);
    for (int at = 0; at < THREADS; at++)
        if (pthread_create(&workers[at].thread, NULL, work, &workers[at]) != 0)
            return 1;
    for (int at = 0; at < THREADS; at++) {
        pthread_join(workers[at].thread, NULL);
        aclc_table_free(&workers[at].table);
        batches += workers[at].batches;
        wrong += workers[at].wrong;
    }
    printf("%d threads, %" PRIu64 " batches: %" PRIu64 " wrong\n", THREADS, batches, wrong);
    return wrong != 0;
}
