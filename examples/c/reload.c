/* SPDX-License-Identifier: BSD-3-Clause */
/*
 * Two workers that classify while the first thread loads rules anew, over and over.
 *
 *     reload [RULES LOADS]    loads so many rules so often; 100 and 200, if they aren't given
 *
 * Each worker has two handles, of which it uses one. A load fills the other with the new table, and
 * stores its number by a release. The worker, between two batches, loads that number by an acquire,
 * goes over to the new table, and stores by a release that it has passed. The old handle is freed
 * after that. So a worker never waits, and neither takes nor frees memory.
 *
 * A verdict says the load and the rule that it comes of. Each has to be that of one pass over the
 * rules of the load whose table the worker has: a mixture of two loads would be told as wrong.
 */
#include <inttypes.h>
#include <pthread.h>
#include <sched.h>
#include <stdatomic.h>
#include <stdbool.h>
#include <stdio.h>
#include <stdlib.h>
#include <string.h>
#include <time.h>

#include "aclc.h"

enum { WORKERS = 2, KEYS = 256, KEY_LEN = 13, FIELDS = 5, KINDS = 3 };
enum { MOST = 10000, MOST_LOADS = 30000, BUDGET = 8388608 };

static const struct aclc_field LAYOUT[FIELDS] = {
    {ACLC_FIELD_BITMASK, 1, 0, 0, 0}, {ACLC_FIELD_MASK, 4, 1, 1, 1},
    {ACLC_FIELD_MASK, 4, 2, 2, 5},    {ACLC_FIELD_RANGE, 2, 3, 3, 9},
    {ACLC_FIELD_RANGE, 2, 4, 3, 11},
};

/* All rules, the first before the second. The last matches each key. A load leaves a third out. */
static struct aclc_value values[MOST][FIELDS];
static uint32_t count = 100, loads = 200;
static uint8_t keys[KEYS * KEY_LEN];
/* The rule that wins a key in loads of each kind, by one pass over the rules. */
static uint32_t winners[KINDS][KEYS];
static atomic_bool ended;

struct worker {
    _Alignas(64) _Atomic uint32_t handed; /* the load that is to be used */
    _Alignas(64) _Atomic uint32_t passed; /* the load that is used */
    struct aclc_table tables[2];          /* that of a load is at its number modulo 2 */
    pthread_t thread;
    uint64_t batches, wrong;
};

/* How long the parts of all loads took, in milliseconds. */
struct times {
    double build, copy, pass;
};

static uint32_t draw(uint32_t most) {
    static uint64_t state = 1;
    state = state * 6364136223846793005u + 1442695040888963407u;
    return (uint32_t)(state >> 33) % most;
}

static double now(void) {
    struct timespec time;
    clock_gettime(CLOCK_MONOTONIC, &time);
    return (double)time.tv_sec * 1e3 + (double)time.tv_nsec / 1e6;
}

static void fail(const char *what, aclc_code code) {
    fprintf(stderr, "reload: %s: %s\n", what, aclc_strerror(code));
    exit(1);
}

static int takes_part(uint32_t rule, uint32_t load) {
    return rule + 1 == count || (rule + load) % KINDS != 0;
}

static uint32_t verdict_of(uint32_t load, uint32_t rule) {
    return load << 16 | (rule + 1);
}

/* Prefixes of a few networks and ports, as lists of access have them. */
static void draw_rules(void) {
    for (uint32_t rule = 0; rule < count; rule++) {
        uint32_t port = draw(65536), wild = draw(2);
        values[rule][0] = (struct aclc_value){draw(2) ? 6 : 17, 255};
        uint32_t source = (10 + draw(4)) << 24 | draw(1 << 24), target = 172u << 24 | draw(1 << 24);
        values[rule][1] = (struct aclc_value){source, 8 + 4 * draw(7)};
        values[rule][2] = (struct aclc_value){target, 8 + 4 * draw(7)};
        values[rule][3] = (struct aclc_value){0, 65535};
        values[rule][4] = (struct aclc_value){wild ? 0 : port, wild ? 65535 : port};
    }
    memset(values[count - 1], 0, sizeof values[0]);
    values[count - 1][3].mask_range = values[count - 1][4].mask_range = 65535;
}

static uint32_t number_at(const uint8_t *bytes, int size) {
    uint32_t number = 0;
    for (int at = 0; at < size; at++)
        number = number << 8 | bytes[at];
    return number;
}

static int matches(const struct aclc_value *value, const uint8_t *key) {
    for (int at = 0, from = 0; at < FIELDS; from += LAYOUT[at++].size) {
        uint64_t low = value[at].value, more = value[at].mask_range;
        uint64_t number = number_at(key + from, LAYOUT[at].size);
        if (LAYOUT[at].kind == ACLC_FIELD_RANGE && (number < low || number > more))
            return 0;
        if (LAYOUT[at].kind == ACLC_FIELD_MASK && more != 0 && (number ^ low) >> (32 - more) != 0)
            return 0;
        if (LAYOUT[at].kind == ACLC_FIELD_BITMASK && ((number ^ low) & more) != 0)
            return 0;
    }
    return 1;
}

/* Each key is one of a rule that is drawn, and then the winner of each kind is looked for. */
static void draw_keys(void) {
    for (uint32_t at = 0; at < KEYS; at++) {
        const struct aclc_value *value = values[draw(count)];
        uint8_t *key = keys + at * KEY_LEN;
        for (int field = 0, from = 0; field < FIELDS; from += LAYOUT[field++].size)
            for (int byte = 0, left = LAYOUT[field].size; left-- > 0; byte++)
                key[from + byte] = (uint8_t)(value[field].value >> 8 * left);
        for (uint32_t kind = 0; kind < KINDS; kind++)
            while (!takes_part(winners[kind][at], kind) || !matches(values[winners[kind][at]], key))
                winners[kind][at]++;
    }
}

/* Makes a context of the rules of a load. */
static void fill(struct aclc_context *context, uint32_t load) {
    static struct aclc_rule tags[MOST];
    static struct aclc_value given[MOST][FIELDS];
    uint32_t some = 0, place, field;
    for (uint32_t rule = 0; rule < count; rule++) {
        if (!takes_part(rule, load))
            continue;
        tags[some] = (struct aclc_rule){1, (int32_t)(MOST - rule), verdict_of(load, rule)};
        memcpy(given[some++], values[rule], sizeof values[rule]);
    }
    aclc_code code = aclc_create(context, LAYOUT, FIELDS, some, &place);
    if (code == ACLC_OK)
        code = aclc_add_rules(context, tags, some, given[0], (size_t)some * FIELDS, &place, &field);
    if (code != ACLC_OK)
        fail("the rules aren't taken", code);
}

/* Fills the handles that the workers don't use with the table of a load. */
static void make(struct worker *workers, uint32_t load, struct times *times) {
    struct aclc_context context = {0};
    struct aclc_table *first = &workers[0].tables[load % 2];
    uint64_t words;
    fill(&context, load);
    double begun = now();
    aclc_code code = aclc_build(&context, BUDGET, &words);
    double built = now();
    if (code == ACLC_OK)
        code = aclc_table_copy(&context, first);
    for (int at = 1; at < WORKERS && code == ACLC_OK; at++)
        code = aclc_table_share(first, &workers[at].tables[load % 2]);
    if (code != ACLC_OK)
        fail("there is no table", code);
    times->build += built - begun;
    times->copy += now() - built;
    aclc_free(&context);
}

/* Hands the table to all workers, waits until each has passed, and frees the one before. */
static void hand_over(struct worker *workers, uint32_t load, struct times *times) {
    double begun = now();
    for (int at = 0; at < WORKERS; at++)
        atomic_store_explicit(&workers[at].handed, load, memory_order_release);
    for (int at = 0; at < WORKERS; at++)
        while (atomic_load_explicit(&workers[at].passed, memory_order_acquire) != load)
            sched_yield();
    times->pass += now() - begun;
    for (int at = 0; at < WORKERS; at++)
        aclc_table_free(&workers[at].tables[(load + 1) % 2]);
}

static void *work(void *given) {
    struct worker *worker = given;
    uint32_t load = 0, verdicts[KEYS];
    uint64_t transitions;
    for (; !atomic_load_explicit(&ended, memory_order_relaxed); worker->batches++) {
        uint32_t handed = atomic_load_explicit(&worker->handed, memory_order_acquire);
        if (handed != load) {
            load = handed;
            atomic_store_explicit(&worker->passed, load, memory_order_release);
        }
        if (aclc_table_classify(&worker->tables[load % 2], keys, sizeof keys, 1, ACLC_WALK_SCALAR,
                                verdicts, KEYS, &transitions) != ACLC_OK)
            worker->wrong++;
        for (uint32_t at = 0; at < KEYS; at++)
            worker->wrong += verdicts[at] != verdict_of(load, winners[load % KINDS][at]);
    }
    return NULL;
}

static void start(struct worker *workers) {
    make(workers, 0, &(struct times){0, 0, 0});
    for (int at = 0; at < WORKERS; at++)
        if (pthread_create(&workers[at].thread, NULL, work, &workers[at]) != 0)
            exit(1);
}

/* Ends the workers, and tells how many batches they made, and how many verdicts were wrong. */
static void stop(struct worker *workers, uint64_t *batches, uint64_t *wrong) {
    atomic_store_explicit(&ended, true, memory_order_relaxed);
    for (int at = 0; at < WORKERS; at++) {
        pthread_join(workers[at].thread, NULL);
        aclc_table_free(&workers[at].tables[loads % 2]);
        *batches += workers[at].batches;
        *wrong += workers[at].wrong;
    }
}

int main(int words_count, char **words) {
    static struct worker workers[WORKERS];
    struct times times = {0, 0, 0};
    uint64_t batches = 0, wrong = 0;
    if (words_count == 3) {
        count = (uint32_t)strtoul(words[1], NULL, 10);
        loads = (uint32_t)strtoul(words[2], NULL, 10);
    }
    if ((words_count != 1 && words_count != 3) || count < 1 || count > MOST || loads < 1 ||
        loads > MOST_LOADS) {
        fprintf(stderr, "reload: it needs up to %d rules and up to %d loads\n", MOST, MOST_LOADS);
        return 2;
    }
    draw_rules();
    draw_keys();
    start(workers);
    for (uint32_t load = 1; load <= loads; load++) {
        make(workers, load, &times);
        hand_over(workers, load, &times);
    }
    stop(workers, &batches, &wrong);
    fprintf(stderr, "reload: %" PRIu64 " batches; ms of a load: build %.2f, copy and share %.3f, "
            "until all have passed %.3f\n", batches, times.build / loads, times.copy / loads,
            times.pass / loads);
    printf("%d workers, %" PRIu32 " loads of %" PRIu32 " rules: %" PRIu64 " wrong\n", WORKERS,
           loads, count, wrong);
    return wrong != 0;
}
