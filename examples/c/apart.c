/* SPDX-License-Identifier: BSD-3-Clause */
/*
 * Classifies keys that stand apart, as they do in the memory of packets, and the same in a row.
 *
 *     apart    ends with 1 if a verdict or a number of transitions differs; tells the time of both
 *
 * A call has 32 keys, as a burst of packets has, and then 5,000, which are packed in several parts.
 */
#include <inttypes.h>
#include <stdio.h>
#include <stdlib.h>
#include <string.h>
#include <time.h>

#include "aclc.h"

enum { KEYS = 5000, BURST = 32, ROUNDS = 20, FIELDS = 4, KEY_LEN = 13, RULES = 200, APART = 256 };

static uint8_t row[KEYS * KEY_LEN];
/* Each key in a packet of its own. */
static uint8_t packets[KEYS][APART];
static struct aclc_key keys[KEYS];
static uint64_t state = 1;

static uint32_t below(uint32_t most) {
    state = state * 6364136223846793005u + 1442695040888963407u;
    return (uint32_t)(state >> 33) % most;
}

static void expect(const char *call, aclc_code answer) {
    if (answer == ACLC_OK)
        return;
    fprintf(stderr, "apart: %s: %s\n", call, aclc_strerror(answer));
    exit(1);
}

static double now(void) {
    struct timespec time;
    clock_gettime(CLOCK_MONOTONIC, &time);
    return (double)time.tv_sec * 1e9 + (double)time.tv_nsec;
}

static void prepare(struct aclc_context *context) {
    static struct aclc_rule rules[RULES];
    static struct aclc_value values[RULES][FIELDS];
    struct aclc_field fields[FIELDS];
    uint32_t place, field;
    uint64_t words;
    for (uint32_t i = 0; i < FIELDS; i++)
        fields[i] = (struct aclc_field){ACLC_FIELD_MASK, i ? 4 : 1, (uint8_t)i, (uint8_t)i, 4 * i};
    for (uint32_t i = 0; i < RULES; i++) {
        rules[i] = (struct aclc_rule){1, (int32_t)i, i + 1};
        for (uint32_t j = 0; j < FIELDS; j++) {
            uint32_t number = j ? below(4) << 30 | below(4) << 22 : below(3);
            values[i][j] = (struct aclc_value){number, 4 * below(3)};
        }
    }
    expect("aclc_create", aclc_create(context, fields, FIELDS, RULES, &place));
    expect("aclc_add_rules",
           aclc_add_rules(context, rules, RULES, values[0], RULES * FIELDS, &place, &field));
    expect("aclc_build", aclc_build(context, ACLC_MAX_WORDS, &words));
    expect("aclc_lanes", aclc_lanes(context, KEYS));
    for (uint32_t i = 0; i < KEYS; i++) {
        uint8_t *key = packets[i] + below(APART - KEY_LEN);
        for (int j = 0; j < KEY_LEN; j++)
            key[j] = (uint8_t)(j % 4 == 1 ? below(4) << 6 : below(4));
        memcpy(row + i * KEY_LEN, key, KEY_LEN);
        keys[i] = (struct aclc_key){key, KEY_LEN};
    }
}

/* The least time of a key in a round over all keys, by calls of so many. */
static double timed(struct aclc_context *context, int apart, size_t at_once, uint32_t walk,
                    uint32_t *verdicts, uint64_t *taken) {
    double least = 1e18;
    for (int round = 0; round < ROUNDS; round++) {
        double begun = now();
        *taken = 0;
        for (size_t at = 0; at < KEYS; at += at_once) {
            size_t some = KEYS - at < at_once ? KEYS - at : at_once;
            uint64_t more;
            aclc_code code =
                apart ? aclc_classify_keys(context, keys + at, some, 1, walk, verdicts + at, some,
                                           &more)
                      : aclc_classify(context, row + at * KEY_LEN, some * KEY_LEN, 1, walk,
                                      verdicts + at, some, &more);
            expect("a call", code);
            *taken += more;
        }
        if (now() - begun < least)
            least = now() - begun;
    }
    return least / KEYS;
}

int main(void) {
    static uint32_t found[2][KEYS];
    static const size_t AT_ONCE[] = {BURST, KEYS};
    struct aclc_context context = {0};
    uint64_t taken[2];
    int differs = 0;
    prepare(&context);
    for (int size = 0; size < 2; size++)
        for (uint32_t walk = ACLC_WALK_SCALAR; walk <= ACLC_WALK_LANES; walk++) {
            double in_row = timed(&context, 0, AT_ONCE[size], walk, found[0], &taken[0]);
            double apart = timed(&context, 1, AT_ONCE[size], walk, found[1], &taken[1]);
            fprintf(stderr, "apart: %zu keys a call, walk %" PRIu32 ": %.1f ns a key in a row, ",
                    AT_ONCE[size], walk, in_row);
            fprintf(stderr, "%.1f apart\n", apart);
            differs |= taken[0] != taken[1] || memcmp(found[0], found[1], sizeof found[0]) != 0;
        }
    aclc_free(&context);
    puts(differs ? "keys that stand apart get others" : "keys that stand apart get the same");
    return differs;
}
