/* SPDX-License-Identifier: BSD-3-Clause */
// Walks keys by the C library of this repository: aclc FAMILY RULES KEYS BUDGET, and then questions as rte.c
//
// FAMILY and RULES are as for rte.c. KEYS has for each key protocol, source, destination and ports in network order. BUDGET is
// how many words the table may have. It prints the microseconds that the build took. A question has three numbers: the walk of
// aclc.h, how many keys are walked at a time, and how many rounds over all keys. The answer is as that of rte.c.
#include <stdint.h>
#include <stdio.h>
#include <stdlib.h>
#include <time.h>

#include <aclc.h>

enum { MOST_FIELDS = 11, PARTS = 32 };

// How many fields a key has, of which so many are four bytes of an address, and its bytes.
static uint32_t parts = 2, fields = 5;
static size_t key_size = 13;

static void define(struct aclc_field *defs) {
    defs[0] = (struct aclc_field){ACLC_FIELD_BITMASK, 1, 0, 0, 0};
    for (uint32_t at = 1; at <= parts; at++) defs[at] = (struct aclc_field){ACLC_FIELD_MASK, 4, at, at, 4 * at - 3};
    for (uint32_t port = 0; port < 2; port++)
        defs[1 + parts + port] =
            (struct aclc_field){ACLC_FIELD_RANGE, 2, 1 + parts + port, 1 + parts, 4 * parts + 1 + 2 * port};
}

static void *content(const char *name, size_t *size) {
    FILE *file = fopen(name, "rb");
    if (!file || fseek(file, 0, SEEK_END)) exit(7);
    *size = ftell(file);
    rewind(file);
    void *bytes = malloc(*size + 1);
    if (!bytes || fread(bytes, 1, *size, file) != *size) exit(7);
    fclose(file);
    return bytes;
}

static double seconds(void) {
    struct timespec now;
    clock_gettime(CLOCK_MONOTONIC, &now);
    return now.tv_sec + now.tv_nsec / 1e9;
}

static void fill(struct aclc_context *context, const uint32_t *numbers, size_t count, uint64_t budget) {
    struct aclc_rule *rules = malloc((count + 1) * sizeof *rules);
    struct aclc_value *values = malloc((count + 1) * fields * sizeof *values);
    struct aclc_field defs[MOST_FIELDS];
    uint32_t place, field;
    uint64_t words;
    for (size_t at = 0; at < count; at++, numbers += 2 * fields + 1) {
        rules[at] = (struct aclc_rule){1, ACLC_MAX_PRIORITY - (int32_t)at, numbers[2 * fields]};
        for (uint32_t value = 0; value < fields; value++)
            values[fields * at + value] = (struct aclc_value){numbers[2 * value], numbers[2 * value + 1]};
    }
    define(defs);
    if (aclc_create(context, defs, fields, ACLC_MAX_RULES, &place)) exit(2);
    if (aclc_add_rules(context, rules, count, values, fields * count, &place, &field)) exit(3);
    double begun = seconds();
    if (aclc_build(context, budget, &words)) exit(4);
    printf("build %.0f\n", (seconds() - begun) * 1e6);
    free(rules);
    free(values);
}

// Walks the keys from one place to another, so many at a time, and tells the seconds.
static double seconds_of(struct aclc_context *context, const uint8_t *bytes, size_t from, size_t to, uint32_t *answers,
                         unsigned walk, size_t at_a_time) {
    uint64_t transitions;
    double begun = seconds();
    for (size_t at = from; at < to; at += at_a_time) {
        size_t some = to - at < at_a_time ? to - at : at_a_time;
        if (aclc_classify(context, bytes + key_size * at, key_size * some, 1, walk, answers + at, some, &transitions)) exit(5);
    }
    return seconds() - begun;
}

// The nanoseconds of a key: the least times of all parts of the keys, each over all rounds.
static double least_of(struct aclc_context *context, const uint8_t *bytes, size_t keys, uint32_t *answers, unsigned walk,
                       size_t at_a_time, int rounds) {
    double least[PARTS], sum = 0;
    for (int round = 0; round == 0 || round < rounds; round++)
        for (int part = 0; part < PARTS; part++) {
            double time = seconds_of(context, bytes, keys * part / PARTS, keys * (part + 1) / PARTS, answers, walk, at_a_time);
            if (round == 0 || time < least[part]) least[part] = time;
        }
    for (int part = 0; part < PARTS; part++) sum += least[part];
    return sum / keys * 1e9;
}

int main(int count, char **words) {
    size_t size, keys;
    if (count != 5) return 2;
    if (words[1][0] == '6') parts = 8, fields = 11, key_size = 37;
    uint32_t *numbers = content(words[2], &size);
    uint8_t *bytes = content(words[3], &keys);
    struct aclc_context context = {0};
    fill(&context, numbers, size / (4 * (2 * fields + 1)), strtoull(words[4], NULL, 10));
    keys /= key_size;
    uint32_t *answers = malloc(keys * sizeof *answers + 1);
    unsigned walk;
    int rounds;
    size_t at_a_time;
    for (fflush(stdout); scanf("%u %zu %d", &walk, &at_a_time, &rounds) == 3; fflush(stdout)) {
        double least = least_of(&context, bytes, keys, answers, walk, at_a_time, rounds);
        if (rounds) printf("%.2f\n", least);
        for (size_t at = 0; !rounds && at < keys; at++) printf("%u\n", answers[at]);
    }
    aclc_free(&context);
    return 0;
}
