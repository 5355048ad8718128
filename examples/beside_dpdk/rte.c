/* SPDX-License-Identifier: BSD-3-Clause */
// Walks keys by DPDK's librte_acl: rte FAMILY RULES KEYS [WORDS ..], and then a question on each line of standard input
//
// FAMILY is 4 or 6. RULES has for each rule numbers of 4 bytes, low byte first: protocol and mask, each four bytes of the
// source and how many of their bits count, those of the destination, the ends of both ranges of ports, and the userdata. The
// first rule has the greatest priority. KEYS has for each key protocol, source, destination and ports in network order, and
// three bytes that aren't read: 16 or 40 bytes. The other words go to DPDK. It prints the library's account of the context,
// which tells the algorithm that it chose, and the microseconds that the build took. A question has three numbers: the
// algorithm of rte_acl.h (1 scalar, 2 SSE, 3 AVX2, 6 and 7 AVX512, 0 the one that was chosen), how many keys are walked at a
// time, and how many rounds over all keys. The answer is the nanoseconds of a key, of the least times of 32 parts of the keys,
// or "none" where this processor doesn't have the algorithm. With no rounds it is the userdata of each key, a line for each.
#include <stdint.h>
#include <stdio.h>
#include <stdlib.h>
#include <time.h>

#include <rte_acl.h>
#include <rte_eal.h>

enum { MOST_FIELDS = 11, MOST_RULES = 262144, MOST_WORDS = 16, PARTS = 32 };
RTE_ACL_RULE_DEF(acl_rule, MOST_FIELDS);

// How many fields a key has, of which so many are four bytes of an address, and its bytes with those that aren't read.
static int parts = 2, fields = 5;
static size_t key_size = 16;

// The fields of a key. A group of four bytes is read at a time; the two ports are one.
static void define(struct rte_acl_field_def *defs) {
    defs[0] = (struct rte_acl_field_def){RTE_ACL_FIELD_TYPE_BITMASK, 1, 0, 0, 0};
    for (int at = 1; at <= parts; at++)
        defs[at] = (struct rte_acl_field_def){RTE_ACL_FIELD_TYPE_MASK, 4, at, at, 4 * at - 3};
    for (int port = 0; port < 2; port++)
        defs[1 + parts + port] =
            (struct rte_acl_field_def){RTE_ACL_FIELD_TYPE_RANGE, 2, 1 + parts + port, 1 + parts, 4 * parts + 1 + 2 * port};
}

static void *content(const char *name, size_t *size) {
    FILE *file = fopen(name, "rb");
    if (!file || fseek(file, 0, SEEK_END)) exit(7);
    *size = ftell(file);
    rewind(file);
    void *bytes = malloc(*size + 1);
    if (!bytes || fread(bytes, 1, *size, file) != *size) exit(7);
    fclose(file);
    return bytes;
}

static double seconds(void) {
    struct timespec now;
    clock_gettime(CLOCK_MONOTONIC, &now);
    return now.tv_sec + now.tv_nsec / 1e9;
}

static struct rte_acl_ctx *table(const uint32_t *numbers, size_t rules) {
    struct rte_acl_param param = {"rules", SOCKET_ID_ANY, RTE_ACL_RULE_SZ(fields), MOST_RULES};
    struct rte_acl_config config = {.num_categories = 1, .num_fields = fields};
    struct rte_acl_ctx *ctx = rte_acl_create(&param);
    if (!ctx) exit(2);
    for (size_t at = 0; at < rules; at++, numbers += 2 * fields + 1) {
        struct acl_rule rule = {
            {.category_mask = 1, .priority = RTE_ACL_MAX_PRIORITY - (int)at - 1, .userdata = numbers[2 * fields]}};
        rule.field[0].value.u8 = numbers[0], rule.field[0].mask_range.u8 = numbers[1];
        for (int field = 1; field <= parts; field++)
            rule.field[field].value.u32 = numbers[2 * field], rule.field[field].mask_range.u32 = numbers[2 * field + 1];
        for (int field = 1 + parts; field < fields; field++)
            rule.field[field].value.u16 = numbers[2 * field], rule.field[field].mask_range.u16 = numbers[2 * field + 1];
        if (rte_acl_add_rules(ctx, (struct rte_acl_rule *)&rule, 1)) exit(3);
    }
    define(config.defs);
    double begun = seconds();
    if (rte_acl_build(ctx, &config)) exit(4);
    double built = seconds();
    rte_acl_dump(ctx);
    printf("build %.0f\n", (built - begun) * 1e6);
    return ctx;
}

// Whether this processor has the algorithm, as the library says of a call with no keys.
static int is_there(struct rte_acl_ctx *ctx, const uint8_t **places, uint32_t *answers, int algorithm) {
    return !algorithm || rte_acl_classify_alg(ctx, places, answers, 0, 1, algorithm) == 0;
}

// Walks the keys from one place to another, so many at a time, and tells the seconds.
static double walk(struct rte_acl_ctx *ctx, const uint8_t **places, size_t from, size_t to, uint32_t *answers, int algorithm,
                   size_t at_a_time) {
    double begun = seconds();
    for (size_t at = from; at < to; at += at_a_time) {
        uint32_t some = to - at < at_a_time ? to - at : at_a_time;
        if (algorithm ? rte_acl_classify_alg(ctx, places + at, answers + at, some, 1, algorithm)
                      : rte_acl_classify(ctx, places + at, answers + at, some, 1))
            exit(5);
    }
    return seconds() - begun;
}

// The nanoseconds of a key: the least times of all parts of the keys, each over all rounds.
static double least_of(struct rte_acl_ctx *ctx, const uint8_t **places, size_t keys, uint32_t *answers, int algorithm,
                       size_t at_a_time, int rounds) {
    double least[PARTS], sum = 0;
    for (int round = 0; round == 0 || round < rounds; round++)
        for (int part = 0; part < PARTS; part++) {
            double time = walk(ctx, places, keys * part / PARTS, keys * (part + 1) / PARTS, answers, algorithm, at_a_time);
            if (round == 0 || time < least[part]) least[part] = time;
        }
    for (int part = 0; part < PARTS; part++) sum += least[part];
    return sum / keys * 1e9;
}

int main(int count, char **words) {
    char *eal[MOST_WORDS] = {"rte", "--no-huge", "--no-pci", "--no-shconf", "--no-telemetry", "-l", "0", "-m", "3072",
                             "--log-level=*:1", "--log-level=lib.acl:8"};
    int given = 11;
    for (int at = 4; at < count && given < MOST_WORDS; at++) eal[given++] = words[at];
    if (count < 4 || rte_eal_init(given, eal) < 0) return 2;
    if (words[1][0] == '6') parts = 8, fields = 11, key_size = 40;
    size_t size, keys;
    uint32_t *numbers = content(words[2], &size);
    uint8_t *bytes = content(words[3], &keys);
    struct rte_acl_ctx *ctx = table(numbers, size / (4 * (2 * fields + 1)));
    keys /= key_size;
    uint32_t *answers = malloc(keys * sizeof *answers + 1);
    const uint8_t **places = malloc(keys * sizeof *places + 1);
    for (size_t at = 0; at < keys; at++) places[at] = bytes + key_size * at;
    int algorithm, rounds;
    size_t at_a_time;
    for (fflush(stdout); scanf("%d %zu %d", &algorithm, &at_a_time, &rounds) == 3; fflush(stdout)) {
        if (!is_there(ctx, places, answers, algorithm)) {
            printf("none\n");
            continue;
        }
        double least = least_of(ctx, places, keys, answers, algorithm, at_a_time, rounds);
        if (rounds) printf("%.2f\n", least);
        for (size_t at = 0; !rounds && at < keys; at++) printf("%u\n", answers[at]);
    }
    return 0;
}
