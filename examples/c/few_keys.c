/* SPDX-License-Identifier: BSD-3-Clause */
/*
 * Classifies a few keys in each of many calls, in a row or apart: few_keys apart|row KEYS CALLS
 *
 * It prints the sum of the verdicts. What a call costs is the difference of runs: of instructions by
 * cachegrind, or of time.
 */
#include <inttypes.h>
#include <stdio.h>
#include <stdlib.h>
#include <string.h>

#include "aclc.h"

enum { MOST_KEYS = 64, KEY_LEN = 13, FIELDS = 5, RULES = 3 };

static const struct aclc_field LAYOUT[FIELDS] = {
    {ACLC_FIELD_BITMASK, 1, 0, 0, 0}, {ACLC_FIELD_MASK, 4, 1, 1, 4},   {ACLC_FIELD_MASK, 4, 2, 2, 8},
    {ACLC_FIELD_RANGE, 2, 3, 3, 12},  {ACLC_FIELD_RANGE, 2, 4, 3, 14},
};

static const struct aclc_rule TAGS[RULES] = {{1, 3, 10}, {1, 2, 20}, {1, 1, 30}};

static const struct aclc_value VALUES[RULES][FIELDS] = {
    {{6, 255}, {0x0a000000, 8}, {0, 0}, {0, 65535}, {80, 80}},
    {{0, 0}, {0x0a000000, 8}, {0xc0a80000, 16}, {0, 65535}, {0, 65535}},
    {{17, 255}, {0, 0}, {0, 0}, {0, 65535}, {53, 53}},
};

int main(int count, char **words) {
    static uint8_t bytes[MOST_KEYS * KEY_LEN];
    struct aclc_key keys[MOST_KEYS];
    uint32_t verdicts[MOST_KEYS], place, rule, field;
    struct aclc_context context = {0};
    uint64_t transitions, sum = 0, budget;
    size_t many = count == 4 ? (size_t)atoi(words[2]) : 0;
    long calls = count == 4 ? atol(words[3]) : 0;
    if (many < 1 || many > MOST_KEYS)
        return 2;
    for (size_t at = 0; at < many; at++) {
        keys[at] = (struct aclc_key){bytes + at * KEY_LEN, KEY_LEN};
        memcpy(bytes + at * KEY_LEN, "\6\n\1\2\3\300\250\0\1\0\7\0\120", KEY_LEN);
        bytes[at * KEY_LEN] = at % 2 ? 17 : 6;
    }
    if (aclc_create(&context, LAYOUT, FIELDS, RULES, &place) != ACLC_OK ||
        aclc_add_rules(&context, TAGS, RULES, VALUES[0], (size_t)RULES * FIELDS, &rule, &field) != ACLC_OK ||
        aclc_build(&context, 0, &budget) != ACLC_OK)
        return 3;
    for (long call = 0; call < calls; call++) {
        aclc_code code = words[1][0] == 'a' ? aclc_classify_keys(&context, keys, many, 1, ACLC_WALK_SCALAR, verdicts,
                                                                 many, &transitions)
                                            : aclc_classify(&context, bytes, many * KEY_LEN, 1, ACLC_WALK_SCALAR,
                                                            verdicts, many, &transitions);
        if (code != ACLC_OK)
            return 4;
        sum += verdicts[many - 1];
    }
    aclc_free(&context);
    printf("%" PRIu64 "\n", sum);
    return 0;
}
