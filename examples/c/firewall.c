/* SPDX-License-Identifier: BSD-3-Clause */
/* A firewall of twenty rules over IPv4 packets, and what it says of ten of them. */
#include <inttypes.h>
#include <stdio.h>

#include "aclc.h"

enum { FIELDS = 5, KEY_LEN = 13, BUDGET = 2097152 };
enum { DROP = 1, PASS = 2, LOG = 3 };
enum { TCP = 6, UDP = 17, ICMP = 1 };

/* Protocol, source, destination, source port and destination port, one after the other. */
static const struct aclc_field LAYOUT[FIELDS] = {
    {ACLC_FIELD_BITMASK, 1, 0, 0, 0}, {ACLC_FIELD_MASK, 4, 1, 1, 1}, {ACLC_FIELD_MASK, 4, 2, 2, 5},
    {ACLC_FIELD_RANGE, 2, 3, 3, 9},   {ACLC_FIELD_RANGE, 2, 4, 3, 11},
};

#define IP(a, b, c, d) \
    (((uint32_t)(a) << 24) | ((uint32_t)(b) << 16) | ((uint32_t)(c) << 8) | (uint32_t)(d))
#define ANY_PORT {0, 65535}
#define HIGH_PORT {1024, 65535}
#define PORT(n) {(n), (n)}
#define RULE(protocol, from, from_bits, to, to_bits, port) \
    {{(protocol), (protocol) ? 255 : 0}, {(from), (from_bits)}, {(to), (to_bits)}, ANY_PORT, port}

/* What each rule is for: the category, the priority, and what becomes of a packet. */
static const struct aclc_rule RULES[] = {
    {1, 1, DROP}, {1, 9, PASS}, {1, 9, PASS}, {1, 8, LOG}, {1, 9, PASS},
    {1, 9, PASS}, {1, 9, PASS},
    {1, 9, DROP}, {1, 9, DROP}, {1, 9, DROP}, {1, 7, PASS}, {1, 7, PASS}, {1, 7, PASS},
    {1, 7, PASS},
    {1, 20, DROP}, {1, 20, DROP}, {1, 20, DROP}, {1, 15, LOG}, {1, 15, LOG}, {1, 6, PASS},
};

static const struct aclc_value VALUES[][FIELDS] = {
    RULE(0, 0, 0, IP(192, 0, 2, 0), 24, ANY_PORT),
    RULE(TCP, 0, 0, IP(192, 0, 2, 1), 32, PORT(80)),
    RULE(TCP, 0, 0, IP(192, 0, 2, 1), 32, PORT(443)),
    RULE(TCP, 0, 0, IP(192, 0, 2, 1), 32, PORT(22)),
    RULE(TCP, IP(10, 0, 0, 0), 8, IP(192, 0, 2, 1), 32, PORT(22)),
    RULE(UDP, 0, 0, IP(192, 0, 2, 53), 32, PORT(53)),
    RULE(TCP, 0, 0, IP(192, 0, 2, 53), 32, PORT(53)),
    RULE(TCP, 0, 0, IP(192, 0, 2, 0), 24, PORT(23)),
    RULE(TCP, 0, 0, IP(192, 0, 2, 0), 24, PORT(445)),
    RULE(UDP, 0, 0, IP(192, 0, 2, 0), 24, PORT(1900)),
    RULE(ICMP, 0, 0, IP(192, 0, 2, 0), 24, ANY_PORT),
    RULE(TCP, IP(198, 51, 100, 0), 24, IP(192, 0, 2, 25), 32, PORT(25)),
    RULE(TCP, IP(198, 51, 100, 0), 24, IP(192, 0, 2, 25), 32, PORT(587)),
    RULE(UDP, 0, 0, IP(192, 0, 2, 123), 32, PORT(123)),
    RULE(0, IP(203, 0, 113, 0), 24, 0, 0, ANY_PORT),
    RULE(0, IP(127, 0, 0, 0), 8, 0, 0, ANY_PORT),
    RULE(0, IP(240, 0, 0, 0), 4, 0, 0, ANY_PORT),
    RULE(TCP, IP(198, 51, 100, 66), 32, 0, 0, ANY_PORT),
    RULE(UDP, IP(198, 51, 100, 66), 32, 0, 0, ANY_PORT),
    RULE(TCP, IP(10, 0, 0, 0), 8, 0, 0, HIGH_PORT),
};

enum { RULE_COUNT = sizeof RULES / sizeof RULES[0] };

struct packet {
    uint8_t protocol;
    uint32_t from, to;
    uint16_t from_port, to_port;
};

static const struct packet PACKETS[] = {
    {TCP, IP(10, 0, 0, 7), IP(192, 0, 2, 1), 40000, 80},
    {TCP, IP(10, 0, 0, 7), IP(192, 0, 2, 1), 40000, 22},
    {TCP, IP(198, 51, 100, 9), IP(192, 0, 2, 1), 40000, 22},
    {UDP, IP(198, 51, 100, 9), IP(192, 0, 2, 53), 5353, 53},
    {TCP, IP(203, 0, 113, 5), IP(192, 0, 2, 1), 40000, 80},
    {TCP, IP(198, 51, 100, 66), IP(192, 0, 2, 1), 40000, 443},
    {ICMP, IP(198, 51, 100, 9), IP(192, 0, 2, 9), 0, 0},
    {TCP, IP(198, 51, 100, 9), IP(192, 0, 2, 25), 40000, 587},
    {TCP, IP(198, 51, 100, 9), IP(192, 0, 2, 9), 40000, 8080},
    {UDP, IP(198, 51, 100, 9), IP(198, 51, 100, 1), 40000, 9999},
};

enum { PACKET_COUNT = sizeof PACKETS / sizeof PACKETS[0] };

static uint8_t *put(uint8_t *at, uint32_t number, int bytes) {
    for (int i = bytes - 1; i >= 0; i--)
        *at++ = (uint8_t)(number >> (8 * i));
    return at;
}

/* Writes the keys of the packets, one after the other, in network order. */
static void put_keys(uint8_t *at) {
    for (int i = 0; i < PACKET_COUNT; i++) {
        const struct packet *packet = &PACKETS[i];
        at = put(at, packet->protocol, 1);
        at = put(at, packet->from, 4);
        at = put(at, packet->to, 4);
        at = put(at, packet->from_port, 2);
        at = put(at, packet->to_port, 2);
    }
}

static int refused(const char *call, aclc_code code) {
    fprintf(stderr, "%s: %" PRIu32 "\n", call, code);
    return 1;
}

/* Makes the table of the rules, and prints what it says of each packet. */
static int run(struct aclc_context *context) {
    static const char *const NAMES[] = {"no rule", "drop", "pass", "log"};
    uint8_t keys[PACKET_COUNT * KEY_LEN];
    uint32_t verdicts[PACKET_COUNT], place = 0, field = 0;
    uint64_t words = 0, transitions = 0;
    aclc_code code;

    code = aclc_create(context, LAYOUT, FIELDS, 1000, &place);
    if (code)
        return refused("aclc_create", code);
    code = aclc_add_rules(context, RULES, RULE_COUNT, VALUES[0], RULE_COUNT * FIELDS, &place,
                          &field);
    if (code)
        return refused("aclc_add_rules", code);
    code = aclc_build(context, BUDGET, &words);
    if (code)
        return refused("aclc_build", code);
    put_keys(keys);
    code = aclc_classify(context, keys, sizeof keys, 1, ACLC_WALK_SCALAR, verdicts, PACKET_COUNT,
                         &transitions);
    if (code)
        return refused("aclc_classify", code);
    for (int i = 0; i < PACKET_COUNT; i++)
        printf("packet %d: %s\n", i, NAMES[verdicts[i]]);
    return 0;
}

int main(void) {
    struct aclc_context context = {0};
    int status = run(&context);
    aclc_free(&context);
    return status;
}
