/* SPDX-License-Identifier: BSD-3-Clause */
/*
 * aclc.c: the calls of aclc.h, each over the proved function of its name in aclc_proved.h.
 *
 * The proved functions take pointers that aren't null, and no handle twice. These refuse both, and
 * hand all else on. A pointer with a length may be null where the length is 0: the proved function
 * is then given the handle's place, where it reads nothing. This file isn't proved.
 */
#include "aclc.h"

#include "aclc_proved.h"

/* A pointer to so many elements, which aren't there. */
#define ABSENT(pointer, length) ((pointer) == NULL && (length) != 0)

/* The pointer, or where it is null, and so leads to no elements, one that isn't. */
#define SOME(type, pointer, other) ((pointer) != NULL ? (pointer) : (type *)(void *)(other))

const char *aclc_strerror(aclc_code code) {
    struct aclc_text text = {"", 0};
    aclc_proved_error_text(code, &text);
    return text.bytes;
}

aclc_code aclc_create(struct aclc_context *context, const struct aclc_field *fields,
                      size_t field_count, uint32_t max_rules, uint32_t *place) {
    if (context == NULL || ABSENT(fields, field_count) || place == NULL)
        return ACLC_NULL;
    return aclc_proved_create(context, SOME(const struct aclc_field, fields, context), field_count,
                              max_rules, place);
}

aclc_code aclc_add_rules(struct aclc_context *context, const struct aclc_rule *rules,
                         size_t rule_count, const struct aclc_value *values, size_t value_count,
                         uint32_t *rule, uint32_t *field) {
    if (context == NULL || ABSENT(rules, rule_count) || ABSENT(values, value_count) ||
        rule == NULL || field == NULL)
        return ACLC_NULL;
    return aclc_proved_add_rules(context, SOME(const struct aclc_rule, rules, context), rule_count,
                                 SOME(const struct aclc_value, values, context), value_count, rule,
                                 field);
}

aclc_code aclc_build(struct aclc_context *context, uint64_t budget, uint64_t *words) {
    if (context == NULL || words == NULL)
        return ACLC_NULL;
    return aclc_proved_build(context, budget, words);
}

aclc_code aclc_lanes(struct aclc_context *context, uint32_t keys) {
    if (context == NULL)
        return ACLC_NULL;
    return aclc_proved_lanes(context, keys);
}

aclc_code aclc_classify(struct aclc_context *context, const uint8_t *keys, size_t keys_len,
                        uint32_t categories, uint32_t walk, uint32_t *verdicts, size_t verdicts_len,
                        uint64_t *transitions) {
    if (context == NULL || ABSENT(keys, keys_len) || ABSENT(verdicts, verdicts_len) ||
        transitions == NULL)
        return ACLC_NULL;
    return aclc_proved_classify(context, SOME(const uint8_t, keys, context), keys_len, categories,
                                walk, SOME(uint32_t, verdicts, context), verdicts_len, transitions);
}

/* Whether one of so many keys is at no place. */
static int is_key_absent(const struct aclc_key *keys, size_t key_count) {
    for (size_t at = 0; keys != NULL && at < key_count; at++)
        if (keys[at].bytes == NULL)
            return 1;
    return keys == NULL && key_count != 0;
}

aclc_code aclc_classify_keys(struct aclc_context *context, const struct aclc_key *keys,
                             size_t key_count, uint32_t categories, uint32_t walk,
                             uint32_t *verdicts, size_t verdicts_len, uint64_t *transitions) {
    if (context == NULL || is_key_absent(keys, key_count) || ABSENT(verdicts, verdicts_len) ||
        transitions == NULL)
        return ACLC_NULL;
    return aclc_proved_classify_keys(context, SOME(const struct aclc_key, keys, context), key_count,
                                     categories, walk, SOME(uint32_t, verdicts, context),
                                     verdicts_len, transitions);
}

aclc_code aclc_marks(struct aclc_context *context, const uint8_t *keys, size_t keys_len,
                     uint32_t categories, uint8_t *marks, size_t marks_len) {
    if (context == NULL || ABSENT(keys, keys_len) || ABSENT(marks, marks_len))
        return ACLC_NULL;
    return aclc_proved_marks(context, SOME(const uint8_t, keys, context), keys_len, categories,
                             SOME(uint8_t, marks, context), marks_len);
}

aclc_code aclc_sizes(struct aclc_context *context, size_t *rules, size_t *key_len,
                     uint64_t *words) {
    if (context == NULL || rules == NULL || key_len == NULL || words == NULL)
        return ACLC_NULL;
    return aclc_proved_sizes(context, rules, key_len, words);
}

aclc_code aclc_reset_rules(struct aclc_context *context) {
    if (context == NULL)
        return ACLC_NULL;
    return aclc_proved_reset_rules(context);
}

aclc_code aclc_reset(struct aclc_context *context) {
    if (context == NULL)
        return ACLC_NULL;
    return aclc_proved_reset(context);
}

aclc_code aclc_table_copy(struct aclc_context *context, struct aclc_table *table) {
    if (context == NULL || table == NULL)
        return ACLC_NULL;
    return aclc_proved_table_copy(context, table);
}

aclc_code aclc_table_share(struct aclc_table *table, struct aclc_table *other) {
    if (table == NULL || other == NULL)
        return ACLC_NULL;
    if (table == other)
        return table->held != 0 ? ACLC_TAKEN : ACLC_EMPTY;
    return aclc_proved_table_share(table, other);
}

aclc_code aclc_table_lanes(struct aclc_table *table, uint32_t keys) {
    if (table == NULL)
        return ACLC_NULL;
    return aclc_proved_table_lanes(table, keys);
}

aclc_code aclc_table_classify(struct aclc_table *table, const uint8_t *keys, size_t keys_len,
                              uint32_t categories, uint32_t walk, uint32_t *verdicts,
                              size_t verdicts_len, uint64_t *transitions) {
    if (table == NULL || ABSENT(keys, keys_len) || ABSENT(verdicts, verdicts_len) ||
        transitions == NULL)
        return ACLC_NULL;
    return aclc_proved_table_classify(table, SOME(const uint8_t, keys, table), keys_len, categories,
                                      walk, SOME(uint32_t, verdicts, table), verdicts_len,
                                      transitions);
}

aclc_code aclc_table_classify_keys(struct aclc_table *table, const struct aclc_key *keys,
                                   size_t key_count, uint32_t categories, uint32_t walk,
                                   uint32_t *verdicts, size_t verdicts_len, uint64_t *transitions) {
    if (table == NULL || is_key_absent(keys, key_count) || ABSENT(verdicts, verdicts_len) ||
        transitions == NULL)
        return ACLC_NULL;
    return aclc_proved_table_classify_keys(
        table, SOME(const struct aclc_key, keys, table), key_count, categories, walk,
        SOME(uint32_t, verdicts, table), verdicts_len, transitions);
}

aclc_code aclc_table_marks(struct aclc_table *table, const uint8_t *keys, size_t keys_len,
                           uint32_t categories, uint8_t *marks, size_t marks_len) {
    if (table == NULL || ABSENT(keys, keys_len) || ABSENT(marks, marks_len))
        return ACLC_NULL;
    return aclc_proved_table_marks(table, SOME(const uint8_t, keys, table), keys_len, categories,
                                   SOME(uint8_t, marks, table), marks_len);
}

aclc_code aclc_table_sizes(struct aclc_table *table, size_t *rules, size_t *key_len,
                           uint64_t *words) {
    if (table == NULL || rules == NULL || key_len == NULL || words == NULL)
        return ACLC_NULL;
    return aclc_proved_table_sizes(table, rules, key_len, words);
}

aclc_code aclc_save(struct aclc_table *ip4, struct aclc_table *ip6, uint8_t *image, size_t room,
                    size_t *image_len) {
    if (ip4 == NULL || ip6 == NULL || ABSENT(image, room) || image_len == NULL)
        return ACLC_NULL;
    if (ip4 == ip6)
        return ip4->held != 0 ? ACLC_NO_IMAGE : ACLC_EMPTY;
    return aclc_proved_save(ip4, ip6, SOME(uint8_t, image, ip4), room, image_len);
}

aclc_code aclc_load(struct aclc_table *ip4, struct aclc_table *ip6, const uint8_t *image,
                    size_t image_len, uint64_t *place) {
    if (ip4 == NULL || ip6 == NULL || ABSENT(image, image_len) || place == NULL)
        return ACLC_NULL;
    if (ip4 == ip6)
        return ACLC_TAKEN;
    return aclc_proved_load(ip4, ip6, SOME(const uint8_t, image, ip4), image_len, place);
}

void aclc_error_text(aclc_code code, struct aclc_text *text) {
    if (text != NULL)
        aclc_proved_error_text(code, text);
}

void aclc_free(struct aclc_context *context) {
    if (context != NULL)
        aclc_proved_free(context);
}

void aclc_table_free(struct aclc_table *table) {
    if (table != NULL)
        aclc_proved_table_free(table);
}
