/* SPDX-License-Identifier: BSD-3-Clause */
/*
 * aclc_proved.h: what the crate acl_c exports, as C declares it.
 *
 * Each function does what aclc.h says of the call of its name, if no pointer is null and no handle
 * is given twice. The archive has them too; programs call those of aclc.h.
 */
#ifndef ACLC_PROVED_H
#define ACLC_PROVED_H

#include "aclc.h"

void aclc_proved_error_text(aclc_code code, struct aclc_text *text);

aclc_code aclc_proved_create(struct aclc_context *context, const struct aclc_field *fields,
                             size_t field_count, uint32_t max_rules, uint32_t *place);

aclc_code aclc_proved_add_rules(struct aclc_context *context, const struct aclc_rule *rules,
                                size_t rule_count, const struct aclc_value *values,
                                size_t value_count, uint32_t *rule, uint32_t *field);

aclc_code aclc_proved_build(struct aclc_context *context, uint64_t budget, uint64_t *words);

aclc_code aclc_proved_lanes(struct aclc_context *context, uint32_t keys);

aclc_code aclc_proved_classify(struct aclc_context *context, const uint8_t *keys, size_t keys_len,
                               uint32_t categories, uint32_t walk, uint32_t *verdicts,
                               size_t verdicts_len, uint64_t *transitions);

aclc_code aclc_proved_classify_keys(struct aclc_context *context, const struct aclc_key *keys,
                                    size_t key_count, uint32_t categories, uint32_t walk,
                                    uint32_t *verdicts, size_t verdicts_len, uint64_t *transitions);

aclc_code aclc_proved_marks(struct aclc_context *context, const uint8_t *keys, size_t keys_len,
                            uint32_t categories, uint8_t *marks, size_t marks_len);

aclc_code aclc_proved_sizes(struct aclc_context *context, size_t *rules, size_t *key_len,
                            uint64_t *words);

aclc_code aclc_proved_reset_rules(struct aclc_context *context);

aclc_code aclc_proved_reset(struct aclc_context *context);

void aclc_proved_free(struct aclc_context *context);

aclc_code aclc_proved_table_copy(struct aclc_context *context, struct aclc_table *table);

aclc_code aclc_proved_table_share(struct aclc_table *table, struct aclc_table *other);

aclc_code aclc_proved_table_lanes(struct aclc_table *table, uint32_t keys);

aclc_code aclc_proved_table_classify(struct aclc_table *table, const uint8_t *keys, size_t keys_len,
                                     uint32_t categories, uint32_t walk, uint32_t *verdicts,
                                     size_t verdicts_len, uint64_t *transitions);

aclc_code aclc_proved_table_classify_keys(struct aclc_table *table, const struct aclc_key *keys,
                                          size_t key_count, uint32_t categories, uint32_t walk,
                                          uint32_t *verdicts, size_t verdicts_len,
                                          uint64_t *transitions);

aclc_code aclc_proved_table_marks(struct aclc_table *table, const uint8_t *keys, size_t keys_len,
                                  uint32_t categories, uint8_t *marks, size_t marks_len);

aclc_code aclc_proved_table_sizes(struct aclc_table *table, size_t *rules, size_t *key_len,
                                  uint64_t *words);

void aclc_proved_table_free(struct aclc_table *table);

aclc_code aclc_proved_save(struct aclc_table *ip4, struct aclc_table *ip6, uint8_t *image,
                           size_t room, size_t *image_len);

aclc_code aclc_proved_load(struct aclc_table *ip4, struct aclc_table *ip6, const uint8_t *image,
                           size_t image_len, uint64_t *place);

#endif
