/* SPDX-License-Identifier: BSD-3-Clause */
/*
 * layout.c: prints the sizes, places and numbers of rte_acl.h that a built program has in it.
 *
 * It is compiled with DPDK's own header and with include/compat, and both have to print the same.
 */
#include <rte_acl.h>
#include <stddef.h>
#include <stdio.h>

#define SIZE(type) printf("%s has %zu bytes\n", #type, sizeof(type))
#define PLACE(type, member) \
    printf("%s.%s is at %zu, of %zu bytes\n", #type, #member, offsetof(type, member), \
           sizeof(((type *)0)->member))
#define NUMBER(name) printf("%s is %lld\n", #name, (long long)(name))

static void print_structs(void)
{
    SIZE(union rte_acl_field_types);
    SIZE(struct rte_acl_field_def);
    PLACE(struct rte_acl_field_def, type);
    PLACE(struct rte_acl_field_def, size);
    PLACE(struct rte_acl_field_def, field_index);
    PLACE(struct rte_acl_field_def, input_index);
    PLACE(struct rte_acl_field_def, offset);
    SIZE(struct rte_acl_config);
    PLACE(struct rte_acl_config, num_categories);
    PLACE(struct rte_acl_config, num_fields);
    PLACE(struct rte_acl_config, defs);
    PLACE(struct rte_acl_config, max_size);
    SIZE(struct rte_acl_field);
    PLACE(struct rte_acl_field, value);
    PLACE(struct rte_acl_field, mask_range);
    SIZE(struct rte_acl_rule_data);
    PLACE(struct rte_acl_rule_data, category_mask);
    PLACE(struct rte_acl_rule_data, priority);
    PLACE(struct rte_acl_rule_data, userdata);
    SIZE(struct rte_acl_rule);
    PLACE(struct rte_acl_rule, data);
    printf("struct rte_acl_rule.field is at %zu\n", offsetof(struct rte_acl_rule, field));
    SIZE(struct rte_acl_param);
    PLACE(struct rte_acl_param, name);
    PLACE(struct rte_acl_param, socket_id);
    PLACE(struct rte_acl_param, rule_size);
    PLACE(struct rte_acl_param, max_rule_num);
}

static void print_numbers(void)
{
    NUMBER(RTE_ACL_MAX_CATEGORIES);
    NUMBER(RTE_ACL_RESULTS_MULTIPLIER);
    NUMBER(RTE_ACL_MAX_FIELDS);
    NUMBER(RTE_ACL_NAMESIZE);
    NUMBER(RTE_ACL_MAX_PRIORITY);
    NUMBER(RTE_ACL_MIN_PRIORITY);
    NUMBER(RTE_ACL_FIELD_TYPE_MASK);
    NUMBER(RTE_ACL_FIELD_TYPE_RANGE);
    NUMBER(RTE_ACL_FIELD_TYPE_BITMASK);
    NUMBER(RTE_ACL_CLASSIFY_DEFAULT);
    NUMBER(RTE_ACL_CLASSIFY_SCALAR);
    NUMBER(RTE_ACL_CLASSIFY_SSE);
    NUMBER(RTE_ACL_CLASSIFY_AVX2);
    NUMBER(RTE_ACL_CLASSIFY_NEON);
    NUMBER(RTE_ACL_CLASSIFY_ALTIVEC);
    NUMBER(RTE_ACL_CLASSIFY_AVX512X16);
    NUMBER(RTE_ACL_CLASSIFY_AVX512X32);
}

int main(void)
{
    print_structs();
    print_numbers();
    return 0;
}
