/* SPDX-License-Identifier: BSD-3-Clause */
/*
 * rte_acl_build.h: what a build reads of the rules of a context, and makes of them. It is a part of
 * rte_acl.c.
 */
#ifndef _RTE_ACL_BUILD_H_
#define _RTE_ACL_BUILD_H_

/* Frees what a build made. */
static void free_built(struct built *built)
{
    if (built == NULL)
        return;
    for (int at = 0; at < PLACES; at++)
        if (built->handles[at] != NULL) {
            aclc_table_free(&built->handles[at]->table);
            free(built->handles[at]);
        }
    aclc_table_free(&built->table);
    free(built);
}

/* What the rule at some place of a list is for. Rules needn't be aligned. */
static struct rte_acl_rule_data data_of(const uint8_t *rules, uint32_t rule_size, uint32_t place)
{
    struct rte_acl_rule_data data;

    memcpy(&data, rules + (size_t)place * rule_size, sizeof data);
    return data;
}

/* The number that a refusal of aclc.h is here. */
static int number_of(aclc_code code)
{
    if (code == ACLC_NO_MEMORY || code == ACLC_BAD_LIMIT)
        return -ENOMEM;
    return code == ACLC_OK ? 0 : -EINVAL;
}

/* Whether the numbers of a configuration are in range, and its fields lie in a rule. */
static bool is_in_range(const struct rte_acl_ctx *ctx, const struct rte_acl_config *cfg)
{
    if (cfg->num_categories == 0 || cfg->num_categories > RTE_ACL_MAX_CATEGORIES ||
        cfg->num_fields == 0 || cfg->num_fields > RTE_ACL_MAX_FIELDS)
        return false;
    for (uint32_t at = 0; at < cfg->num_fields; at++)
        if (ctx->rule_size < RTE_ACL_RULE_SZ(cfg->defs[at].field_index + 1u))
            return false;
    return true;
}

/*
 * Says the definitions as aclc.h wants them, and where the groups lie.
 *
 * A field begins a group where its input index isn't that of the field before. So groups are
 * numbered here, and offsets count from the begin of the group. aclc_create refuses what is no
 * layout then: for one, fields of a group that don't lie together.
 */
static void read_fields(const struct rte_acl_config *cfg, struct aclc_field *fields,
                        struct built *built)
{
    uint32_t begin = cfg->defs[0].offset;
    uint8_t group = 0;

    built->first = begin;
    for (uint32_t at = 0; at < cfg->num_fields; at++) {
        const struct rte_acl_field_def *def = &cfg->defs[at];
        if (at > 0 && def->input_index != def[-1].input_index) {
            group += def[-1].size == 2 * GROUP ? 2 : 1;
            begin = def->offset;
            built->offsets[built->groups++] = begin;
            if (def->size == 2 * GROUP)
                built->offsets[built->groups++] = begin + GROUP;
        }
        fields[at] = (struct aclc_field){def->type, def->size, (uint8_t)at, group,
                                         def->offset - begin};
    }
}

/* The number in a member of so many bytes. */
static uint64_t number_in(const union rte_acl_field_types *member, uint8_t size)
{
    if (size <= 2)
        return size == 1 ? member->u8 : member->u16;
    return size == 4 ? member->u32 : member->u64;
}

/* What a rule says of a field. */
static struct aclc_value value_of(const struct rte_acl_field_def *def, const uint8_t *rule)
{
    struct rte_acl_field field;

    memcpy(&field, rule + RTE_ACL_RULE_SZ(def->field_index), sizeof field);
    return (struct aclc_value){number_in(&field.value, def->size),
                               def->type == RTE_ACL_FIELD_TYPE_MASK
                                   ? field.mask_range.u32
                                   : number_in(&field.mask_range, def->size)};
}

/* The rules that take part in the categories of a build. */
struct taking {
    uint32_t count;
    struct aclc_rule *rules;
    struct aclc_value *values; /* num_fields for each rule */
};

/* Reads the rules that take part, or answers why not. What it took is freed by the caller. */
static int read_rules(const struct rte_acl_ctx *ctx, const struct rte_acl_config *cfg,
                      struct taking *taking)
{
    const uint32_t categories = (1u << cfg->num_categories) - 1;
    struct aclc_value *value;

    taking->rules = malloc(((size_t)ctx->num_rules + 1) * sizeof *taking->rules);
    taking->values =
        malloc(((size_t)ctx->num_rules * cfg->num_fields + 1) * sizeof *taking->values);
    if (taking->rules == NULL || taking->values == NULL)
        return -ENOMEM;
    value = taking->values;
    for (uint32_t place = 0; place < ctx->num_rules; place++) {
        struct rte_acl_rule_data data = data_of(ctx->rules, ctx->rule_size, place);
        if ((data.category_mask & categories) == 0)
            continue;
        taking->rules[taking->count++] = (struct aclc_rule){data.category_mask & categories,
                                                            data.priority, data.userdata};
        for (uint32_t at = 0; at < cfg->num_fields; at++)
            *value++ = value_of(&cfg->defs[at], ctx->rules + (size_t)place * ctx->rule_size);
    }
    return taking->count > 0 ? 0 : -EINVAL;
}

/* Fills an empty handle with a context of the fields and of the rules that take part. */
static int fill_context(const struct rte_acl_ctx *ctx, const struct rte_acl_config *cfg,
                        struct built *built, struct aclc_context *context)
{
    struct aclc_field fields[RTE_ACL_MAX_FIELDS];
    struct taking taking = {0, NULL, NULL};
    uint32_t place, rule, field;
    int answer;

    read_fields(cfg, fields, built);
    answer = read_rules(ctx, cfg, &taking);
    if (answer == 0)
        answer = number_of(aclc_create(context, fields, cfg->num_fields, taking.count, &place));
    if (answer == 0)
        answer = number_of(aclc_add_rules(context, taking.rules, taking.count, taking.values,
                                          (size_t)taking.count * cfg->num_fields, &rule, &field));
    free(taking.rules);
    free(taking.values);
    return answer;
}

/*
 * Makes the table, and tells its words: the small one that aclc.h makes under no budget, or, if a
 * limit is given that it passes, one of as many tries as the limit asks for.
 */
static int build_table(struct aclc_context *context, size_t max_size, uint64_t *words)
{
    uint64_t limit = max_size / WORD;
    aclc_code code;

    if (max_size == 0 || limit > ACLC_MAX_WORDS)
        limit = ACLC_MAX_WORDS;
    if (limit == 0)
        return -ERANGE;
    code = aclc_build(context, 0, words);
    if (code == ACLC_OK && *words > limit)
        code = aclc_build(context, limit, words);
    if (code != ACLC_TOO_LARGE)
        return number_of(code);
    return max_size != 0 && *words > max_size / WORD ? -ERANGE : -ENOMEM;
}

/*
 * The lock of the handle of each build of which others are made. It is taken for a moment by the
 * first call at a place, and for a whole call if there is no memory for a handle of its own. Who
 * has it waits for nothing.
 */
static pthread_mutex_t sharing = PTHREAD_MUTEX_INITIALIZER;

/*
 * The handle that a build has for a place, which is made if it isn't there, or NULL if there is no
 * memory for it. Nobody else asks for it: the place is marked for the caller, or nobody knows the
 * build yet.
 */
static struct handle *handle_of(struct built *built, unsigned number)
{
    struct handle *handle = built->handles[number];
    aclc_code code;

    if (handle != NULL)
        return handle;
    handle = aligned_alloc(CACHE_LINE, sizeof *handle);
    if (handle == NULL)
        return NULL;
    memset(handle, 0, sizeof *handle);
    pthread_mutex_lock(&sharing);
    code = aclc_table_share(&built->table, &handle->table);
    pthread_mutex_unlock(&sharing);
    if (code != ACLC_OK) {
        free(handle);
        return NULL;
    }
    built->handles[number] = handle;
    return handle;
}

#endif
