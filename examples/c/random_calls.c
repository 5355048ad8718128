/* SPDX-License-Identifier: BSD-3-Clause */
/*
 * Makes calls of rte_acl.h in random orders, lawful or not: random_calls [ORDERS [SEED]]
 *
 * For each answer it knows what rte_acl.h of this repository says of it, also where DPDK's library
 * has none: so it is for this repository alone. It prints a line of sums at the end, and stops at
 * the first answer that differs.
 */
#include <stdbool.h>
#include <stdint.h>
#include <stdio.h>
#include <stdlib.h>
#include <string.h>

#include <rte_acl.h>

enum { NAMES = 3, MOST_RULES = 6, ORDERS = 10000, CALLS = 40, BUFFER = 8 };
enum { CATEGORIES = RTE_ACL_MAX_CATEGORIES };

RTE_ACL_RULE_DEF(byte_rule, 1);

/* Some rules that match each byte, and in how many categories they take part. */
struct rules {
    uint32_t count, categories;
    struct byte_rule all[MOST_RULES];
};

/* What a context should be. */
struct model {
    struct rte_acl_ctx *ctx;
    uint32_t max_rules;
    int alg;
    struct rules added;
    struct rules built; /* of no categories where there is no table */
};

static const char *const names[NAMES] = {"red", "green", "blue"};
static struct model models[NAMES];
static uint64_t state, calls, refused;

static uint32_t below(uint32_t bound)
{
    state = state * 6364136223846793005u + 1442695040888963407u;
    return (uint32_t)(state >> 33) % bound;
}

static bool once_in(uint32_t times)
{
    return below(times) == 0;
}

/* Stops where an answer isn't the one that it should be. */
static void expect(const char *call, int answer, int wanted)
{
    calls++;
    refused += wanted != 0;
    if (answer == wanted)
        return;
    printf("%s answers %d and not %d, at call %llu\n", call, answer, wanted,
           (unsigned long long)calls);
    exit(1);
}

static void create(const char *name, struct model *model)
{
    struct rte_acl_param param = {once_in(8) ? NULL : name, SOCKET_ID_ANY, RTE_ACL_RULE_SZ(1),
                                  below(MOST_RULES + 1)};
    struct rte_acl_ctx *ctx;

    rte_errno = 0;
    ctx = rte_acl_create(once_in(8) ? NULL : &param);
    expect("create", rte_errno, ctx != NULL ? 0 : EINVAL);
    if (ctx == NULL)
        return;
    expect("create", model->ctx == NULL || model->ctx == ctx, true);
    if (model->ctx == NULL) {
        model->max_rules = param.max_rule_num;
        model->alg = RTE_ACL_CLASSIFY_SCALAR;
    }
    model->ctx = ctx;
}

static void find(const char *name, struct model *model)
{
    rte_errno = 0;
    expect("find", rte_acl_find_existing(name) == model->ctx, true);
    expect("find", rte_errno, model->ctx != NULL ? 0 : ENOENT);
    expect("find", rte_acl_find_existing(NULL) == NULL, true);
}

static struct byte_rule draw_rule(void)
{
    struct byte_rule rule;

    memset(&rule, 0, sizeof rule);
    rule.data.category_mask = once_in(20) ? below(2) << 16 : 1 + below(0xffff);
    rule.data.priority = once_in(20) ? 0 : 1 + (int32_t)below(4);
    rule.data.userdata = below(1000);
    return rule;
}

static void add(struct model *model)
{
    uint32_t count = below(4);
    struct byte_rule rules[4];
    int wanted = model->ctx == NULL ? -EINVAL : 0;

    for (uint32_t at = 0; at < count; at++) {
        rules[at] = draw_rule();
        if ((rules[at].data.category_mask & 0xffff) == 0 || rules[at].data.priority == 0)
            wanted = -EINVAL;
    }
    if (wanted == 0 && model->added.count + count > model->max_rules)
        wanted = -ENOMEM;
    expect("add", rte_acl_add_rules(model->ctx, (const struct rte_acl_rule *)rules, count), wanted);
    if (wanted != 0)
        return;
    memcpy(model->added.all + model->added.count, rules, count * sizeof *rules);
    model->added.count += count;
}

/* The userdata of the winner. */
static uint32_t verdict(const struct rules *rules, uint32_t category)
{
    const struct rte_acl_rule_data *best = NULL;

    for (uint32_t at = 0; at < rules->count && category < rules->categories; at++) {
        const struct rte_acl_rule_data *one = &rules->all[at].data;

        if ((one->category_mask >> category & 1) != 0 &&
            (best == NULL || one->priority > best->priority))
            best = one;
    }
    return best != NULL ? best->userdata : 0;
}

/* A configuration of which each part is now and then unlawful, and whether all of it is lawful. */
static bool draw_config(struct rte_acl_config *config)
{
    memset(config, 0, sizeof *config);
    config->num_categories = once_in(10) ? below(2) * (CATEGORIES + 1) : 1 + below(CATEGORIES);
    config->num_fields = once_in(10) ? below(2) * (RTE_ACL_MAX_FIELDS + 1) : 1;
    config->defs[0].type = once_in(10) ? 3 : RTE_ACL_FIELD_TYPE_BITMASK;
    config->defs[0].size = once_in(10) ? (uint8_t)(2 + below(9)) : 1;
    config->defs[0].field_index = once_in(10) ? (uint8_t)(1 + below(255)) : 0;
    config->defs[0].input_index = (uint8_t)below(256);
    config->defs[0].offset = below(BUFFER);
    config->max_size = once_in(10) ? 1 + below(64) : once_in(2) ? 0 : 1 << 16;
    return config->num_categories >= 1 && config->num_categories <= CATEGORIES &&
           config->num_fields == 1 && config->defs[0].type != 3 && config->defs[0].size == 1 &&
           config->defs[0].field_index == 0;
}

static void build(struct model *model)
{
    struct rte_acl_config config;
    bool lawful = draw_config(&config), no_config = once_in(20), takes_part = false;
    int wanted = -EINVAL;

    for (uint32_t at = 0; at < model->added.count; at++)
        takes_part |= (model->added.all[at].data.category_mask &
                       ((1u << config.num_categories) - 1)) != 0;
    if (model->ctx != NULL && lawful && takes_part && !no_config)
        wanted = config.max_size > 0 && config.max_size <= 64 ? -ERANGE : 0;
    expect("build", rte_acl_build(model->ctx, no_config ? NULL : &config), wanted);
    if (wanted != 0)
        return;
    model->built = model->added;
    model->built.categories = config.num_categories;
}

static void classify(struct model *model)
{
    static const uint8_t bytes[BUFFER] = {0, 1, 2, 3, 4, 5, 6, 7};
    const uint8_t *data[2] = {bytes, bytes};
    uint32_t verdicts[2 * CATEGORIES], categories = below(CATEGORIES + 5), count = below(3);
    uint32_t alg = below(10);
    bool fits = categories <= CATEGORIES && (categories == 1 || categories % 4 == 0);
    int wanted = !fits || alg > 7 ? -EINVAL : alg == 4 || alg == 5 ? -ENOTSUP : 0;

    if (wanted == 0 && count > 0 && categories > 0 &&
        (model->ctx == NULL || model->built.categories == 0))
        wanted = -EINVAL;
    expect("classify",
           rte_acl_classify_alg(model->ctx, data, verdicts, count, categories,
                                (enum rte_acl_classify_alg)alg),
           wanted);
    for (uint32_t at = 0; wanted == 0 && at < count * categories; at++)
        expect("verdict", (int)verdicts[at], (int)verdict(&model->built, at % categories));
}

static void set_algorithm(struct model *model)
{
    uint32_t alg = below(10);
    int wanted = model->ctx == NULL || alg > 7 ? -EINVAL : alg == 4 || alg == 5 ? -ENOTSUP : 0;

    expect("set", rte_acl_set_ctx_classify(model->ctx, (enum rte_acl_classify_alg)alg), wanted);
    if (wanted == 0)
        model->alg = alg == RTE_ACL_CLASSIFY_DEFAULT ? RTE_ACL_CLASSIFY_SCALAR : (int)alg;
}

/* What a call prints; each prints less than fits. */
static const char *printed(void (*dump)(const struct model *), const struct model *model)
{
    static char text[4096];
    FILE *before = stdout;

    memset(text, 0, sizeof text);
    stdout = fmemopen(text, sizeof text, "w");
    if (stdout == NULL)
        exit(2);
    dump(model);
    fclose(stdout);
    stdout = before;
    return text;
}

static void dump_one(const struct model *model)
{
    rte_acl_dump(model->ctx);
}

static void dump_all(const struct model *unused)
{
    (void)unused;
    rte_acl_list_dump();
}

/* The lines of a dump, of which only the last one's number isn't known, but where it is 0. */
static void dump(const char *name, const struct model *model)
{
    char wanted[512];
    const char *text = printed(dump_one, model);
    int len = snprintf(wanted, sizeof wanted,
                       "acl context <%s>@%p\n  socket_id=%d\n  alg=%d\n  max_rules=%u\n"
                       "  rule_size=%zu\n  num_rules=%u\n  num_categories=%u\n  words=",
                       name, (void *)model->ctx, SOCKET_ID_ANY, model->alg, model->max_rules,
                       RTE_ACL_RULE_SZ(1), model->added.count, model->built.categories);

    if (model->ctx == NULL) {
        expect("dump", text[0], 0);
        return;
    }
    expect("dump", strncmp(text, wanted, (size_t)len), 0);
    expect("dump", atoi(text + len) != 0, model->built.categories != 0);
    expect("dump", strcmp(strchr(text + len, '\n'), "\n"), 0);
}

/* Each context is dumped once. */
static void list_dump(void)
{
    const char *text = printed(dump_all, NULL);

    for (int name = 0; name < NAMES; name++) {
        char head[64];
        const char *found;
        snprintf(head, sizeof head, "acl context <%s>@%p\n", names[name], (void *)models[name].ctx);
        found = strstr(text, head);
        expect("list_dump", found != NULL, models[name].ctx != NULL);
        expect("list_dump", found != NULL && strstr(found + 1, head) != NULL, false);
    }
}

/* Removes the rules, or the table too, or all. */
static void remove_some(struct model *model)
{
    uint32_t what = below(4);

    if (what < 2)
        rte_acl_reset_rules(model->ctx);
    else if (what == 2)
        rte_acl_reset(model->ctx);
    else
        rte_acl_free(model->ctx);
    model->added.count = 0;
    if (what >= 2)
        model->built.categories = 0;
    if (what == 3)
        model->ctx = NULL;
}

static void make_call(void)
{
    uint32_t name = below(NAMES);
    struct model *model = &models[name];

    switch (below(9)) {
    case 0:
        create(names[name], model);
        break;
    case 1:
        find(names[name], model);
        break;
    case 2:
    case 3:
        add(model);
        break;
    case 4:
        build(model);
        break;
    case 5:
        set_algorithm(model);
        break;
    case 6:
        classify(model);
        break;
    case 7:
        dump(names[name], model);
        list_dump();
        break;
    default:
        if (once_in(3))
            remove_some(model);
    }
}

int main(int count, char **words)
{
    uint64_t orders = count > 1 ? strtoull(words[1], NULL, 10) : ORDERS;

    state = count > 2 ? strtoull(words[2], NULL, 10) : 1;
    for (uint64_t order = 0; order < orders; order++) {
        for (int name = 0; name < NAMES; name++)
            if (!once_in(4))
                create(names[name], &models[name]);
        for (int call = 0; call < CALLS; call++)
            make_call();
        for (int name = 0; name < NAMES; name++)
            rte_acl_free(models[name].ctx);
        memset(models, 0, sizeof models);
    }
    printf("orders %llu answers %llu refused %llu, none differs\n", (unsigned long long)orders,
           (unsigned long long)calls, (unsigned long long)refused);
    return 0;
}
