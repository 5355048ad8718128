/* SPDX-License-Identifier: BSD-3-Clause */
/*
 * The calls of rte_acl.h over those of aclc.h.
 *
 * Rules are kept as they are added, and are read when a build says what their fields are. A build
 * makes a table. A call of classify marks a place that no other call has, takes the handle that the
 * table has for that place, gathers the bytes of the fields of some buffers into keys, and has
 * aclc.h classify them. So a build may change the table while calls go on. Places and handles are
 * made when a call first needs them: most contexts are used by a few threads.
 *
 * This file isn't proved. What is decided of rules and keys lies below aclc.h, where all is proved:
 * which layouts and values are lawful, which rule wins, and how large a table is.
 */
#include <rte_acl.h>

#include <aclc.h>
#include <pthread.h>
#include <stdatomic.h>
#include <stdbool.h>
#include <threads.h>
#include <time.h>

enum {
    PLACES = 128,          /* calls of classify that may be under way on one context */
    SHORT_SLEEP = 50000,   /* nanoseconds */
    CACHE_LINE = 64,       /* bytes */
    WORD = 8,              /* bytes of a word of a table */
    GROUP = 4,             /* bytes of a group of fields */
    MOST_GROUPS = 126,     /* 63 fields of 8 bytes */
    KEYS_AT_A_TIME = 8192, /* bytes of the keys that are gathered before they are classified */
};

_Static_assert((int)RTE_ACL_FIELD_TYPE_MASK == (int)ACLC_FIELD_MASK, "kinds are types");
_Static_assert((int)RTE_ACL_FIELD_TYPE_RANGE == (int)ACLC_FIELD_RANGE, "kinds are types");
_Static_assert((int)RTE_ACL_FIELD_TYPE_BITMASK == (int)ACLC_FIELD_BITMASK, "kinds are types");

/*
 * A place for a call that is under way: how often one began or ended there, so that the number is
 * odd while one is. Threads don't share the line that it lies in, nor that of the call's handle.
 */
struct place {
    _Alignas(CACHE_LINE) atomic_ulong changes;
};

struct handle {
    _Alignas(CACHE_LINE) struct aclc_table table;
};

/* What a build makes: where the bytes of a key lie in a buffer, and handles of the table. */
struct built {
    uint32_t num_categories;
    uint64_t words;
    uint32_t first; /* the offset of the first field */
    uint32_t groups;
    uint32_t offsets[MOST_GROUPS];
    struct aclc_table table;        /* of which the others are made; see sharing */
    struct handle *handles[PLACES]; /* NULL before a call at the place needs one */
};

struct rte_acl_ctx {
    struct rte_acl_ctx *next;
    char name[RTE_ACL_NAMESIZE];
    int socket_id;
    atomic_int alg; /* of enum rte_acl_classify_alg */
    uint32_t rule_size;
    uint32_t max_rules;
    _Atomic uint32_t num_rules;
    uint8_t *rules;                  /* num_rules times rule_size bytes */
    _Atomic(struct place *) *places; /* PLACES of them, of which the first is there */
    _Atomic(struct built *) built;   /* NULL where there is no table */
};

#include "rte_acl_build.h"

/* All contexts, in the order in which they were made, and the lock of the links between them. */
static struct rte_acl_ctx *contexts;
static pthread_mutex_t lock = PTHREAD_MUTEX_INITIALIZER;

/*
 * Sleeps for a moment. A thread that waits for another may have a real-time priority, and the other
 * a lower one on the same processor: it would never run if the first yielded and went on.
 */
static void sleep_shortly(void)
{
    thrd_sleep(&(struct timespec){.tv_nsec = SHORT_SLEEP}, NULL);
}

/* Nothing changes the links, and no handle is being made, while the process is copied. */
static void before_fork(void)
{
    pthread_mutex_lock(&lock);
    pthread_mutex_lock(&sharing);
}

static void after_fork(void)
{
    pthread_mutex_unlock(&sharing);
    pthread_mutex_unlock(&lock);
}

/*
 * In a forked child. The threads whose calls were under way aren't there, and so no call will end:
 * their places are free. What they did with their handles isn't known, so those are left, and made
 * anew when they are needed.
 */
static void after_fork_in_child(void)
{
    for (struct rte_acl_ctx *ctx = contexts; ctx != NULL; ctx = ctx->next)
        for (int at = 0; at < PLACES; at++) {
            struct place *place = ctx->places[at];
            if (place == NULL || place->changes % 2 == 0)
                continue;
            if (ctx->built != NULL)
                ctx->built->handles[at] = NULL;
            place->changes++;
        }
    after_fork();
}

/* Whether forks are seen to: 0 if so. */
static int forks;

static void see_to_forks(void)
{
    forks = pthread_atfork(before_fork, after_fork, after_fork_in_child);
}

/* The link that leads to the context of a name, or the last link. The lock is held. */
static struct rte_acl_ctx **link_of_name(const char *name)
{
    struct rte_acl_ctx **link = &contexts;

    while (*link != NULL && strncmp(name, (*link)->name, RTE_ACL_NAMESIZE) != 0)
        link = &(*link)->next;
    return link;
}

/* The place of a number, which is made if it isn't there, or NULL if there is no memory for it. */
static struct place *place_of(const struct rte_acl_ctx *ctx, unsigned number)
{
    struct place *place = atomic_load(&ctx->places[number]), *other = NULL;

    if (place != NULL)
        return place;
    place = aligned_alloc(CACHE_LINE, sizeof *place);
    if (place == NULL)
        return NULL;
    atomic_init(&place->changes, 0);
    if (atomic_compare_exchange_strong(&ctx->places[number], &other, place))
        return place;
    free(place);
    return other;
}

/* Frees a context and what it leads to. No call is under way on it. */
static void free_context(struct rte_acl_ctx *ctx)
{
    free_built(ctx->built);
    for (int at = 0; ctx->places != NULL && at < PLACES; at++)
        free(ctx->places[at]);
    free(ctx->places);
    free(ctx->rules);
    free(ctx);
}

/* A context without rules, or NULL where there is no memory or no such socket. */
static struct rte_acl_ctx *new_context(const struct rte_acl_param *param)
{
    size_t size = (size_t)param->max_rule_num * param->rule_size;
    struct rte_acl_ctx *ctx;

    if (size > PTRDIFF_MAX || param->socket_id >= RTE_MAX_NUMA_NODES || forks != 0)
        return NULL;
    ctx = calloc(1, sizeof *ctx);
    if (ctx == NULL)
        return NULL;
    ctx->rules = malloc(size > 0 ? size : 1);
    ctx->places = calloc(PLACES, sizeof *ctx->places);
    if (ctx->rules == NULL || ctx->places == NULL || place_of(ctx, 0) == NULL) {
        free_context(ctx);
        return NULL;
    }
    snprintf(ctx->name, sizeof ctx->name, "%s", param->name);
    ctx->socket_id = param->socket_id;
    ctx->alg = RTE_ACL_CLASSIFY_SCALAR;
    ctx->rule_size = param->rule_size;
    ctx->max_rules = param->max_rule_num;
    return ctx;
}

struct rte_acl_ctx *rte_acl_create(const struct rte_acl_param *param)
{
    static pthread_once_t once = PTHREAD_ONCE_INIT;
    struct rte_acl_ctx **link, *ctx;

    if (param == NULL || param->name == NULL) {
        rte_errno = EINVAL;
        return NULL;
    }
    pthread_once(&once, see_to_forks);
    pthread_mutex_lock(&lock);
    link = link_of_name(param->name);
    if (*link == NULL)
        *link = new_context(param);
    ctx = *link;
    pthread_mutex_unlock(&lock);
    if (ctx == NULL)
        rte_errno = ENOMEM;
    return ctx;
}

struct rte_acl_ctx *rte_acl_find_existing(const char *name)
{
    struct rte_acl_ctx *ctx;

    pthread_mutex_lock(&lock);
    ctx = name != NULL ? *link_of_name(name) : NULL;
    pthread_mutex_unlock(&lock);
    if (ctx == NULL)
        rte_errno = ENOENT;
    return ctx;
}

void rte_acl_free(struct rte_acl_ctx *ctx)
{
    struct rte_acl_ctx **link = &contexts;

    pthread_mutex_lock(&lock);
    while (*link != NULL && *link != ctx)
        link = &(*link)->next;
    if (*link == NULL)
        ctx = NULL;
    else
        *link = ctx->next;
    pthread_mutex_unlock(&lock);
    if (ctx != NULL)
        free_context(ctx);
}

int rte_acl_add_rules(struct rte_acl_ctx *ctx, const struct rte_acl_rule *rules, uint32_t num)
{
    const uint8_t *bytes = (const uint8_t *)rules;
    const uint32_t all = (1u << RTE_ACL_MAX_CATEGORIES) - 1;

    if (ctx == NULL || rules == NULL || ctx->rule_size < sizeof(struct rte_acl_rule_data))
        return -EINVAL;
    for (uint32_t place = 0; place < num; place++) {
        struct rte_acl_rule_data data = data_of(bytes, ctx->rule_size, place);
        if ((data.category_mask & all) == 0 || data.priority < RTE_ACL_MIN_PRIORITY ||
            data.priority > RTE_ACL_MAX_PRIORITY)
            return -EINVAL;
    }
    if (num > ctx->max_rules - ctx->num_rules)
        return -ENOMEM;
    memcpy(ctx->rules + (size_t)ctx->num_rules * ctx->rule_size, bytes,
           (size_t)num * ctx->rule_size);
    ctx->num_rules += num;
    return 0;
}

/*
 * Puts a table, or none, in the place of the one before, and frees that one once no call has it.
 *
 * A call marks its place before it reads which table there is. So one that read the old table has
 * marked its place before the exchange, and until it ends the number is odd and stays. All of these
 * are sequentially consistent.
 */
static void swap_built(struct rte_acl_ctx *ctx, struct built *built)
{
    struct built *old = atomic_exchange(&ctx->built, built);

    if (old == NULL)
        return;
    for (int at = 0; at < PLACES; at++) {
        struct place *place = atomic_load(&ctx->places[at]);
        unsigned long changes = place != NULL ? atomic_load(&place->changes) : 0;
        while (changes % 2 != 0 && atomic_load(&place->changes) == changes)
            sleep_shortly();
    }
    free_built(old);
}

void rte_acl_reset_rules(struct rte_acl_ctx *ctx)
{
    if (ctx != NULL)
        ctx->num_rules = 0;
}

void rte_acl_reset(struct rte_acl_ctx *ctx)
{
    if (ctx == NULL)
        return;
    ctx->num_rules = 0;
    swap_built(ctx, NULL);
}

int rte_acl_build(struct rte_acl_ctx *ctx, const struct rte_acl_config *cfg)
{
    struct aclc_context context = {0};
    struct built *built;
    int answer;

    if (ctx == NULL || cfg == NULL || !is_in_range(ctx, cfg))
        return -EINVAL;
    built = calloc(1, sizeof *built);
    if (built == NULL)
        return -ENOMEM;
    built->num_categories = cfg->num_categories;
    answer = fill_context(ctx, cfg, built, &context);
    if (answer == 0)
        answer = build_table(&context, cfg->max_size, &built->words);
    if (answer == 0)
        answer = number_of(aclc_table_copy(&context, &built->table));
    aclc_free(&context);
    for (unsigned at = 0; at < PLACES && answer == 0; at++)
        if (atomic_load(&ctx->places[at]) != NULL && handle_of(built, at) == NULL)
            answer = -ENOMEM;
    if (answer != 0) {
        free_built(built);
        return answer;
    }
    swap_built(ctx, built);
    return 0;
}

/* The number of the place at which this thread begins to look for a free one. */
static unsigned number_of_thread(void)
{
    static atomic_uint threads;
    static _Thread_local unsigned number; /* from 1 */

    if (number == 0)
        number = 1 + atomic_fetch_add(&threads, 1) % PLACES;
    return number - 1;
}

/* Marks a place for a call, and tells its number. With more calls than places it waits for one. */
static struct place *mark_place(const struct rte_acl_ctx *ctx, unsigned *number)
{
    for (unsigned at = number_of_thread();; sleep_shortly())
        for (unsigned tried = 0; tried < PLACES; tried++, at = (at + 1) % PLACES) {
            struct place *place = place_of(ctx, at);
            unsigned long seen = place != NULL ? atomic_load(&place->changes) : 1;
            if (seen % 2 != 0 ||
                !atomic_compare_exchange_strong(&place->changes, &seen, seen + 1))
                continue;
            *number = at;
            return place;
        }
}

/* Gathers the key of a buffer. */
static void gather(const struct built *built, const uint8_t *buffer, uint8_t *key)
{
    *key++ = buffer[built->first];
    for (uint32_t group = 0; group < built->groups; group++, key += GROUP)
        memcpy(key, buffer + built->offsets[group], GROUP);
}

/* Classifies buffers by a table, some at a time, through a handle that no other call has. */
static aclc_code classify_by(const struct built *built, struct aclc_table *table,
                             const uint8_t **data, uint32_t *results, size_t num,
                             uint32_t categories)
{
    uint8_t keys[KEYS_AT_A_TIME];
    const size_t key_len = 1 + (size_t)GROUP * built->groups;
    const size_t most = KEYS_AT_A_TIME / key_len;
    aclc_code code = ACLC_OK;
    uint64_t transitions;

    for (size_t from = 0, some; from < num && code == ACLC_OK; from += some) {
        some = num - from < most ? num - from : most;
        for (size_t at = 0; at < some; at++)
            gather(built, data[from + at], keys + at * key_len);
        code = aclc_table_classify(table, keys, some * key_len, categories, ACLC_WALK_SCALAR,
                                   results + from * categories, some * categories, &transitions);
    }
    return code;
}

/* Classifies by the handle of a place, or if there is no memory for it by the one of the build. */
static aclc_code classify_at(struct built *built, unsigned number, const uint8_t **data,
                             uint32_t *results, size_t num, uint32_t categories)
{
    struct handle *handle = handle_of(built, number);
    aclc_code code;

    if (handle != NULL)
        return classify_by(built, &handle->table, data, results, num, categories);
    pthread_mutex_lock(&sharing);
    code = classify_by(built, &built->table, data, results, num, categories);
    pthread_mutex_unlock(&sharing);
    return code;
}

/* Classifies buffers by the table that there is when the call has marked its place. */
static int classify(const struct rte_acl_ctx *ctx, const uint8_t **data, uint32_t *results,
                    size_t num, uint32_t categories)
{
    unsigned number;
    struct place *place = mark_place(ctx, &number);
    struct built *built = atomic_load(&ctx->built);
    int answer = -EINVAL;

    if (built != NULL)
        answer = number_of(classify_at(built, number, data, results, num, categories));
    atomic_fetch_add(&place->changes, 1);
    return answer;
}

/* Refuses the number of no algorithm, and an algorithm that isn't of x86. */
static int check_algorithm(enum rte_acl_classify_alg alg)
{
    if ((unsigned)alg > RTE_ACL_CLASSIFY_AVX512X32)
        return -EINVAL;
    return alg == RTE_ACL_CLASSIFY_NEON || alg == RTE_ACL_CLASSIFY_ALTIVEC ? -ENOTSUP : 0;
}

int rte_acl_classify_alg(const struct rte_acl_ctx *ctx, const uint8_t **data, uint32_t *results,
                         uint32_t num, uint32_t categories, enum rte_acl_classify_alg alg)
{
    int answer;

    if (categories > RTE_ACL_MAX_CATEGORIES ||
        (categories != 1 && categories % RTE_ACL_RESULTS_MULTIPLIER != 0))
        return -EINVAL;
    answer = check_algorithm(alg);
    if (answer != 0 || num == 0 || categories == 0)
        return answer;
    if (ctx == NULL || data == NULL || results == NULL)
        return -EINVAL;
    return classify(ctx, data, results, num, categories);
}

int rte_acl_classify(const struct rte_acl_ctx *ctx, const uint8_t **data, uint32_t *results,
                     uint32_t num, uint32_t categories)
{
    return rte_acl_classify_alg(ctx, data, results, num, categories, RTE_ACL_CLASSIFY_DEFAULT);
}

int rte_acl_set_ctx_classify(struct rte_acl_ctx *ctx, enum rte_acl_classify_alg alg)
{
    int answer = ctx != NULL ? check_algorithm(alg) : -EINVAL;

    if (answer == 0)
        ctx->alg = alg == RTE_ACL_CLASSIFY_DEFAULT ? RTE_ACL_CLASSIFY_SCALAR : alg;
    return answer;
}

/* The sizes of the table that there is, or 0. As a call of classify it marks a place meanwhile. */
static void sizes_of(const struct rte_acl_ctx *ctx, uint32_t *num_categories, uint64_t *words)
{
    unsigned number;
    struct place *place = mark_place(ctx, &number);
    const struct built *built = atomic_load(&ctx->built);

    *num_categories = built != NULL ? built->num_categories : 0;
    *words = built != NULL ? built->words : 0;
    atomic_fetch_add(&place->changes, 1);
}

void rte_acl_dump(const struct rte_acl_ctx *ctx)
{
    uint32_t num_categories;
    uint64_t words;

    if (ctx == NULL)
        return;
    sizes_of(ctx, &num_categories, &words);
    printf("acl context <%s>@%p\n", ctx->name, (const void *)ctx);
    printf("  socket_id=%d\n  alg=%d\n", ctx->socket_id, ctx->alg);
    printf("  max_rules=%" PRIu32 "\n  rule_size=%" PRIu32 "\n", ctx->max_rules, ctx->rule_size);
    printf("  num_rules=%" PRIu32 "\n", ctx->num_rules);
    printf("  num_categories=%" PRIu32 "\n  words=%" PRIu64 "\n", num_categories, words);
}

void rte_acl_list_dump(void)
{
    pthread_mutex_lock(&lock);
    for (const struct rte_acl_ctx *ctx = contexts; ctx != NULL; ctx = ctx->next)
        rte_acl_dump(ctx);
    pthread_mutex_unlock(&lock);
}
