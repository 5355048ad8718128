/* SPDX-License-Identifier: BSD-3-Clause */
/*
 * rte_acl.h: the calls of DPDK's librte_acl 22.11 over the classifier of aclc.h.
 *
 * A program that was written for librte_acl is compiled with this header in place of DPDK's, and
 * linked with compat/rte_acl.c and the library of aclc.h. Its source stays. The names, the types
 * and the numbers are those of DPDK, and the layout of each struct too. docs/RTE_ACL.md has a line
 * for each call: what is the same, what is defined here, and what isn't there.
 *
 * Where DPDK's own headers are on the include path, rte_acl_osdep.h is theirs. A program without
 * DPDK takes the folder without_dpdk beside this file, which has the little that is needed.
 *
 * One thread at a time changes a context. Any number may classify by it and dump it, also while its
 * rules are changed and its table is built anew or reset, but not while it is freed. The list of
 * contexts has a lock, also while it is dumped.
 */
#ifndef _RTE_ACL_H_
#define _RTE_ACL_H_

#include <rte_acl_osdep.h>

#ifdef __cplusplus
extern "C" {
#endif

#define RTE_ACL_MAX_CATEGORIES 16
/* Results come in 1 category or in a multiple of these. */
#define RTE_ACL_RESULTS_MULTIPLIER (16 / sizeof(uint32_t))
#define RTE_ACL_MAX_LEVELS 64
#define RTE_ACL_MAX_FIELDS 64
/* Bytes of a name with the 0 at its end. A longer name is cut, and isn't found by its full form. */
#define RTE_ACL_NAMESIZE 32

enum {
    RTE_ACL_TYPE_SHIFT = 29,
    RTE_ACL_MAX_INDEX = (1 << RTE_ACL_TYPE_SHIFT) - 1,
    RTE_ACL_MAX_PRIORITY = RTE_ACL_MAX_INDEX,
    RTE_ACL_MIN_PRIORITY = 1
};

/* The type of a field, and with it what mask_range is. */
enum {
    RTE_ACL_FIELD_TYPE_MASK = 0, /* how many leading bits of the value count */
    RTE_ACL_FIELD_TYPE_RANGE,    /* the highest number; the value is the lowest */
    RTE_ACL_FIELD_TYPE_BITMASK   /* the bits of the value that count */
};

/* The algorithms of classify. All that x86 has are served by one walk, and have its answers. */
enum rte_acl_classify_alg {
    RTE_ACL_CLASSIFY_DEFAULT = 0,
    RTE_ACL_CLASSIFY_SCALAR = 1,
    RTE_ACL_CLASSIFY_SSE = 2,
    RTE_ACL_CLASSIFY_AVX2 = 3,
    RTE_ACL_CLASSIFY_NEON = 4,    /* -ENOTSUP */
    RTE_ACL_CLASSIFY_ALTIVEC = 5, /* -ENOTSUP */
    RTE_ACL_CLASSIFY_AVX512X16 = 6,
    RTE_ACL_CLASSIFY_AVX512X32 = 7
};

/* A number of a field, in the machine's order. The member of the field's size is read. */
union rte_acl_field_types {
    uint8_t u8;
    uint16_t u16;
    uint32_t u32;
    uint64_t u64;
};

/* Where a field lies in a rule and in a searched buffer. */
struct rte_acl_field_def {
    uint8_t type;        /* RTE_ACL_FIELD_TYPE_ .. */
    uint8_t size;        /* bytes: 1, 2, 4 or 8; the first field has 1 */
    uint8_t field_index; /* its place in the rule */
    uint8_t input_index; /* equal for the fields of one group of four bytes, which lie together */
    uint32_t offset;     /* the place of its first byte in a searched buffer */
};

/* What a build is made for. */
struct rte_acl_config {
    uint32_t num_categories; /* 1 to RTE_ACL_MAX_CATEGORIES */
    uint32_t num_fields;     /* 1 to RTE_ACL_MAX_FIELDS */
    struct rte_acl_field_def defs[RTE_ACL_MAX_FIELDS];
    size_t max_size; /* bytes that the table may have; 0 sets no limit */
};

/* What a rule says of a field. */
struct rte_acl_field {
    union rte_acl_field_types value;
    union rte_acl_field_types mask_range; /* of a mask the member u32 is read */
};

/* What a rule is for, apart from the packets that it matches. */
struct rte_acl_rule_data {
    uint32_t category_mask; /* bit c of the low 16: it takes part in category c */
    int32_t priority;       /* RTE_ACL_MIN_PRIORITY to RTE_ACL_MAX_PRIORITY; the greatest wins */
    uint32_t userdata;      /* the result where it wins; 0 is the result where none wins, too */
};

/* Defines the struct of a rule of so many fields, for a program's own layout. */
#define RTE_ACL_RULE_DEF(name, fld_num) \
    struct name { \
        struct rte_acl_rule_data data; \
        struct rte_acl_field field[fld_num]; \
    }

/* C++ doesn't name arrays of any length. Its compilers have them, and clang warns of them. */
#ifdef __clang__
#pragma clang diagnostic push
#pragma clang diagnostic ignored "-Wc99-extensions"
#endif

/* A rule of any number of fields: a pointer to one is a pointer to each struct so defined. */
struct rte_acl_rule {
    struct rte_acl_rule_data data;
    __extension__ struct rte_acl_field field[];
};

#ifdef __clang__
#pragma clang diagnostic pop
#endif

/* Bytes of a rule of so many fields. */
#define RTE_ACL_RULE_SZ(fld_num) \
    (sizeof(struct rte_acl_rule) + sizeof(struct rte_acl_field) * (fld_num))

/* The bits of a mask of v leading bits, of a field of s bytes. It has the type of v. */
#define RTE_ACL_MASKLEN_TO_BITMASK(v, s) \
    ((v) == 0 ? (v) : (__typeof__(v))(UINT64_MAX << ((s) * 8 - (v))))

/* What a context is made of. */
struct rte_acl_param {
    const char *name;      /* other than NULL */
    int socket_id;         /* is kept for the dump, and chooses no memory */
    uint32_t rule_size;    /* bytes from each rule to the next: RTE_ACL_RULE_SZ of the fields */
    uint32_t max_rule_num; /* rules that it may hold */
};

struct rte_acl_ctx;

/*
 * rte_acl_create - makes a context, or finds the one of that name, whatever its other parameters.
 *
 * NULL with rte_errno EINVAL: param or its name is NULL; ENOMEM: there is no memory, or socket_id
 * is RTE_MAX_NUMA_NODES or more. It takes memory for max_rule_num rules, which the system backs as
 * rules are added.
 */
struct rte_acl_ctx *rte_acl_create(const struct rte_acl_param *param);

/*
 * rte_acl_find_existing - the context of that name.
 *
 * NULL with rte_errno ENOENT: there is none, or name is NULL.
 */
struct rte_acl_ctx *rte_acl_find_existing(const char *name);

/*
 * rte_acl_free - frees a context. With NULL, or a pointer to no context, it does nothing.
 */
void rte_acl_free(struct rte_acl_ctx *ctx);

/*
 * rte_acl_add_rules - adds num rules of rule_size bytes each, all or none. The table stays.
 *
 * -EINVAL: ctx or rules is NULL, rule_size is too small for any rule, or a rule has a priority out
 * of range or none of the low 16 bits of its category mask. -ENOMEM: the context would hold more
 * rules than it may. It takes no memory.
 */
int rte_acl_add_rules(struct rte_acl_ctx *ctx, const struct rte_acl_rule *rules, uint32_t num);

/*
 * rte_acl_reset_rules - removes all rules. The table stays, and with it the results.
 */
void rte_acl_reset_rules(struct rte_acl_ctx *ctx);

/*
 * rte_acl_build - makes a table of the rules, in place of the one before.
 *
 * Categories from num_categories on have result 0 for every packet. Where it is refused, the table
 * of the build before stays.
 *
 * -EINVAL: ctx or cfg is NULL, a number of it is out of range, the fields make no layout or don't
 * lie in rule_size, no rule takes part in the categories, or a rule has an empty range or a mask of
 * more bits than its field. -ERANGE: the table is larger than max_size. -ENOMEM: there is no
 * memory, or the table is larger than 512 MiB, or it is of more than 262,144 rules.
 */
int rte_acl_build(struct rte_acl_ctx *ctx, const struct rte_acl_config *cfg);

/*
 * rte_acl_reset - removes all rules and the table.
 */
void rte_acl_reset(struct rte_acl_ctx *ctx);

/*
 * rte_acl_classify - writes for each of num buffers its results: in category 0, in 1, and so on.
 *
 * The numbers of a buffer are in network order. A result is the userdata of the matching rule of
 * greatest priority, of several such rules the one that was added first, or 0 where none matches.
 * With no categories or no buffers it writes nothing.
 *
 * -EINVAL: categories is neither 1 nor a multiple of RTE_ACL_RESULTS_MULTIPLIER, or above
 * RTE_ACL_MAX_CATEGORIES; or there are buffers, and ctx, data or results is NULL or ctx has no
 * table. It takes no memory.
 */
int rte_acl_classify(const struct rte_acl_ctx *ctx, const uint8_t **data, uint32_t *results,
                     uint32_t num, uint32_t categories);

/*
 * rte_acl_classify_alg - as rte_acl_classify, by an algorithm.
 *
 * -EINVAL, also for a number of no algorithm; then -ENOTSUP: for one that x86 doesn't have.
 */
int rte_acl_classify_alg(const struct rte_acl_ctx *ctx, const uint8_t **data, uint32_t *results,
                         uint32_t num, uint32_t categories, enum rte_acl_classify_alg alg);

/*
 * rte_acl_set_ctx_classify - chooses the algorithm of rte_acl_classify for a context.
 *
 * -EINVAL: ctx is NULL, or the number is of no algorithm. -ENOTSUP: x86 doesn't have it.
 */
int rte_acl_set_ctx_classify(struct rte_acl_ctx *ctx, enum rte_acl_classify_alg alg);

/*
 * rte_acl_dump - prints a context on standard output. With NULL it prints nothing.
 */
void rte_acl_dump(const struct rte_acl_ctx *ctx);

/*
 * rte_acl_list_dump - prints all contexts, in the order in which they were made.
 */
void rte_acl_list_dump(void);

#ifdef __cplusplus
}
#endif

#endif
