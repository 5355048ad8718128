/* SPDX-License-Identifier: BSD-3-Clause */
/*
 * rte_common.h: a few macros that programs over rte_acl.h use, where DPDK isn't there.
 */
#ifndef _RTE_COMMON_H_
#define _RTE_COMMON_H_

#include <stddef.h>
#include <stdint.h>

#define RTE_DIM(a) (sizeof(a) / sizeof((a)[0]))

/* The lesser and the greater of two numbers, each of which is worked out once. */
#define RTE_MIN(a, b) \
    __extension__({ \
        __typeof__(a) rte_a = (a); \
        __typeof__(b) rte_b = (b); \
        rte_a < rte_b ? rte_a : rte_b; \
    })
#define RTE_MAX(a, b) \
    __extension__({ \
        __typeof__(a) rte_a = (a); \
        __typeof__(b) rte_b = (b); \
        rte_a > rte_b ? rte_a : rte_b; \
    })

/* A number of the type whose low ln bits are set, of which there are 1 to 64. */
#define RTE_LEN2MASK(ln, type) ((type)(UINT64_MAX >> (64 - (ln))))

/* No program is compiled where the condition, which is a constant, holds. */
#define RTE_BUILD_BUG_ON(condition) ((void)sizeof(char[(condition) ? -1 : 1]))

#define RTE_SET_USED(x) (void)(x)
#define __rte_unused __attribute__((__unused__))

#endif
