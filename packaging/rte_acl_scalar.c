/* SPDX-License-Identifier: BSD-3-Clause */
/*
 * rte_acl_scalar.c: the one call that DPDK's library exports beside those of rte_acl.h.
 */
#include <rte_acl.h>

int rte_acl_classify_scalar(const struct rte_acl_ctx *ctx, const uint8_t **data, uint32_t *results,
                            uint32_t num, uint32_t categories);

int rte_acl_classify_scalar(const struct rte_acl_ctx *ctx, const uint8_t **data, uint32_t *results,
                            uint32_t num, uint32_t categories)
{
    return rte_acl_classify_alg(ctx, data, results, num, categories, RTE_ACL_CLASSIFY_SCALAR);
}
