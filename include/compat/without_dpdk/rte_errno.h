/* SPDX-License-Identifier: BSD-3-Clause */
/*
 * rte_errno.h: why a call that answers NULL was refused, where DPDK isn't there.
 */
#ifndef _RTE_ERRNO_H_
#define _RTE_ERRNO_H_

#include <errno.h>

#ifdef __cplusplus
extern "C" {
#endif

/* The number of this thread. It has the name that it has in DPDK, so that rte_acl.o serves both. */
extern __thread int per_lcore__rte_errno;
#define rte_errno per_lcore__rte_errno

/*
 * rte_strerror - the text of a number.
 */
const char *rte_strerror(int errnum);

#ifdef __cplusplus
}
#endif

#endif
