/* SPDX-License-Identifier: BSD-3-Clause */
/*
 * rte_acl_osdep.h: what programs find included by rte_acl.h, where DPDK isn't there.
 */
#ifndef _RTE_ACL_OSDEP_H_
#define _RTE_ACL_OSDEP_H_

#include <ctype.h>
#include <errno.h>
#include <inttypes.h>
#include <limits.h>
#include <stdarg.h>
#include <stddef.h>
#include <stdint.h>
#include <stdio.h>
#include <stdlib.h>
#include <string.h>

#include <rte_byteorder.h>
#include <rte_common.h>
#include <rte_eal.h>
#include <rte_errno.h>
#include <rte_log.h>
#include <rte_memory.h>

#endif
