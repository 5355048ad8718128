/* SPDX-License-Identifier: BSD-3-Clause */
/*
 * rte_byteorder.h: numbers of an x86-64 machine to and from network order, where DPDK isn't there.
 */
#ifndef _RTE_BYTEORDER_H_
#define _RTE_BYTEORDER_H_

#define rte_cpu_to_be_16(x) __builtin_bswap16(x)
#define rte_cpu_to_be_32(x) __builtin_bswap32(x)
#define rte_cpu_to_be_64(x) __builtin_bswap64(x)
#define rte_be_to_cpu_16(x) __builtin_bswap16(x)
#define rte_be_to_cpu_32(x) __builtin_bswap32(x)
#define rte_be_to_cpu_64(x) __builtin_bswap64(x)

#endif
