/* SPDX-License-Identifier: BSD-3-Clause */
/*
 * rte_memory.h: the names of sockets that a context's parameters need, where DPDK isn't there.
 */
#ifndef _RTE_MEMORY_H_
#define _RTE_MEMORY_H_

#define SOCKET_ID_ANY -1
#define RTE_MAX_NUMA_NODES 32

#endif
