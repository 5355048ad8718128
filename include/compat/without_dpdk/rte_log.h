/* SPDX-License-Identifier: BSD-3-Clause */
/*
 * rte_log.h: messages of a program, where DPDK isn't there. All go to standard error.
 */
#ifndef _RTE_LOG_H_
#define _RTE_LOG_H_

#include <stdio.h>

/* The level isn't looked at. The type stands before the message, as in DPDK. */
#define RTE_LOG(level, type, ...) ((void)fprintf(stderr, #type ": " __VA_ARGS__))

#endif
