/* SPDX-License-Identifier: BSD-3-Clause */
/*
 * rte_eal.h: the begin and the end of a program, where DPDK isn't there.
 */
#ifndef _RTE_EAL_H_
#define _RTE_EAL_H_

#ifdef __cplusplus
extern "C" {
#endif

/*
 * rte_eal_init - how many words before the program's own belong to DPDK: those up to "--", or all.
 *
 * The word at that place becomes the program's name, so that argv + n is a list of words again. It
 * does nothing else, and refuses nothing.
 */
int rte_eal_init(int argc, char **argv);

/*
 * rte_eal_cleanup - answers 0.
 */
int rte_eal_cleanup(void);

#ifdef __cplusplus
}
#endif

#endif
