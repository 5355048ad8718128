/* SPDX-License-Identifier: BSD-3-Clause */
/*
 * The few things of DPDK that a program over rte_acl.h uses, for one that isn't linked with DPDK.
 */
#include <string.h>

#include <rte_eal.h>
#include <rte_errno.h>

__thread int per_lcore__rte_errno;

const char *rte_strerror(int errnum)
{
    return strerror(errnum);
}

int rte_eal_init(int argc, char **argv)
{
    int own = 1;

    if (argc <= 0)
        return 0;
    while (own < argc && strcmp(argv[own], "--") != 0)
        own++;
    own = own < argc ? own : argc - 1;
    argv[own] = argv[0];
    return own;
}

int rte_eal_cleanup(void)
{
    return 0;
}
