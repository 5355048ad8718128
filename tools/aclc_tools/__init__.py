# SPDX-License-Identifier: BSD-3-Clause
"""What the tools share: rule files, captures, the program, and lists of other programs."""
