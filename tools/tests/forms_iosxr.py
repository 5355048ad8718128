# SPDX-License-Identifier: BSD-3-Clause
"""A drawer of lists of Cisco's IOS XR, and a walker over their text: those of NX-OS with other words."""
from functools import partial

import forms_nxos
from routers import decider

FORM, GIVEN, FAMILIES = "iosxr", {"list": "A"}, (4,)


def draw(draw):
    """A configuration with groups, the lists A and B, and what stands around them."""
    return forms_nxos.draw(draw, FORM)


# The line of list A that decides a packet, or 0.
decide = decider(partial(forms_nxos.Text, FORM))
