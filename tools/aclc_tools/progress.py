# SPDX-License-Identifier: BSD-3-Clause
"""How far a run has come: a line on standard error if that is a terminal, once it takes more than a second."""
import sys
import time

# How long a run may take before it is told, and how often then, in seconds.
FIRST, NEXT = 1.0, 0.2
# How many packets pass between looks at the clock.
PACKETS = 512
ERASE = "\r\x1b[K"
# Has an element while a line stands there.
ON = []


def watched(items, told, between=1):
    """Hands on what comes, and tells meanwhile what is told of how many came."""
    if not (sys.stderr and sys.stderr.isatty()):
        yield from items
        return
    tells_at = time.monotonic() + FIRST
    try:
        for count, it in enumerate(items):
            if not count % between and time.monotonic() >= tells_at:
                tell(told(count))
                tells_at = time.monotonic() + NEXT
            yield it
    finally:
        erase()


def packets(items, name):
    """The same of the packets of a capture."""
    return watched(items, lambda count: f"{name}: {count} packets so far", PACKETS)


def tell(text):
    """Writes the line anew."""
    print(ERASE + text, end="", file=sys.stderr, flush=True)
    ON[:] = [text]


def erase():
    """Takes the line away, if there is one."""
    if ON:
        print(ERASE, end="", file=sys.stderr, flush=True)
        ON.clear()
