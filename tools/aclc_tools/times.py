# SPDX-License-Identifier: BSD-3-Clause
"""Times as texts with their zone: the local one, or that of Greenwich."""
import time

SECOND, MILLISECOND = 1_000_000_000, 1_000_000


def offset_text(seconds):
    """How far a zone is from Greenwich; old zones have seconds."""
    sign, seconds = "-" if seconds < 0 else "+", abs(seconds)
    rest = f":{seconds % 60:02}" if seconds % 60 else ""
    return f"{sign}{seconds // 3600:02}:{seconds // 60 % 60:02}{rest}"


def iso(nanoseconds, is_utc):
    """A time since 1970 as ISO 8601 writes it, with milliseconds and the offset of its zone."""
    seconds, rest = divmod(nanoseconds, SECOND)
    at = time.gmtime(seconds) if is_utc else time.localtime(seconds)
    return time.strftime("%Y-%m-%dT%H:%M:%S", at) + f".{rest // MILLISECOND:03}{offset_text(at.tm_gmtoff)}"


def shown(nanoseconds, is_utc):
    """The same to be read: with a blank between day and hour."""
    return iso(nanoseconds, is_utc).replace("T", " ")
