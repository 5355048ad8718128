# SPDX-License-Identifier: BSD-3-Clause
"""Captures that are compressed: a file is told by its first bytes, and unpacked by the system's tool for its form."""
import shutil
import subprocess
import tempfile

from aclc_tools import progress

# What a file of each form begins with, and the tool for it, which is in the package of its name.
MAGICS = {b"\x1f\x8b": "gzip", b"\x28\xb5\x2f\xfd": "zstd", b"\x04\x22\x4d\x18": "lz4", b"\x02\x21\x4c\x18": "lz4"}
# Files of zstd and of lz4 may begin with frames to skip, whose length stands after these four bytes.
SKIPPED = [bytes([low]) + b"\x2a\x4d\x18" for low in range(0x50, 0x60)]
# How many bytes of a file are looked at.
LOOKED_AT = 4096
PIECE = 1 << 20


class Failed(Exception):
    """Why a capture wasn't unpacked."""


def tool_for(head):
    """The tool that unpacks a file which begins with these bytes, or None if it isn't compressed."""
    at = 0
    while head[at:at + 4] in SKIPPED and at + 8 <= len(head):
        at += 8 + int.from_bytes(head[at + 4:at + 8], "little")
    return next((tool for magic, tool in MAGICS.items() if head[at:].startswith(magic)), None)


def unpack(tool, head, rest, target):
    """Writes to a file what a tool makes of some bytes and of the rest of a file; Failed unless it ends with code 0."""
    if not shutil.which(tool):
        raise Failed(f"it is compressed by {tool}, which isn't installed (Debian: apt-get install {tool})")
    with tempfile.TemporaryFile() as said:
        process = subprocess.Popen([tool, "-dc"], stdin=subprocess.PIPE, stdout=target, stderr=said)
        try:
            with process.stdin as pipe:
                pipe.write(head)
                pieces = iter(lambda: rest.read(PIECE), b"")
                for piece in progress.watched(pieces, lambda count: f"{tool}: {count} MiB unpacked so far"):
                    pipe.write(piece)
        except BrokenPipeError:
            pass  # It ended before the file did, and its code says why.
        except BaseException:
            process.kill()
            process.wait()
            raise
        code = process.wait()
        said.seek(0)
        words = said.read().decode(errors="replace").strip()
    if code:
        raise Failed(f"{tool} can't unpack it: {words or f'it ended with code {code}'}")


def copy(source, target):
    """Writes a capture to a file, unpacked if it is compressed."""
    head = source.read(LOOKED_AT)
    tool = tool_for(head)
    if tool:
        unpack(tool, head, source, target)
        return
    target.write(head)
    shutil.copyfileobj(source, target, PIECE)
