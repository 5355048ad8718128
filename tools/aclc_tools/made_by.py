# SPDX-License-Identifier: BSD-3-Clause
"""Which program answers: its version, its checksum, and the note of what proved it."""
import hashlib
import re
import time
import zlib
from pathlib import Path

from aclc_tools.program import BUILT, TOP, program

# Where an installation below some folder has the note and the program's page, from the folder of the program on.
NOTES_AT = "../../share/doc/aclc/proof", "../share/doc/aclc/proof"
PAGES_AT = "../../share/man/man1/aclc.1", "../../share/man/man1/aclc.1.gz", "../share/man/man1/aclc.1", "../share/man/man1/aclc.1.gz"


def sum_of(path):
    """The checksum of a file."""
    found = hashlib.sha256()
    with open(path, "rb") as file:
        for part in iter(lambda: file.read(1 << 20), b""):
            found.update(part)
    return found.hexdigest()


def is_script(path):
    """Whether a file is a script, as `aclc` of a checkout is."""
    with open(path, "rb") as file:
        return file.read(2) == b"#!"


def version_near(path):
    """The version that stands beside a program, or None."""
    if (TOP / "VERSION").is_file() and path in (BUILT.resolve(), (TOP / "aclc").resolve()):
        return (TOP / "VERSION").read_text().split()[0]
    for name in PAGES_AT:
        page = path.parent / name
        if page.is_file():
            content = page.read_bytes()
            content = zlib.decompress(content, 31) if page.suffix == ".gz" else content
            found = re.match(rb'\.TH ACLC 1 "[^"]*" "aclc ([^"]*)"', content)
            return found.group(1).decode(errors="replace") if found else None
    return None


def proof_near(path, checksum):
    """The note of what proved a program of this checksum, and why there is none."""
    built = path.parent / "built_from"
    if path == BUILT.resolve() and built.is_file():
        lines = built.read_text(errors="replace").split("\n") + [""] * 3
        if lines[1].split()[:1] == [checksum]:
            return lines[2], None
        return None, "the note beside it is of another program"
    for name in NOTES_AT:
        if (path.parent / name).is_file():
            lines = (path.parent / name).read_text(errors="replace").split("\n")
            if checksum in {line.split(" ")[0] for line in lines[1:]}:
                return lines[0], None
            return None, "the note beside it is of another program"
    return None, "no note of a proof stands beside it"


def told():
    """What a report says of the program that answers."""
    path = Path(program()).resolve()
    when = time.strftime("%Y-%m-%d %H:%M:%S", time.gmtime())
    if not path.is_file():
        return {"when": when, "program": str(path), "version": None, "checksum": None, "proof": None,
                "unproved": "there is no program"}
    checksum = sum_of(path)
    if is_script(path) and BUILT.is_file():
        path = BUILT.resolve()
        checksum = sum_of(path)
    proof, lack = (None, "it is a script") if is_script(path) else proof_near(path, checksum)
    return {"when": when, "program": str(path), "version": version_near(path), "checksum": checksum, "proof": proof,
            "unproved": lack}
