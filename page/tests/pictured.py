# SPDX-License-Identifier: BSD-3-Clause
"""The picture of the page in README, and what it was made of: its age is told by checksums, which stand beside it."""
import hashlib
from pathlib import Path

TOP = Path(__file__).resolve().parents[2]
PICTURE = TOP / "docs" / "pictures" / "report.png"
SUMS = PICTURE.with_suffix(".sums")
# What is seen in the picture: the page, and the files that it shows.
SHOWN = "page/*.js", "page/*.css", "page/*.html", "page/tests/picture", "page/tests/made.py"


def sum_of_page():
    """A checksum of all that the picture shows."""
    found = hashlib.sha256()
    for file in sorted(file for pattern in SHOWN for file in TOP.glob(pattern)):
        found.update(f"{file.relative_to(TOP)} {hashlib.sha256(file.read_bytes()).hexdigest()}\n".encode())
    return found.hexdigest()


def sums():
    """The lines that stand beside the picture."""
    return f"{sum_of_page()}  page\n{hashlib.sha256(PICTURE.read_bytes()).hexdigest()}  report.png\n"
