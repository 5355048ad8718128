#!/usr/bin/env python3
# SPDX-License-Identifier: BSD-3-Clause
"""Makes one file of the page, which needs nothing else: page_file MODULE NOTE PAGE

PAGE becomes the page with the module of the proved code inside, which packaging/page made. It is opened from a disk.
NOTE is a file of three lines: `aclc` with the version, what proved the code, and the checksum of the module.
aclc report makes a page with a report's data inside in the same way.
"""
import base64
import hashlib
import json
import re
import struct
import sys
import zlib
from pathlib import Path

FOLDER = Path(__file__).resolve().parents[2] / "page"
IMPORT = re.compile(r"^import (\{[^}]*\}) from '\./([a-z_]+)\.js';\n", re.M)
EXPORT = re.compile(r"^export (?=(?:async )?(?:function|class|const) (\w+))", re.M)
POLICY = re.compile(r'content="default-src [^"]*"')
STYLE = '<link rel="stylesheet" href="style.css">\n'
SCRIPT = '<script type="module" src="main.js"></script>\n'


class Broken(Exception):
    """Why the page's files can't be joined: a sentence."""


def read(name):
    """The text of a file of the page."""
    try:
        return (FOLDER / name).read_text(encoding="utf-8")
    except OSError as error:
        raise Broken(f"{FOLDER / name}: {error.strerror}") from None


def joined(start):
    """The modules that one names, each after those that it names itself, as the text of one script."""
    done, waiting = {}, []

    def visit(name):
        """Takes a module."""
        if name in waiting:
            raise Broken(f"{name}.js names itself by way of {waiting[-1]}.js")
        if name in done:
            return
        waiting.append(name)
        text = read(f"{name}.js")
        for _, other in IMPORT.findall(text):
            visit(other)
        done[waiting.pop()] = text

    visit(start)
    return "'use strict';\nconst pageParts = {};\n" + "".join(part_of(*it) for it in done.items())


def part_of(name, text):
    """A module as a function's body, whose exports become the fields of an object."""
    names = EXPORT.findall(text)
    body = EXPORT.sub("", IMPORT.sub(lambda it: f"const {it[1].replace(' as ', ': ')} = pageParts.{it[2]};\n", text))
    if re.search(r"^(import|export)\b", body, re.M) or "import(" in body:
        raise Broken(f"{name}.js: an import or export isn't of the form that is joined")
    return f"pageParts.{name} = (() => {{\n{body}return {{ {', '.join(names)} }};\n}})();\n"


def sum_of(text):
    """A text's checksum, as a content security policy has it."""
    return "'sha256-" + base64.b64encode(hashlib.sha256(text.encode()).digest()).decode() + "'"


def held(identifier, content):
    """An element that holds bytes."""
    return f'<script type="application/octet-stream" id="{identifier}">{base64.b64encode(content).decode()}</script>\n'


def page_of(inside, policy=""):
    """The page as one text, with these elements inside; the policy allows this script and style alone."""
    html, style, script = read("index.html"), read("style.css"), joined("main")
    if "</script" in script or "</style" in style:
        raise Broken("a file of the page ends its element")
    if html.count(STYLE) != 1 or html.count(SCRIPT) != 1 or len(POLICY.findall(html)) != 1:
        raise Broken("index.html doesn't name its style, its script or its policy in the form that is joined")
    allowed = f"default-src 'none'; script-src {sum_of(script)}{policy}; style-src {sum_of(style)}; img-src data:"
    html = POLICY.sub(lambda _: f'content="{allowed}"', html)
    html = html.replace(STYLE, f"<style>{style}</style>\n")
    return html.replace(SCRIPT, f"{inside}<script>{script}</script>\n")


def packed(told, columns):
    """What a report holds, compressed: a text of JSON that names the columns, and their bytes at multiples of 8."""
    places, blob = [], bytearray()
    for name, code, content in columns:
        blob += bytes(-len(blob) % 8)
        places.append([name, code, len(blob), len(content)])
        blob += content
    text = json.dumps({**told, "columns": places}, ensure_ascii=True, separators=(",", ":")).encode()
    text += b" " * (-len(text) % 8)
    return zlib.compress(struct.pack("<Q", len(text)) + text + bytes(blob), 6)


def report_page(told, columns):
    """The page of a report."""
    return page_of(held("report", packed(told, columns)))


def live_page(module, note):
    """The page with the module and its note inside; the module runs in a worker whose text stands inside too."""
    worker = joined("worker")
    parts = ("module", module), ("worker", worker.encode()), ("note", note)
    inside = "".join(held(name, zlib.compress(content, 9)) for name, content in parts)
    return page_of(inside, " 'wasm-unsafe-eval' blob:; worker-src blob:")


def main():
    """Writes the page."""
    if len(sys.argv) != 4 or {"--help", "-h"} & set(sys.argv):
        print(__doc__.strip())
        sys.exit(0 if {"--help", "-h"} & set(sys.argv) else 2)
    try:
        module, note = (Path(name).read_bytes() for name in sys.argv[1:3])
        Path(sys.argv[3]).write_text(live_page(module, note), encoding="utf-8")
    except (OSError, Broken) as error:
        print(f"page_file: {error}", file=sys.stderr)
        sys.exit(1)


if __name__ == "__main__":
    main()
