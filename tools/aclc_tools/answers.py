# SPDX-License-Identifier: BSD-3-Clause
"""What the program answers: which rules of a list decide the packets of a capture, and what it says of lists alone.

The program gets a copy of the list whose userdata is the number of the rule, so that rules of equal userdata are told
apart.
"""
import mmap
import os
import subprocess
import tempfile
from pathlib import Path

from aclc_tools import any_list, capture, keys, packed
from aclc_tools.program import leave, note, program

MOST_CATEGORIES = 16
# The greatest table that the program makes.
MOST_WORDS = 67108864
# The exit codes of a capture that is faulty, or that can't be read.
OF_CAPTURE = (5, 7)
# The nanoseconds before or after 1970 that a time may have which is told.
MOST_TIME = 1 << 63


class Refusal(Exception):
    """What the program said as it refused something, its exit code, and a sentence on a faulty capture, or None."""

    def __init__(self, code, message, sentence=None):
        self.code, self.sentence = code, sentence
        self.message = message.strip() or f"{program()} ended with exit code {code} and no message"
        super().__init__(self.message)

    def is_of_list(self):
        """Whether it isn't the capture that is refused, so that no other capture will do."""
        return self.code not in OF_CAPTURE


class Room:
    """A folder for what the program gets, which goes with the tool."""

    def __init__(self):
        self.folder = tempfile.TemporaryDirectory(prefix="aclc-")
        self.count, self.captures = 0, {}

    def name(self, suffix):
        """A name for a file that isn't there yet."""
        self.count += 1
        return Path(self.folder.name) / f"{self.count}{suffix}"

    def write(self, suffix, content):
        """Writes a file, and gives its name."""
        path = self.name(suffix)
        path.write_bytes(content)
        return path

    def of_capture(self, name):
        """A name for a capture that may be read more than once: of the file itself, or of what a pipe or a compressed
        file has."""
        if name not in self.captures:
            try:
                self.captures[name] = self.taken("/dev/stdin" if name == "-" else name)
            except packed.Failed as failed:
                raise Refusal(OF_CAPTURE[1], str(failed)) from None
            except (OSError, ValueError) as error:
                raise Refusal(OF_CAPTURE[1], getattr(error, "strerror", None) or str(error)) from None
        return self.captures[name]

    def taken(self, source):
        """A link to a capture that is a file and isn't compressed, or a copy of any other one."""
        path = self.name(".pcap")
        with open(source, "rb") as file:
            if os.path.isfile(source) and not packed.tool_for(file.peek(packed.LOOKED_AT)):
                path.symlink_to(os.path.abspath(source))
            else:
                with open(path, "wb") as target:
                    packed.copy(file, target)
        return path


def columns_of(rule, *names):
    """A rule's line without some of its attributes, and without blanks at its ends."""
    text = rule.text
    for start, end in sorted((rule.places[name] for name in names if name in rule.places), reverse=True):
        text = text[:start].rstrip(b" \t") + text[end:]
    return text.strip(b" \t")


def numbered(rules):
    """The bytes of a rule file of all rules of a list, whose userdata is their number: so it is of rules without data=, and
    without it they aren't longer than the list."""
    return b"".join(columns_of(rule, "data") + b"\n" for rule in rules)


def started(*words):
    """The program, begun with these words, and the file that it tells its messages to. A signal of the terminal comes to
    the tool alone, which ends the program or lets it end."""
    said = tempfile.TemporaryFile()
    try:
        return subprocess.Popen([program(), *map(str, words)], stdout=subprocess.PIPE, stderr=said,
                                start_new_session=True), said
    except OSError as error:
        return leave(f"{program()}: {error.strerror}: ACLC names no program", 2)


def lines_of(*words):
    """The words of the lines that the program prints; a Refusal where it doesn't end with code 0."""
    return (line.decode().split() for line in printed(*words))


def printed(*words):
    """The lines that the program prints, as bytes; a Refusal where it doesn't end with code 0."""
    process, said = started(*words)
    with process, said:
        try:
            for line in process.stdout:
                yield line
        except BaseException:
            process.kill()
            raise
        code = process.wait()
        said.seek(0)
        message = said.read().decode(errors="replace")
        if code:
            raise Refusal(code, message)
        if message:
            note(message.rstrip("\n"))


def audited(copy, categories, given, great):
    """What the program says of each rule: its number in its family, and a category where it decides with its least key, or
    None."""
    told, count = set(), None
    for parts in lines_of("audit", copy, f"categories={categories}", *words_more(given, great)):
        if parts[0] == "rules":
            count = int(parts[1])
        else:
            told.add((parts[0], parts[2]))
            yield int(parts[2]), (int(parts[6]), keys.of_digits(parts[8])) if parts[5] == "wins" else None
    if count != len(told):
        raise Refusal(0, f"the program audits {count} rules, and tells of {len(told)}")


def compared(one, other, given, great):
    """What the program says of each family in which two lists differ: a category, and a key."""
    families = []
    for parts in lines_of("compare", one, other, *words_more(given, great)):
        families.append(parts[0])
        if parts[1] == "differ":
            yield int(parts[3]), keys.of_digits(parts[5])
    if families != ["ip4", "ip6"]:
        raise Refusal(0, f"the program compares {' and '.join(families) or 'no family'}, and should both")


def words_more(given, great=False):
    """The words of the program that options of the tools stand for: what the user names, or the greatest table."""
    words = given.max_words or great and MOST_WORDS
    return [f"max-words={words}"] if words else []


def classified(listed, copy, packets, categories, given):
    """What the program answers to each record by the copy of a list: its kind, and in each category the number of a
    rule or None; then `packets` and the program's last line."""
    last, count, known = None, 0, {}
    try:
        for line in printed("classify", copy, packets, f"categories={categories}", "marks=on", *words_more(given)):
            number, _, answer = line.partition(b" ")
            if number == b"packets":
                last = line.decode().strip()
                continue
            count += 1
            if answer not in known:
                kind, *words = answer.decode().split()
                known[answer] = kind, tuple(None if it == "-" else int(it) for it in words)
            yield known[answer]
    except Refusal as refusal:
        if refusal.is_of_list():
            raise Refusal(refusal.code, f"{listed.name}: {refusal.message}") from None
        raise Refusal(refusal.code, refusal.message, sentence_of(packets, refusal.message)) from None
    if not last or last.split()[1] != str(count):
        raise Refusal(0, f"{listed.name}: the program printed {count} lines, and last {last or 'no count of them'}")
    yield "packets", last


def sentence_of(path, message):
    """What to do about the record of a capture that the program refuses, if this tool's reader finds the same fault."""
    try:
        for _ in capture.records_with_times(content_of(path)):
            pass
    except OSError:
        return None
    except capture.Fault as fault:
        is_the_same = message.endswith(f"aclc: capture: record {fault.record}: {fault.kind}")
        return fault.sentence if is_the_same else None
    return None


def dated(record, number, what):
    """The record of a number, if its time has a date that can be told; else its capture is refused."""
    if not -MOST_TIME < record.time < MOST_TIME:
        said = f"packet {number}: its time is before 1678 or after 2262, and {what} tells none such"
        raise Refusal(OF_CAPTURE[0], said)
    return record


def categories_of(given, *listed):
    """The categories that are looked at: the one that is asked for, or all where rules name any."""
    if given.category is not None:
        return [given.category]
    return list(range(MOST_CATEGORIES)) if any(it.has_categories for it in listed) else [0]


def count_of(categories):
    """How many categories the program has to answer in."""
    return next(it for it in (1, 4, 8, 12, 16) if it > max(categories))


def read(name, given, room):
    """The list of a file; where it is faulty the tool ends with what the program says."""
    try:
        return any_list.read_list(name, given)
    except any_list.Faulty as faulty:
        original, packets = room.write(".rules", faulty.content), room.write(".pcap", capture.write([]))
        try:
            list(lines_of("classify", original, packets))
        except Refusal as refusal:
            return leave(f"{name}: {refusal.message}; aclc check {name} tells more", 2)
        fault = faulty.fault
        return leave(f"{name}: the program reads it, and this tool doesn't: line {fault.line}: {fault.kind}", 2)


def content_of(path):
    """The bytes of a capture, which aren't taken into memory at once."""
    with open(path, "rb") as file:
        if not os.fstat(file.fileno()).st_size:
            return b""
        return mmap.mmap(file.fileno(), 0, access=mmap.ACCESS_READ)


def told(refusal, name):
    """What is told of a refusal at a capture of this name."""
    if refusal.is_of_list():
        return refusal.message
    return f"{name}: {refusal.message}" + (f"\n    {refusal.sentence}" if refusal.sentence else "")
