# SPDX-License-Identifier: BSD-3-Clause
"""Each call of the system that a command makes on files and streams, made to fail in turn by strace."""
import collections
import re
import shutil
import subprocess

from runs import MESSAGES, Run

# The faults of each call. A call that is interrupted is made again, and so the run is as without a fault.
FAULTS = {
    "openat": ["error=EACCES", "error=EMFILE"],
    "read": ["error=EIO", "error=EAGAIN", "error=EINTR"],
    "write": ["error=EIO", "error=ENOSPC", "error=EPIPE", "error=EAGAIN", "retval=0", "error=EINTR"],
    "fsync": ["error=EIO", "error=ENOSPC", "error=EINVAL", "error=EINTR"],
    "close": ["error=EIO"],
    "rename": ["error=EIO"],
}
NAMES = "openat,open,creat,read,pread64,readv,write,pwrite64,writev,fsync,fdatasync,close,rename,renameat,renameat2"
LINE = re.compile(r"(\w+)\((.*)\) += (-?\d+)")
# A call: its name, how many of that name there were so far, its file, whether that is made, and its result.
Call = collections.namedtuple("Call", "name number file makes result")
OPENED = re.compile(r'AT_FDCWD, "([^"]*)", (\S+?)(?:, \d+)?$')


def traced(commands, words, inject=None, made=None):
    """A run, one call of which may be made to fail, and the calls that it made."""
    log = commands.folder / "strace.log"
    before = ["strace", "-o", log, "-s", "0", "-e", f"trace={NAMES}"]
    if inject:
        before += ["-e", f"inject={inject}"]
    run = commands.run(words, before=before, made=made)
    return run, list(calls_of(log.read_text().splitlines()))


def calls_of(lines):
    """The calls that a log tells of."""
    files, counts = {0: "input", 1: "output", 2: "message"}, {}
    for line in lines:
        found = LINE.match(line)
        if not found:
            continue
        name, words, result = found[1], found[2], int(found[3])
        counts[name] = counts.get(name, 0) + 1
        opened = OPENED.match(words) if name == "openat" else None
        number = None if opened else int(re.match(r"\d*", words)[0] or -1)
        file = opened[1] if opened else files.get(number, "another file")
        if opened and result >= 0:
            files[result] = file
        yield Call(name, counts[name], file, bool(opened and "O_CREAT" in opened[2]), result)
        if name == "close":
            files.pop(number, None)


def own_calls(calls):
    """The calls from the first one of the program itself on, which asks for the null device: the loader's are before."""
    first = next(place for place, call in enumerate(calls) if call.file == "/dev/null")
    return calls[first:]


def label_of(name, file, fault):
    """What fails, in words: the closes and the null device of a command are one each."""
    kind = {"error=EINTR": "is interrupted", "retval=0": "takes nothing"}.get(fault, "fails")
    if name == "close":
        return "a close fails"
    kind_of_file = {"/dev/null": "null device", "many.pcap": "capture"}.get(file, file.split(".")[-1])
    return f"{kind_of_file}: {name} {kind}"


def right_of(commands, command, whole, call, fault, calls):
    """What a run has to leave whose call has this fault."""
    name, file = call.name, call.file
    before = calls[:next(place for place, each in enumerate(calls) if each[:2] == call[:2])]
    moved = sum(each.result for each in before if (each.name, each.file) == (name, file))
    made = b"before" if command == "build" else None
    if name == "close" or file == "/dev/null" or (fault == "error=EINTR" and name in ("read", "write", "fsync")):
        return whole
    if file == "message":
        return whole._replace(err=whole.err[:moved])
    if name == "openat" and not call.makes:
        return Run(7, b"", MESSAGES[7], made)
    if name == "read":
        return Run(7, commands.lines_of(command, moved) if file == "many.pcap" else b"", MESSAGES[7], made)
    if file == "output":
        return Run(8, whole.out[:moved], MESSAGES[8], made)
    if name == "openat":
        return Run(8, b"", MESSAGES[8], made)
    return Run(8, b"", MESSAGES[8], whole.made[:moved] if name == "write" else whole.made)


def fail_each(commands, table, command, words, whole, file=None):
    """Fails each call of a command in turn, or each on one of its files."""
    made = b"before" if command == "build" else None
    run, calls = traced(commands, words, made=made)
    table.note(command, "strace alone", run, whole)
    for call in own_calls(calls):
        if file not in (None, call.file):
            continue
        for fault in FAULTS.get(call.name, ["error=EIO"]):
            run, came = traced(commands, words, f"{call.name}:{fault}:when={call.number}", made)
            right = right_of(commands, command, whole, call, fault, came)
            table.note(command, label_of(call.name, call.file, fault), run, right)


def lack():
    """Why no call can be watched or made to fail here, or nothing."""
    if not shutil.which("strace"):
        return "strace isn't installed (Debian: apt-get install strace)"
    if subprocess.run(["strace", "-o", "/dev/null", "true"], stderr=subprocess.DEVNULL).returncode:
        return "strace may not watch programs here"
    return None


def fail_calls(commands, table):
    why = lack()
    if why:
        print(f"{why}, so no call of the system is made to fail")
        return
    for command, words in commands.words.items():
        fail_each(commands, table, command, words, commands.whole[command])
    # Commands with a message, whose own write fails.
    for words in (["classify", "old.image", "many.pcap"], ["audit", "missing.rules"]):
        fail_each(commands, table, f"{words[0]} !", words, commands.run(words))
    # A script that is too long takes some hundred reads.
    words = ["session", "long.script"]
    fail_each(commands, table, "session !", words, commands.run(words), "message")
