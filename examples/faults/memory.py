# SPDX-License-Identifier: BSD-3-Clause
"""Each allocation of a command refused in turn, and memory limits from too little to enough."""
import os
import shutil
import signal
import subprocess
import sys

from runs import HERE, MESSAGES, Run

MOST_REFUSALS = 5000
STEP = 16 * 1024


def library(folder):
    """The library that refuses an allocation, or nothing where there is no C compiler."""
    if not shutil.which("gcc"):
        print("gcc isn't installed (Debian: apt-get install gcc libc6-dev), so no allocation is refused")
        return None
    path = folder / "refuse.so"
    subprocess.run(["gcc", "-O2", "-shared", "-fPIC", "-o", path, HERE / "refuse.c"], check=True)
    return path


def refused(run, path, number, more):
    """A run whose allocation of this number is refused, or all from it on, and how many were refused."""
    ours, theirs = os.pipe()
    words = {"LD_PRELOAD": str(path), "REFUSE_FROM": str(number), "REFUSE_MORE": str(int(more)), "REFUSE_TELL": str(theirs)}
    done = run(env={**os.environ, **words}, pass_fds=[theirs])
    os.close(theirs)
    with open(ours, "rb") as told:
        return done, len(told.read())


def fail_allocations(commands, table):
    """Refuses each allocation of each command: nothing is printed, and no image is made."""
    path = library(commands.folder)
    if not path:
        return
    for command, words in commands.words.items():
        made = b"before" if command == "build" else None
        for more in (False, True):
            fault = "all allocations refused from one on" if more else "one allocation refused"
            for number in range(1, MOST_REFUSALS + 1):
                run, count = refused(lambda **how: commands.run(words, made=made, **how), path, number, more)
                if not count:
                    break
                # The words of the command line are had first, and their want has a code of its own.
                right = Run(run.code, b"", MESSAGES[run.code], made) if run.code in (1, 9) else commands.whole[command]
                again = ", and had a second time" if run.code == 0 and not more else ""
                table.note(command, fault + again, run, right)
            else:
                sys.exit(f"run: {command} makes more than {MOST_REFUSALS} allocations")
            table.note(command, "no allocation refused", run, commands.whole[command])


def limited(commands, words, size, made=None):
    """A run with at most so many bytes of memory."""
    limit = ["sh", "-c", f'ulimit -c 0; ulimit -v {size // 1024} && exec "$0" "$@"']
    return commands.run(words, before=limit, made=made)


def enough(commands, words, code=0):
    """A size with which the program ends with this code, by halving."""
    low, high = 0, 1 << 30
    while high - low > STEP:
        middle = (low + high) // 2 // 1024 * 1024
        low, high = (low, middle) if limited(commands, words, middle).code == code else (middle, high)
    return high


def fail_limits(commands, table):
    """Runs each command with more and more memory, from where it can't be loaded to where it has enough."""
    for command, words in commands.words.items():
        made, loaded = b"before" if command == "build" else None, False
        most = enough(commands, words)
        for size in range(STEP, most + 8 * STEP, STEP):
            run = limited(commands, words, size, made)
            loaded = loaded or run.code in (0, 1, 7, 8, 9)
            if run.code in (1, 9):
                table.note(command, "memory limit, too little", run, Run(run.code, b"", MESSAGES[run.code], made))
            elif run.code == -signal.SIGSEGV and loaded:
                table.note(command, "memory limit, the stack can't grow: signal 11", run, Run(run.code, b"", b"", made))
            elif loaded:
                table.note(command, "memory limit, enough", run, commands.whole[command])
            else:
                table.note(command, "memory limit, not loaded", run, Run(run.code, b"", None, made))
