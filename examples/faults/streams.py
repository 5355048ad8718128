# SPDX-License-Identifier: BSD-3-Clause
"""A full disk, files that may not grow, and a reader that goes away."""
import resource
import shutil
import signal
import subprocess

from runs import MESSAGES, PROGRAM, Run

SMALL = 4096


def fail_full(commands, table):
    """Prints to a full device."""
    for command, words in commands.words.items():
        with open("/dev/full", "wb") as full:
            run = commands.run(words, stdout=full)
        if command == "build":
            table.note(command, "output to /dev/full, and nothing printed", run, commands.whole[command]._replace(out=None))
        else:
            table.note(command, "output to /dev/full", run, Run(8, None, MESSAGES[8], None))
    run = commands.run(["build", "list.rules", "/dev/full"])
    table.note("build", "image is /dev/full", run, Run(8, b"", MESSAGES[8], None))
    with open("/dev/full", "wb") as full:
        run = commands.run(["classify", "missing.rules", "many.pcap"], stderr=full)
    table.note("classify !", "message to /dev/full", run, Run(7, b"", None, None))


def file_limit(size):
    """Has no file grow above this size, where the signal of it is ignored."""
    def limit():
        signal.signal(signal.SIGXFSZ, signal.SIG_IGN)
        resource.setrlimit(resource.RLIMIT_FSIZE, (size, size))
    return limit


def fail_growth(commands, table):
    """Has output and image grow to each of some sizes and no further."""
    for command, words in commands.words.items():
        whole = commands.whole[command]
        text = whole.made if command == "build" else whole.out
        for size in sorted({0, 1, 7, len(text) // 3, len(text) // 2, len(text) - 1, len(text)}):
            out = commands.folder / "out"
            with open(out, "wb") as file:
                run = commands.run(words, stdout=file, restore_signals=False, preexec_fn=file_limit(size))
            given = run.made if command == "build" else out.read_bytes()
            right = Run(8, None, MESSAGES[8], text[:size]) if size < len(text) else Run(0, None, b"", text)
            # The message goes to a pipe, which has no size.
            table.note(command, "file that may not grow", run._replace(made=given), right)


def fail_disk(commands, table):
    """Makes images on a disk with too little room, where one may be mounted."""
    place = commands.folder / "disk"
    place.mkdir()
    whole = commands.whole["build"]
    mount = ["mount", "-t", "tmpfs", "-o", f"size={SMALL}", "tmpfs", place]
    if subprocess.run(mount, stderr=subprocess.DEVNULL).returncode:
        print("no small disk may be mounted here, so none is full")
        return
    try:
        run = commands.run(["build", "list.rules", "disk/new.image"])
        made = (place / "new.image").read_bytes()
        table.note("build", "small disk", run._replace(made=made), Run(8, b"", MESSAGES[8], whole.made[:len(made)]))
        (place / "new.image").unlink()
        for words in (commands.words["classify"], commands.words["audit"], ["session", long_script(commands)]):
            whole = commands.run(words)
            with open(place / "out", "wb") as file:
                run = commands.run(words, stdout=file)
            given = (place / "out").read_bytes()
            table.note(words[0], "small disk", run._replace(made=given), Run(8, None, MESSAGES[8], whole.out[:len(given)]))
    finally:
        subprocess.run(["umount", place], check=True)


def long_script(commands):
    """The name of a script with more replies than a pipe holds."""
    name = "many.script"
    (commands.folder / name).write_bytes((commands.folder / "fields.script").read_bytes() + b"hello\n" * 20_000)
    return name


def fail_readers(commands, table):
    """Has a reader take some bytes and go away, whether the signal of it is ignored or not."""
    many = commands.folder / "lines.pcap"
    capture = (commands.folder / "many.pcap").read_bytes()
    many.write_bytes(capture + capture[24:] * 30)
    for words in (["classify", "list.rules", "lines.pcap", "categories=16"], ["session", long_script(commands)]):
        whole = commands.run(words)
        for ignored in (False, True):
            for count in (0, 10, 5000):
                child = subprocess.Popen([PROGRAM, *words], cwd=commands.folder, stdout=subprocess.PIPE, stderr=subprocess.PIPE,
                                         restore_signals=not ignored)
                part = child.stdout.read(count)
                child.stdout.close()
                err = child.stderr.read()
                run = Run(child.wait(), part, err, None)
                table.note(words[0], "reader goes away", run, Run(8, whole.out[:count], MESSAGES[8], None))
