# SPDX-License-Identifier: BSD-3-Clause
"""What the tools print: texts of files without what a terminal would act on, and an end that is never a traceback."""
import csv
import json
import re
import signal
import sys
import traceback

# Control characters but TAB, what turns the direction of a text or can't be seen, and bytes that aren't UTF-8.
UNSEEN = re.compile("[\x00-\x08\x0a-\x1f\x7f-\x9f\xad\u061c\u200b-\u200f\u2028-\u202e\u2060-\u206f\ufeff\ud800-\udfff]")


def escaped(found):
    """A character as its number."""
    number = ord(found.group())
    if 0xDC80 <= number <= 0xDCFF:
        number -= 0xDC00
    return f"\\x{number:02x}" if number < 256 else f"\\u{number:04x}"


def shown(text):
    """A text or the bytes of one as they can be printed on a line."""
    return UNSEEN.sub(escaped, text.decode("utf-8", "surrogateescape") if isinstance(text, bytes) else text)


def numbers_text(categories):
    """The numbers of categories in words."""
    runs = []
    for it in categories:
        if runs and runs[-1][1] == it - 1:
            runs[-1][1] = it
        else:
            runs.append([it, it])
    parts = [str(first) if first == last else f"{first}-{last}" for first, last in runs]
    return f"categor{'y' if len(categories) == 1 else 'ies'} {', '.join(parts)}"


def print_json(told):
    """Prints what a program is to read."""
    json.dump(told, sys.stdout, indent=1)
    print()


def print_csv(names, rows, left_out=(), is_live=False):
    """Rows, each a dictionary, with a line of their names before them. If lines were left out, four columns more tell
    each of them, in rows of their own. Nothing is printed before all rows are there, unless they are live."""
    rows = rows if is_live else list(rows)
    more = [{f"left_out_{name}": value for name, value in it.items()} for it in left_out]
    columns = [f"left_out_{name}" for name in ("file", "line", "text", "why")] if more else []
    writer = csv.DictWriter(sys.stdout, [*names, *columns], lineterminator="\n", extrasaction="ignore")
    writer.writeheader()
    for part in (rows, more):
        writer.writerows(part)


def fault_text(error):
    """An exception that no tool means to raise, and where it was raised."""
    at = traceback.extract_tb(error.__traceback__)[-1]
    return f"{type(error).__name__}: {error} ({at.filename.rpartition('/')[2]}, line {at.lineno})"


def end_of(main, code):
    """Runs a tool to its end. Whatever keeps it from telling all that it should tell ends it with this code, so that no
    other one is taken for an answer."""
    name = shown(sys.argv[0].rpartition("/")[2])
    for stream in filter(None, (sys.stdout, sys.stderr)):
        stream.reconfigure(errors="backslashreplace")
    for number in (signal.SIGTERM, signal.SIGHUP):
        # So that the files which the program gets go with the tool.
        if signal.getsignal(number) == signal.SIG_DFL:
            signal.signal(number, lambda its_number, _: sys.exit(128 + its_number))
    try:
        if not sys.stdout:
            raise OSError("standard output is closed")
        try:
            main()
        finally:
            sys.stdout.flush()
    except BrokenPipeError:
        # What reads the lines has enough of them.
        sys.stdout = None
        sys.exit(code)
    except KeyboardInterrupt:
        sys.stdout = None
        sys.exit(130)
    except OSError as error:
        sys.stdout = None
        print(f"{name}: {shown(str(error.strerror or error))}", file=sys.stderr)
        sys.exit(code)
    except Exception as error:
        # Any other one is a fault of the tool, for which Python's own code is 1: that would tell of a difference.
        sys.stdout = None
        print(f"{name}: a fault of this tool: {shown(fault_text(error))}", file=sys.stderr)
        sys.exit(code)
