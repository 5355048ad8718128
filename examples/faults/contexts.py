# SPDX-License-Identifier: BSD-3-Clause
"""Each allocation refused in turn of a program that adds rules to a context and builds its table, three times each."""
import re
import shutil
import subprocess
import sys

from memory import MOST_REFUSALS, library, refused
from runs import HERE, REPOSITORY, Run

CRATE, USES = "refused_context", "field_defs rule_set flat_table flow_core lane_walk acl_context"
STEPS = re.compile(r"add (.+)\nbuild (.+)\nrules (\d+) verdict (.+)\n")


def copy_below(names, uses, folder):
    """Copies these crates and those below them."""
    for name in names.split():
        source, place = REPOSITORY / "crates" / name, folder / "crates" / name
        if source.exists() and not place.exists():
            shutil.copytree(source, place, symlinks=True)
            copy_below(uses[name], uses, folder)


def built(folder):
    """The program over the crates, proved."""
    uses = dict(line.split(":") for line in (REPOSITORY / "crates.txt").read_text().splitlines())
    copy_below(USES, uses, folder)
    shutil.copy(REPOSITORY / "HANDLES", folder)
    copied = [place.name for place in (folder / "crates").iterdir()]
    (folder / "crates.txt").write_text("".join(f"{name}: {uses[name]}\n" for name in copied) + f"{CRATE}: {USES}\n")
    crate = folder / "crates" / CRATE
    for source, place in [("main.txt", "src/main.rt"), ("ledger.txt", "proofs/verdict_now/Invariants.antt")]:
        (crate / place).parent.mkdir(parents=True)
        shutil.copy(HERE / source, crate / place)
    log = folder / "rt.log"
    with open(log, "w") as lines:
        subprocess.run(["rt", "run"], cwd=crate, stdout=lines, stderr=lines)
    if not (crate / "out" / CRATE).exists():
        sys.exit(log.read_text() + "run: rt could not build the program")
    return crate / "out" / CRATE


def is_right(text):
    """Whether each call added or built all or nothing, and the verdict is that of the last table."""
    rules, served, parts = [], None, STEPS.findall(text)
    for turn, (added, made, count, verdict) in enumerate(parts, 1):
        rules += [turn] * 2 if added == "ok" else []
        served = max(rules, default=0) if made == "ok" else served
        words = {added, made} <= {"ok", "out of memory"}
        if not words or int(count) != len(rules) or verdict != ("none" if served is None else str(served)):
            return False
    return len(parts) == 3 and STEPS.sub("", text) == ""


def fail_contexts(commands, table):
    """Refuses each allocation of the program once: one call of it fails, and those after it go on from what stood before."""
    folder = commands.folder / "contexts"
    folder.mkdir()
    path = library(folder)
    if not path:
        return
    program = built(folder)

    def run(**how):
        done = subprocess.run([program], stdout=subprocess.PIPE, stderr=subprocess.PIPE, **how)
        return Run(done.returncode, done.stdout, done.stderr, None)
    for number in range(1, MOST_REFUSALS + 1):
        done, count = refused(run, path, number, False)
        text = done.out.decode()
        failed = [name for turn in STEPS.findall(text) for name, answer in zip(("add_rules", "build"), turn)
                  if answer == "out of memory"]
        right = Run(0, done.out if is_right(text) and len(failed) == count else b"another text", b"", None)
        table.note(failed[0] if failed else "contexts", "one allocation refused" if count else "no allocation refused", done, right)
        if not count:
            return
    sys.exit(f"run: the program makes more than {MOST_REFUSALS} allocations")
