# SPDX-License-Identifier: BSD-3-Clause
"""The scripts of make, with a stand-in for `rt` that proves nothing: what is tried, proved and installed, and when."""
import hashlib
import os
import shutil
import stat
import subprocess
import tempfile
import time
import unittest
from pathlib import Path

from aclc_tools.program import TOP

# Tries and builds a program that prints its words and ends with 5, or the example's lines. Of the library's crates it
# proves those below it alone.
RT = """#!/bin/bash
echo "$PWD: $*" >> "$CALLS"
[ -z "$SLOW" ] || { printf 'a part of ' >&2; sleep "$SLOW"; printf 'a line\n' >&2; }
program='#!/bin/bash
case $3 in *guide.pcap) cat "${2%.rules}.expected" ;; *) echo "$@"; echo told >&2; exit 5 ;; esac'
case $1 in
try) shift; [ -z "$BROKEN" ] || { echo refused >&2; exit 1; }
    while [ "$1" != -- ]; do shift; done
    shift; echo "$@"; printf 'told\\nchecked: ended status=5\\nrun=ended status=5 runners=1 proved=no\\n' >&2; exit 5 ;;
doc) echo "$KIT/START.md" ;;
version) echo "kit 1 logic 2" ;;
ci) [ -z "$BROKEN" ] || exit 1
    [ ! -e crates/low/must-fail ] && [ -e HANDLES ] || exit 1
    if [ "$(cat crates.txt)" = 'low: std' ]; then
        [ "$(ls crates)" = low ] && mkdir -p crates/low/out/rlib/low.rlib
        exit
    fi
    if [ "$(cat crates.txt)" = $'low: std\\naclc_lists: low' ]; then
        printf '== aclc_lists\\nlogic=proved functions=3\\nrt: aclc_lists proved\\n'
        [ "$(ls crates | tr '\\n' ' ')" = 'aclc_lists low ' ] && mkdir -p crates/aclc_lists/out &&
            printf '#!/bin/sh\\necho lists "$@"\\n' > crates/aclc_lists/out/aclc_lists && chmod +x crates/aclc_lists/out/aclc_lists
        exit
    fi
    [ "$(ls crates | tr '\\n' ' ')" = 'aclc low ' ] || exit 1
    [ "$(cat crates.txt)" = $'low: std\\naclc: low' ] || exit 1
    echo 'rt: low is kept: an earlier run proved it'; printf '== aclc\\nlogic=proved functions=1\\nrt: aclc proved\\n'
    mkdir -p crates/aclc/out; echo "$program" > crates/aclc/out/aclc; chmod +x crates/aclc/out/aclc ;;
esac
"""

# What it makes of aclc-lists.
LISTS = '#!/bin/sh\necho lists "$@"\n'

# Builds an archive that has its words, where it is told of each crate that acl_c uses.
RATTLE = """#!/bin/bash
echo "$PWD: $*" >> "$CALLS"
[ -z "$REFUSES" ] || { echo 'lib.rt:1:1: error[not-proved]'; exit 1; }
[[ $1 = build && ! -e must-fail && $(cat src/lib.rt) = 'fn one()' ]] || exit 2
for name in low=*/crates/low/out/rlib/low.rlib std=$KIT/rlibs/std.rlib core=$KIT/rlibs/core.rlib; do
    [[ " $* " = *" --extern "$name" "* ]] || exit 2
done
while [ "$1" != -o ]; do shift; done
echo archive > "$2"
echo 'logic=proved functions=2 target=x86_64'
"""


class Script(unittest.TestCase):
    def setUp(self):
        self.folder = Path(tempfile.mkdtemp())
        self.addCleanup(shutil.rmtree, self.folder)
        for name in ("aclc", "HANDLES", "VERSION", "LICENSE", "make", "examples", "docs", "page", "tools"):
            leave = shutil.ignore_patterns("tests", "__pycache__", "pictures")
            shutil.copytree(TOP / name, self.folder / name, ignore=leave) if (TOP / name).is_dir() else \
                shutil.copy(TOP / name, self.folder)
        # It starts each tool, and test_pages tries it.
        (self.folder / "make" / "pages").write_text('#!/bin/sh\nmkdir "$1/man" && echo page > "$1/man/page"\n')
        crates = "# a band: of two\nlow: std\naclc: low\naclc_lists: low\nother: low\nacl_c staticlib: core low\n"
        (self.folder / "crates.txt").write_text(crates)
        for crate in ("low", "aclc", "aclc_lists", "other", "acl_c"):
            (self.folder / "crates" / crate / "src").mkdir(parents=True)
            (self.folder / "crates" / crate / "src" / "lib.rt").write_text("fn one()\n")
        for crate in ("low", "acl_c"):
            (self.folder / "crates" / crate / "must-fail").mkdir()
        self.kit = self.folder / "kit"
        for name, text in ((self.folder / "bin" / "rt", RT), (self.kit / "bin" / "rattle", RATTLE)):
            name.parent.mkdir(parents=True)
            name.write_text(text)
            name.chmod(0o755)
        self.calls = self.folder / "calls"

    def run_script(self, *words, rt=True, **more):
        path = f"{self.folder / 'bin'}:/usr/bin:/bin" if rt else "/usr/bin:/bin"
        env = {"PATH": path, "CALLS": str(self.calls), "HOME": str(self.folder), "KIT": str(self.kit), **more}
        done = subprocess.run([str(self.folder / words[0]), *words[1:]], env=env, stdout=subprocess.PIPE,
                              stderr=subprocess.PIPE, text=True, cwd=self.folder)
        return done.returncode, done.stdout, done.stderr

    def calls_of_rt(self):
        return self.calls.read_text().count("\n") if self.calls.exists() else 0

    def test_an_unproved_program_is_tried_and_says_so(self):
        code, lines, said = self.run_script("aclc", "classify", "examples/office.rules", "no.pcap", "marks=on")
        self.assertEqual((code, lines), (5, "classify file1 no.pcap marks=on\n"))
        self.assertIn("unproved", said)
        self.assertTrue(said.endswith("told\n"))

    def test_the_program_of_lists_is_tried_too(self):
        code, lines, said = self.run_script("aclc", "lists", "nft", "examples/office.rules", "input", "data=verdict")
        self.assertEqual((code, lines), (5, "nft file1 input data=verdict\n"))
        self.assertTrue(said.startswith("aclc-lists: unproved"), said)
        self.assertIn("crates/aclc_lists: try", self.calls.read_text())

    def test_a_trial_run_of_no_command_is_refused_at_once(self):
        for words in ((), ("",), ("clasify", "a", "b"), ("--verbose",), ("prove",), ("--version", "x"), ("help", "a", "b"),
                      ("lists",), ("lists", "pf", "a", "b")):
            code, lines, said = self.run_script("aclc", *words)
            self.assertEqual((code, lines, said.count("\n"), self.calls_of_rt()), (101, "", 1, 0), said)
            self.assertIn("./aclc help", said)
            self.assertIn("make/prove", said)

    def test_a_trial_run_that_lasts_gives_signs_of_life(self):
        self.assertNotIn("still compiling", self.run_script("aclc", "session", "a")[2])
        script = self.folder / "make" / "run"
        text = script.read_text()
        self.assertIn("read -r -t 60 line", text)
        script.write_text(text.replace("read -r -t 60 line", "read -r -t 0.3 line"))
        code, lines, said = self.run_script("aclc", "session", "a", SLOW="1")
        self.assertEqual((code, lines), (5, "session a\n"))
        self.assertIn("aclc: still compiling (0 min)\n", said)
        self.assertTrue(said.endswith("min)\na part of a line\ntold\n"), said)

    def test_files_named_like_other_words_change_nothing(self):
        for name in ("classify", "bench", "stats=on", "42", "a=b.rules"):
            (self.folder / name).write_text("")
        self.assertEqual(self.run_script("aclc", "classify", "a=b.rules", "b", "stats=on")[1], "classify file1 b stats=on\n")
        self.assertEqual(self.run_script("aclc", "audit", "a", "stats=on")[1], "audit a stats=on\n")
        self.assertEqual(self.run_script("aclc", "bench", "42", "42", "42")[1], "bench 42 42 42\n")

    def test_words_that_make_does_not_know_are_refused(self):
        for words in (("prove", "x"), ("prove", "program", "x"), ("prove", ""), ("install",), ("install", ""), ("install", "-x"),
                      ("install", "a", "b"), ("install", "--uninstall"), ("run",), ("run", "x")):
            code, lines, said = self.run_script(f"make/{words[0]}", *words[1:])
            self.assertEqual((code, lines, said.count("\n")), (101 if words[0] == "run" else 2, "", 1), said)
        self.assertEqual(self.calls_of_rt(), 0)

    def test_a_trial_run_makes_no_image(self):
        code, lines, said = self.run_script("aclc", "build", "examples/office.rules", "office.image")
        self.assertEqual((code, lines, self.calls_of_rt()), (101, "", 0))
        self.assertIn("make/prove", said)

    def test_it_is_proved_once_and_again_after_an_edit_alone(self):
        code, _, said = self.run_script("make/prove", "program")
        self.assertEqual(code, 0, said)
        self.assertIn("crate 1 of 2: low", said)
        self.assertIn("crate 2 of 2: aclc", said)
        calls = self.calls_of_rt()
        self.assertEqual(self.run_script("aclc", "classify", "a", "b"), (5, "classify a b\n", "told\n"))
        self.run_script("make/prove", "program")
        (self.folder / "crates" / "low" / "src" / "lib.rt").touch()
        self.assertEqual(self.run_script("aclc", "x"), (5, "x\n", "told\n"))
        self.assertEqual(self.calls_of_rt(), calls)
        (self.folder / "crates" / "low" / "src" / "lib.rt").write_text("fn two()\n")
        self.assertIn("unproved", self.run_script("aclc", "session", "x")[2])
        (self.folder / "crates" / "low" / "src" / "lib.rt").write_text("fn one()\n")
        self.assertEqual(self.run_script("aclc", "x"), (5, "x\n", "told\n"))

    def test_the_library_is_proved_once_over_what_rt_kept(self):
        archive = self.folder / "crates" / "acl_c" / "out" / "libacl_c.a"
        code, _, said = self.run_script("make/prove", "library")
        self.assertEqual((code, archive.read_text()), (0, "archive\n"), said)
        noted = (archive.parent / "built_from").read_text().split("\n")
        self.assertEqual(noted[2], "logic=proved functions=2 target=x86_64")
        calls = self.calls_of_rt()
        self.assertIn("proved and built", self.run_script("make/prove", "library")[2])
        self.assertEqual(self.calls_of_rt(), calls)
        self.assertIn("unproved", self.run_script("aclc", "session", "x")[2])

    def test_the_program_of_lists_is_proved_once_over_the_crates_below_it(self):
        made = self.folder / "crates" / "aclc_lists" / "out" / "aclc_lists"
        code, _, said = self.run_script("make/prove", "lists")
        self.assertEqual((code, made.read_text()), (0, LISTS), said)
        self.assertEqual((made.parent / "built_from").read_text().split("\n")[2], "logic=proved functions=3")
        calls = self.calls_of_rt()
        self.assertIn("program aclc-lists is proved and built", self.run_script("make/prove", "lists")[2])
        self.assertEqual(self.calls_of_rt(), calls)
        self.assertIn("unproved", self.run_script("aclc", "session", "x")[2])
        self.assertEqual(self.run_script("aclc", "lists", "nft", "-", "x"), (0, "lists nft /dev/stdin x\n", ""))

    def test_an_archive_that_changed_is_built_again(self):
        self.run_script("make/prove", "library")
        archive = self.folder / "crates" / "acl_c" / "out" / "libacl_c.a"
        archive.write_text("another\n")
        self.assertEqual(self.run_script("make/prove", "library")[0], 0)
        self.assertEqual(archive.read_text(), "archive\n")
        (self.folder / "crates" / "acl_c" / "src" / "lib.rt").write_text("fn two()\n")
        self.assertEqual(self.run_script("make/prove", "library")[0], 1)
        self.assertFalse((archive.parent / "built_from").exists())

    def test_a_library_that_is_refused_is_not_built(self):
        for more in ({"BROKEN": "1"}, {"REFUSES": "1"}):
            code, lines, said = self.run_script("make/prove", "library", **more)
            self.assertEqual((code, lines), (1, ""))
            self.assertIn("failed", said)
            self.assertFalse((self.folder / "crates" / "acl_c" / "out" / "libacl_c.a").exists())

    def test_an_edit_that_keeps_its_old_time_is_seen(self):
        self.run_script("make/prove", "program")
        file = self.folder / "crates" / "low" / "src" / "lib.rt"
        before = os.stat(file).st_mtime
        time.sleep(1.2)
        file.write_text("fn two()\n")
        os.utime(file, (before, before))
        self.assertIn("unproved", self.run_script("aclc", "session", "x")[2])

    def test_another_program_in_its_place_is_not_run(self):
        self.run_script("make/prove", "program")
        program = self.folder / "crates" / "aclc" / "out" / "aclc"
        program.write_text("#!/bin/bash\necho another\n")
        self.assertIn("unproved", self.run_script("aclc", "session", "x")[2])

    def test_a_failed_proof_is_told(self):
        code, lines, said = self.run_script("make/prove", BROKEN="1")
        self.assertEqual((code, lines), (1, ""))
        self.assertIn("the proof failed", said)
        self.assertEqual(self.run_script("aclc", "session", "x", BROKEN="1")[0], 101)

    def test_without_rt_it_says_so_in_one_line(self):
        for code, words in ((1, ["make/prove"]), (101, ["aclc", "classify", "a", "b"])):
            ended, _, said = self.run_script(*words, rt=False)
            self.assertEqual((ended, said.count("\n")), (code, 1))
            self.assertIn("rt isn't on the path", said)

    def test_both_programs_of_these_sources_are_installed_and_no_other(self):
        target = self.folder / "target"
        refused = lambda why: self.assertEqual(
            (lambda code, _, said: (code, why in said, target.exists()))(*self.run_script("make/install", str(target))),
            (1, True, False))
        refused("the program isn't proved")
        self.run_script("make/prove", "program")
        refused("the program aclc-lists isn't proved")
        source = self.folder / "crates" / "low" / "src" / "lib.rt"
        source.write_text("fn two()\n")
        self.run_script("make/prove", "lists")
        refused("the program isn't proved")
        source.write_text("fn one()\n")
        refused("the program aclc-lists isn't proved")
        self.run_script("make/prove")
        note = self.folder / "crates" / "aclc_lists" / "out" / "built_from"
        noted = note.read_text()
        note.write_text(noted.replace(noted[:8], "00000000", 1))
        refused("the program aclc-lists was proved from other sources")
        note.write_text(noted)
        code, lines, said = self.run_script("make/install", str(target))
        self.assertEqual((code, said), (0, ""), lines)
        proof = (target / "share" / "doc" / "aclc" / "proof").read_text()
        for part in ("  libexec/aclc/aclc\n", "  libexec/aclc/aclc-lists\n"):
            self.assertIn(part, proof)
        self.assertRegex(proof, "(?m)^logic=proved kit=kit 1 logic 2 sources=[0-9a-f]{64}$")
        self.assertEqual(subprocess.run(["sha256sum", "-c", "--quiet", "share/doc/aclc/proof"], cwd=target,
                                        stderr=subprocess.DEVNULL).returncode, 0)

    def files(self, folder):
        return {str(path.relative_to(folder)) for path in folder.rglob("*")}

    def test_what_is_installed_is_removed_and_nothing_else(self):
        target = self.folder / "target"
        self.run_script("make/prove")
        (target / "share" / "man").mkdir(parents=True)
        (target / "share" / "man" / "other").write_text("other")
        before = self.files(target)
        self.assertEqual(self.run_script("make/install", str(target))[0], 0)
        once = self.files(target)
        self.assertEqual(self.run_script("make/install", str(target))[0], 0)
        self.assertEqual(self.files(target), once)
        self.assertEqual(self.run_script("make/install", "--uninstall", str(target))[0], 0)
        self.assertEqual(self.files(target), before)
        self.assertEqual(self.run_script("make/install", "--uninstall", str(target))[0], 1)

    def test_an_installation_without_a_list_is_replaced_and_the_file_of_another_is_not(self):
        self.run_script("make/prove")
        target = self.folder / "target"
        program = target / "bin" / "aclc"
        for noted, code in (("other", 1), ("earlier", 0)):
            for name in ("bin", "share/man/man1", "share/doc/aclc"):
                (target / name).mkdir(parents=True, exist_ok=True)
            (target / "share/man/man1/aclc.1").write_text("page")
            program.write_text("earlier")
            total = hashlib.sha256(noted.encode()).hexdigest()
            (target / "share/doc/aclc/proof").write_text(f"logic=proved\n{total}  bin/aclc\n")
            ended, _, said = self.run_script("make/install", str(target))
            self.assertEqual((ended, program.read_text() == "earlier"), (code, code == 1), said)

    def test_the_version_is_told_before_and_after_the_proof(self):
        version = (TOP / "VERSION").read_text().split()[0]
        self.assertEqual(self.run_script("aclc", "--version", rt=False), (0, f"aclc {version}\n", ""))
        self.run_script("make/prove")
        self.assertEqual(self.run_script("aclc", "--version"), (0, f"aclc {version}\n", ""))
        self.run_script("make/install", str(self.folder / "target"))
        self.assertEqual(self.run_script("target/bin/aclc", "--version"), (0, f"aclc {version}\n", ""))


if __name__ == "__main__":
    unittest.main()
