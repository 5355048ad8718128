# SPDX-License-Identifier: BSD-3-Clause
"""include/install, packaging/libraries and aclc-dpdk, by a stand-in for the kit and a library that does nothing."""
import os
import re
import shlex
import shutil
import subprocess
import tempfile
import unittest
from pathlib import Path

from aclc_tools.program import TOP

RT = """#!/bin/sh
case $1 in
doc) echo "$KIT/START.md" ;;
version) echo "kit 1" ;;
ci) mkdir -p crates/low/out/rlib/low.rlib ;;
esac
"""
RATTLE = """#!/bin/sh
while [ "$1" != -o ]; do shift; done
cp "$KIT/made.a" "$2"
echo 'logic=proved functions=1 target=x86_64'
"""
SINCE = dict.fromkeys(("aclc_classify_keys", "aclc_error_text", "aclc_table_classify_keys"), "ACLC_1.1")
SINCE["aclc_strerror"] = "ACLC_1.2"
CALL = re.compile(r"^(aclc_code|uint32_t|void|const char) \*?(aclc_\w+)\(([^;]*)\);", re.M)


def calls(header="include/aclc.h"):
    """The calls of a header: type, name and parameters."""
    text = re.sub(r"/\*.*?\*/", "", (TOP / header).read_text(), flags=re.S)
    return CALL.findall(text)


def done(words, **more):
    ran = subprocess.run(list(map(str, words)), stdout=subprocess.PIPE, stderr=subprocess.STDOUT, text=True, **more)
    return ran.returncode, ran.stdout


def compile_c(source, *words):
    """Compiles C code; it has to be without a fault."""
    code, said = done(["cc", "-w", "-fPIC", "-x", "c", "-", "-x", "none", *words], input=source)
    if code:
        raise AssertionError(said)


def make_archive(file, without=()):
    """What acl_c is built to: its calls answer 0, but for those that are left out."""
    code = "#include <aclc_proved.h>\nuint32_t aclc_version(void) { return 0; }\n"
    for kind, name, words in calls("library/aclc_proved.h"):
        if name not in without:
            code += f"{kind} {name}({words}) {{ {'' if kind == 'void' else 'return 0;'} }}\n"
    folders = [f"-I{TOP / name}" for name in ("include", "library")]
    compile_c(code + "int hidden(void) { return 0; }\n", *folders, "-c", "-o", file.with_suffix(".o"))
    file.unlink(missing_ok=True)
    done(["ar", "rcs", file, file.with_suffix(".o")])


def exported(library):
    """What a library exports, with its versions."""
    _, said = done(["nm", "-D", "--defined-only", library])
    return {line.split()[2] for line in said.splitlines() if line.split()[1] != "A"}


@unittest.skipUnless(shutil.which("cc") and shutil.which("nm"), "there is no C compiler")
class Install(unittest.TestCase):
    def setUp(self):
        self.folder = Path(tempfile.mkdtemp())
        self.addCleanup(shutil.rmtree, self.folder)
        for name in ("include", "compat", "library", "packaging", "make"):
            shutil.copytree(TOP / name, self.folder / name)
        for name in ("HANDLES", "VERSION", "LICENSE"):
            shutil.copy(TOP / name, self.folder / name)
        (self.folder / "crates.txt").write_text("low: std\nacl_c staticlib: core low\n")
        for crate in ("low", "acl_c"):
            (self.folder / "crates" / crate / "src").mkdir(parents=True)
            (self.folder / "crates" / crate / "src" / "lib.rt").write_text("fn one()\n")
        self.kit = self.folder / "kit"
        for name, text in ((self.folder / "bin" / "rt", RT), (self.kit / "bin" / "rattle", RATTLE)):
            name.parent.mkdir(parents=True)
            name.write_text(text)
            name.chmod(0o755)
        (self.kit / "c").mkdir()
        compile_c("int kit_call(void) { return 0; }\n", "-c", "-o", self.kit / "c" / "kit.o")
        done(["ar", "rcs", self.kit / "c" / "liblibc_c.a", self.kit / "c" / "kit.o"])
        make_archive(self.kit / "made.a")
        self.prefix = self.folder / "prefix"

    def run_script(self, name, *words, **more):
        """A script of the copy, without the headers of DPDK."""
        env = {"PATH": f"{self.folder / 'bin'}:/usr/bin:/bin", "KIT": str(self.kit), "HOME": str(self.folder),
               "PKG_CONFIG_LIBDIR": str(self.folder), **more}
        return done([self.folder / name, *words], env=env, cwd=self.folder)

    def files(self):
        return {str(path.relative_to(self.prefix)) for path in self.prefix.rglob("*") if not path.is_dir()}

    def test_what_is_listed_is_written_and_removed_and_nothing_else(self):
        (self.prefix / "lib" / "pkgconfig").mkdir(parents=True)
        (self.prefix / "lib" / "other.a").write_text("other")
        code, said = self.run_script("include/install", self.prefix)
        self.assertEqual(code, 0, said)
        self.assertIn("librte_acl.so is left out", said)
        listed = (self.prefix / "share/doc/libaclc/installed").read_text().split()
        self.assertEqual({name for name in listed if not name.endswith("/")},
                         self.files() - {"lib/other.a", "share/doc/libaclc/installed"})
        self.assertNotIn("lib/pkgconfig/", listed)
        self.assertTrue((self.prefix / "share/doc/libaclc/proof").read_text().startswith("logic=proved kit=kit 1 sources="))
        self.assertEqual(self.run_script("include/install", self.prefix)[0], 0)
        self.assertEqual(self.run_script("include/install", "--uninstall", self.prefix)[0], 0)
        self.assertEqual(self.files(), {"lib/other.a"})
        self.assertEqual({path.name for path in self.prefix.rglob("*") if path.is_dir()}, {"lib", "pkgconfig"})
        self.assertEqual(self.run_script("include/install", "--uninstall", self.prefix)[0], 1)

    def test_the_file_of_another_stays(self):
        for name in ("include/aclc.h", "share/man/man3/aclc.3"):
            (self.prefix / name).parent.mkdir(parents=True)
            (self.prefix / name).write_text("other")
            code, said = self.run_script("include/install", self.prefix)
            self.assertEqual((code, f"{name} already" in said, self.files()), (1, True, {name}), said)
            shutil.rmtree(self.prefix)
        self.assertEqual(self.run_script("include/install", self.prefix)[0], 0)

    def test_an_installation_that_stops_is_told_and_can_be_removed(self):
        (self.prefix / "lib").mkdir(parents=True)
        (self.prefix / "lib" / "pkgconfig").write_text("other")
        (self.prefix / "share").mkdir()
        (self.prefix / "share" / "man").write_text("other")
        code, said = self.run_script("include/install", self.prefix)
        self.assertEqual((code, "are below" in said), (1, False), said)
        self.assertEqual(self.run_script("include/install", "--uninstall", self.prefix)[0], 0)
        self.assertEqual(self.files(), {"lib/pkgconfig", "share/man"})

    def test_the_shared_library_exports_the_calls_of_its_header_alone(self):
        self.run_script("include/install", self.prefix)
        names = {f"{name}@@{SINCE.get(name, 'ACLC_1')}" for _, name, _ in calls()}
        self.assertEqual(exported(self.prefix / "lib" / "libaclc.so.1"), names)

    def test_the_loader_refuses_older_processors(self):
        self.run_script("include/install", self.prefix)
        program = self.folder / "program"
        compile_c("int aclc_version(void);\nint main(void) { return aclc_version(); }\n", "-o", program,
                  self.prefix / "lib" / "libaclc.so.1", f"-Wl,-rpath,{self.prefix / 'lib'}")
        for file in (self.prefix / "lib" / "libaclc.so.1", program):
            wanted = "x86-64-v2" in done(["readelf", "-n", file])[1]
            self.assertEqual(wanted, file != program, file)
        if shutil.which("qemu-x86_64"):
            for processor, status in (("core2duo", 127), ("Nehalem", 0)):
                code, said = done(["qemu-x86_64", "-cpu", processor, program])
                self.assertEqual((code, "CPU ISA level is lower than required" in said), (status, status != 0), said)

    @unittest.skipUnless(shutil.which("cmake"), "there is no cmake")
    def test_cmake_links_with_the_shared_library_or_as_a_component_says_with_the_archive(self):
        self.run_script("include/install", self.prefix)
        source = self.folder / "source"
        source.mkdir()
        (source / "main.c").write_text("#include <aclc.h>\nint main(void) { return (int)aclc_version(); }\n")
        (source / "CMakeLists.txt").write_text("cmake_minimum_required(VERSION 3.16)\nproject(tried C)\n"
                                               "find_package(aclc REQUIRED COMPONENTS ${KIND})\nadd_executable(main main.c)\n"
                                               "target_link_libraries(main aclc::aclc)\n")
        for kind, wanted in (("", True), ("shared", True), ("static", False), ("odd", None)):
            build = self.folder / f"build{kind}"
            words = ["cmake", "-S", source, "-B", build, f"-DKIND={kind}", f"-DCMAKE_PREFIX_PATH={self.prefix}"]
            code, said = done(words)
            self.assertEqual((code == 0, "and not odd" in said), (wanted is not None, wanted is None), said)
            if wanted is not None:
                code, said = done(["cmake", "--build", build])
                self.assertEqual(code, 0, said)
                self.assertEqual("libaclc.so.1" in done(["readelf", "-d", build / "main"])[1], wanted, kind)

    def test_an_archive_that_lacks_a_call_is_refused(self):
        make_archive(self.kit / "made.a", without=["aclc_proved_save"])
        code, said = self.run_script("include/install", self.prefix)
        self.assertNotEqual(code, 0)
        self.assertIn("undefined reference to `aclc_proved_save'", said)
        self.assertEqual(self.files(), set())

    def test_a_wrong_use_is_refused(self):
        for words in ((), ("",), ("--help",), ("a", "b"), ("--uninstall",), ("--uninstall", "a", "b")):
            code, said = self.run_script("include/install", *words)
            self.assertEqual((code, said.count("\n")), (2, 1), said)
        for name, words, more in (("libraries", ("a",), {}), ("libraries", ("a", "b"), {}), ("build_files", ("a",), {}),
                                  ("make", (), {}), ("make", ("-v",), {}), ("try", (), {})):
            code, said = self.run_script(f"packaging/{name}", *words, **more)
            self.assertEqual((code, said.count("\n")), (2, 1), said)

    @unittest.skipUnless(all(map(shutil.which, ("git", "gcc", "dpkg-deb", "dpkg-shlibdeps", "pkg-config"))), "no packages are made here")
    def test_packages_are_of_one_commit(self):
        """A checkout with a change, or a file that git doesn't know, is refused before anything is proved or written."""
        git = ["git", "-C", str(self.folder), "-c", "user.name=x", "-c", "user.email=x@example.org"]
        for words in (["init", "-q"], ["add", "VERSION", "LICENSE"], ["commit", "-q", "-m", "all"]):
            self.assertEqual(done([*git, *words])[0], 0)
        code, said = self.run_script("packaging/make", self.folder / "packages", PAGE="no")
        self.assertEqual((code, "isn't as it was committed" in said), (1, True), said)
        done([*git, "add", "."])
        done([*git, "commit", "-q", "-m", "rest"])
        (self.folder / "LICENSE").write_text("changed")
        code, said = self.run_script("packaging/make", self.folder / "packages", PAGE="no")
        self.assertEqual((code, "of no commit:  M LICENSE" in said), (1, True), said)
        done([*git, "commit", "-q", "-a", "-m", "changed"])
        code, said = self.run_script("packaging/make", self.folder / "packages", PAGE="no")
        self.assertEqual((code, "isn't as it was committed" in said), (1, False), said)
        self.assertEqual(self.run_script("packaging/make", self.folder / "packages", PAGE="maybe")[0], 2)

    def test_a_folder_that_pkg_config_or_cmake_would_misread_is_refused(self):
        for name in ("a&b", "a|b", "a#b", "a;b", "a$b", 'a"b', "a\\b", "a\nb", "a\n", "a\tb", "a ", "a&b/c"):
            code, said = self.run_script("include/install", self.folder / "odd" / name)
            self.assertEqual((code, "would read another folder" in said), (2, True), said)
        self.assertFalse((self.folder / "odd").exists())

    @unittest.skipUnless(shutil.which("pkg-config"), "there is no pkg-config")
    def test_pkg_config_finds_a_folder_whose_name_has_blanks(self):
        self.prefix = self.folder / "it's of two  words"
        self.assertEqual(self.run_script("include/install", self.prefix)[0], 0)
        _, flags = done(["pkg-config", "--cflags", "--libs", "aclc-compat"],
                        env={**os.environ, "PKG_CONFIG_PATH": str(self.prefix / "lib" / "pkgconfig")})
        for name in ("include", "include/aclc/compat", "include/aclc/compat/without_dpdk"):
            self.assertIn(f"-I{self.prefix / name}", shlex.split(flags))
        self.assertIn(f"-L{self.prefix / 'lib'}", shlex.split(flags))

    def test_a_release_of_dpdk_that_is_not_there_is_refused(self):
        self.run_script("include/install", self.prefix)
        for abi in ("23", "24", "26", "x"):
            code, said = self.run_script("packaging/libraries", self.prefix, self.folder / "out", ABI=abi)
            self.assertEqual((code, said.count("\n")), (2, 1), said)
            self.assertIn(f"ABI={abi} needs" if abi in ("23", "24") else "ABI is 23, 24 or 25", said)

    def test_a_built_program_runs_over_the_library_or_is_refused(self):
        library = self.prefix / "lib" / "aclc" / "dpdk-23" / "librte_acl.so.23"
        library.parent.mkdir(parents=True)
        (self.prefix / "bin").mkdir()
        shutil.copy(TOP / "packaging" / "aclc-dpdk", self.prefix / "bin")
        ours, theirs, other, old = (self.folder / name for name in ("ours", "theirs", "other", "librte_acl.so.22"))
        compile_c("int answer(void) { return 7; }\n", "-shared", "-Wl,-soname,librte_acl.so.23", "-o", library)
        code = "int answer(void);\nint main(void) { return answer(); }\n"
        compile_c(code, "-o", ours, library)
        compile_c("int answer(void) { return 8; }\n", "-shared", f"-Wl,-soname,{old.name}", "-o", old)
        compile_c(code, "-o", theirs, old, f"-Wl,-rpath,{self.folder}")
        compile_c("int main(void) { return 0; }\n", "-o", other)
        start = self.prefix / "bin" / "aclc-dpdk"
        self.assertEqual(done([start]), (0, f"{os.path.realpath(library.parent)}\n"))
        self.assertEqual(done([start, ours])[0], 7)
        for program, why in ((theirs, "another release"), (other, "doesn't load"), (start, "isn't a program"),
                             ("no", "there is no")):
            code, said = done([start, program])
            self.assertEqual((code, why in said), (2, True), said)
        ours.chmod(0o4755)
        self.assertEqual(done([start, ours])[0], 2)


if __name__ == "__main__":
    unittest.main()
