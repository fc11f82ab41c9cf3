#!/usr/bin/env python3
"""test.py: what host/build and host/install put in place, from a folder that was moved: the command with pack, its man page and completions, the shared
library, the CMake package; and what is there after an install that fails: nothing."""
import os
import re
import shutil
import subprocess
import sys
import tempfile
import unittest
from pathlib import Path

HERE = Path(__file__).resolve().parent
HOST, ROOT = HERE.parent, HERE.parents[1]
sys.dont_write_bytecode = True
sys.path[:0] = [str(HERE), str(HOST / "first")]
import pages  # noqa: E402
from terminal import Terminal  # noqa: E402

EXPECTED = """bin/nuvaleta include/nuvaleta.h lib/cmake/Nuvaleta/NuvaletaConfig.cmake lib/cmake/Nuvaleta/NuvaletaConfigVersion.cmake lib/libnuvaleta.a
lib/libnuvaleta.so lib/libnuvaleta.so.KEPT lib/libnuvaleta.so.VERSION lib/pkgconfig/nuvaleta-shared.pc lib/pkgconfig/nuvaleta.pc libexec/nuvaleta/pack
share/bash-completion/completions/nuvaleta share/man/man1/nuvaleta.1 share/zsh/site-functions/_nuvaleta"""
VERSION = re.search(r'^version = "(.*)"$', (HOST / "rust/Cargo.toml").read_text(), re.M)[1]
MAJOR, MINOR = VERSION.split(".")[:2]
KEPT = MAJOR if MAJOR != "0" else f"0.{MINOR}"
PROJECT = """cmake_minimum_required(VERSION 3.13)
project(try C)
find_package(Nuvaleta {asked} REQUIRED)
foreach(one nuvaleta shared)
    add_executable(with_${{one}} example.c)
    target_link_libraries(with_${{one}} PRIVATE Nuvaleta::${{one}})
endforeach()
"""


def run(*words, **more):
    return subprocess.run([str(word) for word in words], capture_output=True, text=True, **more)


def there(folder):
    return sorted(str(path.relative_to(folder)) for path in Path(folder).rglob("*") if path.is_symlink() or not path.is_dir())


class Package(unittest.TestCase):
    def needs(self, tool, what):
        """A program that this test needs, and that Debian has under the same name."""
        if not shutil.which(tool) and run(HOST / "need", tool).returncode != 0:
            print(f"package: SKIPPED, no {tool}: {what}")
            self.skipTest(tool)

    @classmethod
    def setUpClass(cls):
        cls.room = Path(tempfile.mkdtemp())
        cls.addClassCleanup(shutil.rmtree, cls.room)
        subprocess.run([HOST / "build"], check=True, stdout=subprocess.DEVNULL)
        subprocess.run([HOST / "install", cls.room / "first"], check=True, stdout=subprocess.DEVNULL)
        cls.prefix = cls.room / "a prefix"
        (cls.room / "first").rename(cls.prefix)
        cls.env = {"PATH": "/usr/bin:/bin", "HOME": str(cls.room)}

    # ---- what is installed

    def test_all_is_there(self):
        expected = EXPECTED.replace("KEPT", KEPT).replace("VERSION", VERSION).split()
        self.assertEqual([name for name in there(self.prefix) if name in expected or not name.startswith("libexec/")], expected)
        self.assertEqual([name for name in there(self.prefix / "libexec/nuvaleta") if "test" in name], [])
        links = {path.name: os.readlink(path) for path in self.prefix.rglob("*") if path.is_symlink()}
        self.assertEqual(links, {"libnuvaleta.so": f"libnuvaleta.so.{KEPT}", f"libnuvaleta.so.{KEPT}": f"libnuvaleta.so.{VERSION}"})
        self.assertEqual([path for path in (ROOT / "target").rglob("*") if path.is_symlink()], [])  # rt takes no link in a checkout

    def test_a_path_is_printed_for_each_file_to_be_removed(self):
        prefix = self.room / "b prefix"
        told = run(HOST / "install", prefix, umask=0o077)
        self.assertEqual({oct(path.stat().st_mode)[-3:] for path in (prefix, *prefix.rglob("*")) if path.is_dir()}, {"755"})
        listed = run(HOST / "install", "--list", prefix).stdout.splitlines()
        self.assertEqual(told.stdout.splitlines(), [f"install: {path}" for path in listed])
        self.assertEqual(sorted(listed), [str(prefix / name) for name in there(prefix)])
        for path in listed:
            os.remove(path)
        self.assertEqual(there(prefix), [])

    def refused(self, prefix, why, kept, **more):
        """An install that fails says why, and leaves what was there."""
        ran = run(HOST / "install", prefix, **more)
        self.assertEqual((ran.returncode, ran.stdout), (1, ""))
        self.assertIn(why, ran.stderr)
        self.assertEqual(sorted(str(path.relative_to(self.room / "c")) for path in (self.room / "c").rglob("*")), kept)

    def test_an_install_that_fails_leaves_nothing(self):
        room = self.room / "c"
        room.mkdir()
        (room / "file").write_text("")
        self.refused(room / "file", "file is no folder", ["file"])
        self.refused(room / "file/below", "file is no folder", ["file"])
        self.refused("/proc/none", "No such file or directory", ["file"])
        (room / "new/lib/libnuvaleta.a").mkdir(parents=True)
        self.refused(room / "new/", "lib/libnuvaleta.a is a folder", ["file", "new", "new/lib", "new/lib/libnuvaleta.a"])
        if os.getuid() == 0:
            os.chmod(self.room, 0o755)
            (room / "new").chmod(0o555)
            nobody = {"user": 65534, "group": 65534, "extra_groups": []}
            self.refused(room / "new", "Permission denied", ["file", "new", "new/lib", "new/lib/libnuvaleta.a"], **nobody)

    def test_nothing_is_built_yet(self):
        fresh = self.room / "fresh"
        (fresh / "host").mkdir(parents=True)
        shutil.copy(HOST / "install", fresh / "host")
        ran = run(fresh / "host/install", self.room / "d")
        self.assertEqual((ran.returncode, ran.stderr), (1, "install: target/made has nothing to install: host/build makes it\n"))
        self.assertFalse((self.room / "d").exists())

    def test_without_a_new_rust_the_library_alone(self):
        (self.room / "rustc").write_text("#!/bin/sh\necho 'rustc 1.62.1 (old)'\n")
        (self.room / "rustc").chmod(0o755)
        self.addCleanup(run, HOST / "build")
        ran = run(HOST / "build", env={**os.environ, "PATH": f"{self.room}:{os.environ['PATH']}"})
        self.assertEqual((ran.returncode, ran.stderr), (0, "build: no cargo of Rust 1.63 or newer: without the command\n"))
        run(HOST / "install", self.room / "e")
        self.assertEqual(there(self.room / "e"), [name for name in there(self.prefix) if name.startswith(("include/", "lib/"))])

    # ---- the command

    def test_the_command_and_pack(self):
        os.symlink(self.prefix / "bin/nuvaleta", self.room / "linked")
        image, bundle = self.room / "r.image", self.room / "r.bundle"
        for command in (self.prefix / "bin/nuvaleta", self.room / "linked"):
            self.assertEqual(run(command, "--version", env=self.env).stdout, f"nuvaleta {VERSION}\n")
            ran = run(command, "pack", "library", ROOT / "examples/core/library.xml", ROOT / "examples/core", image, bundle, cwd=self.room, env=self.env)
            self.assertEqual(ran.returncode, 0, ran.stderr)
            self.assertEqual(run(command, "order", image, bundle, env=self.env).stdout, (ROOT / "examples/core.order").read_text())
            self.assertEqual(run(command, "--json", "pack", "show", image, env=self.env).stdout[:9], '{"bytes":')
            for words in (("help", "pack"), ("pack", "--help")):
                self.assertEqual(run(command, *words, env=self.env).stdout, run(HOST / "pack/pack", "--help").stdout)
            self.assertEqual(run(command, "pack", env=self.env).returncode, 2)

    def test_all_that_it_is_built_from_is_summed(self):
        """What cargo says that the command is built from, against what built.sh sums to see a change."""
        rust = HOST / "rust"
        summed = [(rust / name).resolve() for name in re.search(r"find -L (.+?) -type f", (rust / "built.sh").read_text())[1].split()]
        told = (rust / "build/release/nuvaleta.d").read_text().rstrip("\n").partition(": ")[2]
        files = [Path(name.replace("\\ ", " ")).resolve() for name in re.split(r"(?<!\\) ", told)]
        self.assertIn(rust / "src/main.rs", files)
        self.assertEqual([file for file in files if file.suffix != ".a" and not any(one in (file, *file.parents) for one in summed)], [])

    # ---- its pages

    def helps(self):
        names = [page.name for page in pages.read_pages()[1]]
        self.assertEqual(sorted([*names, "nuvaleta"]), sorted(file.stem for file in (HOST / "rust/src/help").glob("*.txt")))
        return {name: run(self.prefix / "bin/nuvaleta", name, "--help", env=self.env).stdout for name in names}

    def test_the_man_page_says_what_help_says(self):
        self.needs("groff", "the man page as it is shown")
        ran = run("groff", "-ww", "-man", "-Tascii", "-P-c", self.prefix / "share/man/man1/nuvaleta.1")
        self.assertEqual((ran.returncode, ran.stderr), (0, ""))
        page = re.sub(r".\x08", "", ran.stdout)
        self.assertIn(f"nuvaleta {VERSION}", page)
        whole = "".join(page.split())
        for name, told in {"": run(self.prefix / "bin/nuvaleta", "help").stdout, **self.helps()}.items():
            for part in told.removeprefix("usage: ").split("\n\n"):
                if name or not part.startswith("nuvaleta"):
                    self.assertIn("".join(part.split()), whole, name)

    def completed(self, *words):
        """What bash offers for the last of these words."""
        file = self.prefix / "share/bash-completion/completions/nuvaleta"
        script = 'source "$0"; COMP_WORDS=("$@"); COMP_CWORD=$(($# - 1)); _nuvaleta; printf "%s\\n" "${COMPREPLY[@]}"'
        ran = run("bash", "-uc", script, file, "nuvaleta", *words, cwd=ROOT / "examples", env=self.env)
        self.assertEqual((ran.returncode, ran.stderr), (0, ""))
        return sorted(filter(None, ran.stdout.splitlines()))

    def offered(self, *words):
        """What zsh's function has to offer for the last of these words, with functions in the place of zsh's own that print it."""
        script = ('compadd() { shift; print -l -- "$@" }; _describe() { print -l -- ${${(P)2}%%:*} }; _files() { print -l -- files $* }; '
                  'file=$1; shift; words=("$@"); CURRENT=$#; source $file')
        ran = run("zsh", "-fc", script, "zsh", self.prefix / "share/zsh/site-functions/_nuvaleta", "nuvaleta", *words, env=self.env)
        self.assertEqual(ran.stderr, "")
        return sorted(ran.stdout.splitlines())

    def test_completion_in_bash(self):
        helps = self.helps()
        self.assertEqual(self.completed(""), sorted([*helps, "help"]))
        self.assertEqual(self.completed("--json", "expl"), ["explain"])
        self.assertEqual(self.completed("help", "gra"), ["graph"])
        self.assertEqual(self.completed("--v"), ["--version"])
        self.assertEqual(self.completed("meta", "--w"), ["--whole"])
        self.assertEqual(self.completed("order", "--into", ""), ["core", "edge", "twice"])
        self.assertEqual(self.completed("explain", "7", "--at", ""), [])
        self.assertEqual(self.completed("nonsense", ""), [])
        self.assertEqual(self.completed("order", "cor"), [])  # which leaves it to bash: files
        for name, told in helps.items():
            usage = set(re.findall(r"--[a-z-]+", told.split("\n\n")[0])) | {"--help"}
            self.assertLessEqual(usage, set(self.completed(name, "-")), name)
        for name in ("order", "pack"):
            self.assertEqual(self.completed(name, "--all", "--"), self.completed(name, "--"), name)

    def test_completion_in_zsh(self):
        self.needs("zsh", "its completion")
        helps = self.helps()
        self.assertEqual(self.offered(""), sorted([*helps, "help"]))
        self.assertEqual(self.offered("help", "gra"), sorted(helps))
        self.assertEqual(self.offered("order", "--into", ""), ["-/", "files"])
        self.assertEqual(self.offered("explain", "7", "--at", ""), [])
        self.assertEqual(self.offered("order", "cor"), ["files"])
        for name in helps:
            self.assertEqual(self.offered(name, "-"), self.completed(name, "-"))
        self.assertEqual(self.offered("order", "--all", "-"), self.offered("order", "-"))
        terminal = Terminal(["zsh", "-fi"], cwd=ROOT / "examples", env={**self.env, "FPATH_OWN": f"{self.prefix}/share/zsh/site-functions"})
        self.addCleanup(terminal.kill)
        terminal.type("fpath=($FPATH_OWN $fpath); autoload -Uz compinit; compinit -u -D; PS1='> '; echo re''ady\n")
        self.assertTrue(terminal.until(lambda one: any(line.endswith("ready") for _, line in one.lines), 60))
        terminal.type("nuvaleta expl\t")
        self.assertTrue(terminal.until(lambda one: "explain" in one.last, 60), terminal.last)

    # ---- the library

    def test_the_shared_library(self):
        library = self.prefix / "lib" / f"libnuvaleta.so.{VERSION}"
        calls = sorted(set(re.findall(r"^\w[\w ]*\b(nuvaleta_\w+)\(", (self.prefix / "include/nuvaleta.h").read_text(), re.M)))
        self.assertEqual(len(calls), 14)
        offered = [line.split()[1:] for line in run("nm", "-D", "--defined-only", library).stdout.splitlines()]
        self.assertEqual(sorted(offered), [["T", call] for call in calls])
        told = run("readelf", "-dlW", library).stdout
        self.assertIn(f"soname: [libnuvaleta.so.{KEPT}]", told)
        self.assertNotIn("TEXTREL", told)
        self.assertNotIn("RWE", told)
        shared = self.prefix / "lib/shared"  # so that the snippets' `nuvaleta` is the shared one
        shared.mkdir()
        self.addCleanup(shutil.rmtree, shared)
        shutil.copy(self.prefix / "lib/pkgconfig/nuvaleta-shared.pc", shared / "nuvaleta.pc")
        env = {**os.environ, "PKG_CONFIG_PATH": str(shared)}
        header = [HOST / "example/snippets.py", self.prefix / "include/nuvaleta.h", "c"]
        self.assertIn("libnuvaleta.so", run(*header, env=env, cwd=self.room).stderr)  # without the library's place they do not start
        ran = run(*header, env={**env, "LD_LIBRARY_PATH": str(self.prefix / "lib")}, cwd=self.room)
        self.assertEqual((ran.returncode, ran.stderr), (0, ""))

    def cmake(self, asked, prefix=None):
        project = self.room / "project"
        shutil.rmtree(project, ignore_errors=True)
        project.mkdir()
        shutil.copy(HOST / "example/example.c", project)
        (project / "CMakeLists.txt").write_text(PROJECT.format(asked=asked))
        ran = run("cmake", "-S", project, "-B", project / "build", f"-DCMAKE_PREFIX_PATH={prefix or self.prefix}", "-DCMAKE_BUILD_TYPE=Release")
        return project / "build", ran

    def test_the_cmake_package(self):
        self.needs("cmake", "the CMake package")
        for asked in ("99", f"{VERSION}.1"):
            _, ran = self.cmake(asked)
            self.assertNotEqual(ran.returncode, 0)
            self.assertIn(f"version: {VERSION}", ran.stderr)
        build, ran = self.cmake(KEPT)
        self.assertEqual(ran.returncode, 0, ran.stderr)
        ran = run("cmake", "--build", build)
        self.assertEqual(ran.returncode, 0, ran.stdout + ran.stderr)
        for one in ("nuvaleta", "shared"):
            ran = run(build / f"with_{one}", ROOT / "examples/core.image", ROOT / "examples/core.bundle")
            self.assertEqual(ran.stdout, (ROOT / "examples/core.order").read_text(), one)
            self.assertEqual("libnuvaleta.so" in run("readelf", "-d", build / f"with_{one}").stdout, one == "shared")
        cut = self.room / "cut"
        shutil.copytree(self.prefix, cut, symlinks=True)
        (cut / "lib/libnuvaleta.a").unlink()
        _, ran = self.cmake(KEPT, cut)
        self.assertIn("lib/libnuvaleta.a is not there", re.sub(r"\s+", " ", ran.stderr))


if __name__ == "__main__":
    unittest.main(argv=["package"], verbosity=0)
