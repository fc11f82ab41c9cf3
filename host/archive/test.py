#!/usr/bin/env python3
"""test.py: how archive.sh calls rt, with a program in its place that says what rt says and proves nothing: when an archive is kept, what is seen on a terminal
and on a pipe, two calls at once, an interrupt, a proof that fails. Then, with one in the place of cargo too, what the script `nuvaleta` builds when."""
import contextlib
import os
import shutil
import signal
import subprocess
import sys
import tempfile
import time
import unittest
from pathlib import Path

HERE = Path(__file__).resolve().parent
ROOT = HERE.parents[1]
WAIT = 60  # seconds, for a machine that is busy
sys.dont_write_bytecode = True
sys.path.insert(0, str(HERE.parent / "first"))
from terminal import Terminal  # noqa: E402

# As rt does: `lib` in the folder of a crate proves those that it depends on, each behind its own ones, says nothing of one that is as it was (KEPT), and then
# proves the crate; of a static library it writes the archive. Each crate takes PAUSE seconds, in the background, and so does the archive, which is half there
# meanwhile. What it reads is not the caller's.
STAND_IN = r"""#!/bin/sh
cat >/dev/null
echo "$* in ${PWD##*/}" >>"$CALLS"
below() {
    for it in $(sed -n "s/^$1\( staticlib\)*://p" ../../crates.txt); do [ ! -d "../$it" ] || { (below "$it") && echo "$it"; }; done
}
case $1 in
doc) echo "$KIT/START-HERE.md" ;;
lib)
    name=${PWD##*/}
    is_static=$(grep "^$name staticlib:" ../../crates.txt)
    archive=out/lib$name.a
    mkdir -p out
    [ -z "$is_static" ] || echo half >"$archive"
    for crate in $(below "$name" | awk '!seen[$0]++') "$name"; do
        case " ${KEPT:-} " in *" $crate "*) continue ;; esac
        sleep "$PAUSE" &
        wait
        echo "fn $crate::f: proved"
        echo "library another: modules loaded=3 checked=0"
        echo "crate $crate: modules loaded=0 checked=3"
        [ "$crate" != "${FAILS:-}" ] || {
            echo "logic=not-proved" && echo "rt: the library $crate did not build, so nothing above it was checked" >&2 && exit 1
        }
        echo "logic=proved functions=1"
    done
    while [ -n "${HELD_BY:-}" ] && [ ! -e "$HELD_BY" ]; do sleep 0.05; done
    sleep "$PAUSE" &
    wait
    [ -z "$is_static" ] || echo "whole $(cat "$CALLS" | wc -l)" >"$archive"
    # What compiles it, in the kit in which this program lies.
    "$(dirname "$(readlink -f "$0")")/../toolchain/bin/clang" --target=x86_64-unknown-linux-gnu -march=x86-64 -Werror -c "a module.bc"
    ;;
*) exit 2 ;;
esac
"""
CLANG = """#!/bin/sh
echo "clang $*" >>"$CALLS"
echo 'a warning' >&2
"""
FILES = {"crates.txt": "# floor\nlow:\nmiddle: low\nprobe: middle io\nprobe_c staticlib: low probe\nother: low\n", "crates/low/src/lib.rt": "low",
         "crates/middle/src/lib.rt": "middle", "crates/middle/specs/Lib.antt": "specs", "crates/middle/proofs/deep/Proof.antt": "proof",
         "crates/probe/src/lib.rt": "probe", "crates/probe_c/src/lib.rt": "probe_c", "crates/other/src/lib.rt": "other", "elsewhere": "linked"}


class Repository(unittest.TestCase):
    """A small repository of Rattle, with a program in the place of rt."""
    FILES, input = FILES, ""

    def setUp(self):
        room = tempfile.TemporaryDirectory()
        self.addCleanup(room.cleanup)
        self.room = Path(room.name)
        self.repository = self.room / "a repository"
        for name, text in self.FILES.items():
            self.write(name, text)
        self.program("kit/bin/rt", STAND_IN)
        self.program("kit/toolchain/bin/clang", CLANG)
        (self.room / "kit/bin/rtlib.py").touch()
        (self.room / "bin").mkdir()
        os.symlink(self.room / "kit/bin/rt", self.room / "bin/rt")
        self.env = {**os.environ, "PATH": f"{self.room}/bin:{os.environ['PATH']}", "CALLS": f"{self.room}/calls", "KIT": f"{self.room}/kit", "PAUSE": "0"}

    def write(self, name, text):
        path = self.repository / name
        path.parent.mkdir(parents=True, exist_ok=True)
        path.write_text(text)

    def program(self, name, text):
        path = self.room / name
        path.parent.mkdir(parents=True, exist_ok=True)
        path.write_text(text)
        path.chmod(0o755)

    def piped(self, *words, **env):
        return subprocess.run(words, cwd=self.repository, env={**self.env, **env}, capture_output=True, text=True, input=self.input)

    def on_terminal(self, *words, **env):
        terminal = Terminal(words, cwd=self.repository, env={**self.env, **env})
        self.addCleanup(terminal.kill)
        return terminal

    def calls(self):
        calls = self.room / "calls"
        return [line.split() for line in calls.read_text().splitlines()] if calls.exists() else []

    def bare(self):
        """A path with what a call needs that finds nothing changed; neither rt nor cargo."""
        folder = self.room / "bare"
        folder.mkdir(exist_ok=True)
        for tool in "awk cat dirname find readlink sed sha256sum sh sort uname".split():
            if not (folder / tool).exists():
                os.symlink(shutil.which(tool), folder / tool)
        return str(folder)

    def until(self, seen, wait=WAIT):
        end = time.monotonic() + wait
        while not seen() and time.monotonic() < end:
            time.sleep(0.01)

    def left(self, *but):
        """The processes that are still there of those that were begun here, but for these; they have a moment to end."""
        self.until(lambda: not set(self.begun()) - set(but), 10)
        return sorted(set(self.begun()) - set(but))

    def begun(self):
        found = []
        for environ in Path("/proc").glob("[0-9]*/environ"):
            try:
                if f"CALLS={self.room}/calls".encode() in environ.read_bytes():
                    found.append(int(environ.parent.name))
            except OSError:
                pass
        return found


class Archive(Repository):
    def setUp(self):
        super().setUp()
        os.symlink(self.repository / "elsewhere", self.repository / "crates/low/src/linked.rt")
        self.archive = self.repository / "target/staticlib/libprobe.a"
        self.made = self.repository / "crates/probe_c/out/libprobe_c.a"

    def words(self, processor="x86_64"):
        return [str(HERE / "archive.sh"), "--kept", "probe", processor]

    def run_piped(self, **env):
        return self.piped(*self.words(), **env)

    def is_kept(self):
        """Whether a call takes what is there; one that does not builds it."""
        before = len(self.calls())
        self.assertEqual(self.run_piped().returncode, 0)
        return len(self.calls()) == before

    def test_what_is_no_source_is_kept(self):
        self.run_piped()
        for name in ("crates/probe/notes.txt", "crates/probe/src/lib.rt~", "crates/probe/src/.lib.rt.swp", "crates/middle/proofs/deep/Proof.antt.orig",
                     "crates/unlisted/src/lib.rt", "crates/other/src/lib.rt", "crates/probe/must-fail/x.edit", "crates/low/data/x", "notes.txt"):
            self.write(name, "stray")
            self.assertTrue(self.is_kept(), name)
        self.write("crates.txt", FILES["crates.txt"].replace("# floor", "# another floor").replace("other: low", "other: middle"))
        self.assertTrue(self.is_kept())

    def test_what_is_a_source_is_not(self):
        self.run_piped()
        for name in ("crates/probe/src/lib.rt", "crates/low/src/lib.rt", "crates/middle/specs/Lib.antt", "crates/middle/proofs/deep/Proof.antt", "elsewhere",
                     "crates/middle/src/new.rt", "crates/probe/specs/Lib.antt", "crates/probe/proofs/new/Proof.antt", "crates/probe_c/src/lib.rt",
                     "target/staticlib/libprobe.a"):
            self.write(name, "changed")
            self.assertFalse(self.is_kept(), name)
            self.assertTrue(self.is_kept(), name)
        (self.repository / "crates/middle/src/new.rt").rename(self.repository / "crates/middle/src/named.rt")
        self.assertFalse(self.is_kept())
        self.write("crates.txt", FILES["crates.txt"].replace("probe: middle", "probe: middle other"))
        self.assertFalse(self.is_kept())
        (self.repository / "crates/middle/src/named.rt").unlink()
        self.assertFalse(self.is_kept())

    def test_it_is_made_of_the_static_library(self):
        self.run_piped()
        self.assertEqual(self.calls()[0], ["lib", "--cpu=x86-64", "in", "probe_c"])
        self.assertEqual((self.text_of(self.archive), self.made.exists()), ("whole 1\n", False))
        self.write("crates.txt", FILES["crates.txt"].replace("probe_c staticlib:", "probe_c:").replace("probe:", "probe staticlib:"))
        self.run_piped()
        self.assertEqual([call[0] for call in self.calls()], ["lib", "clang"] * 2)
        self.assertEqual(self.calls()[2], ["lib", "--cpu=x86-64", "in", "probe"])
        self.write("crates.txt", "other:\n")
        ran = self.run_piped()
        self.assertEqual((ran.returncode, ran.stdout, ran.stderr), (2, "", "archive: crates.txt has no crate probe\n"))

    def test_another_processor(self):
        for processor, lib, clang in (
                ("x86_64", "lib --cpu=x86-64", "--target=x86_64-unknown-linux-gnu -march=x86-64 -Werror -c a module.bc"),
                ("aarch64", "lib --target aarch64-unknown-linux-gnu", "--target=x86_64-unknown-linux-gnu -march=x86-64 -Werror -c a module.bc"),
                ("riscv64", "lib --cpu=x86-64", "--target=riscv64-unknown-linux-gnu -Wno-override-module -c a module.bc")):
            ran = self.piped(*self.words(processor))
            where = self.archive.parent / ("" if processor == "x86_64" else processor)
            self.assertEqual((ran.returncode, ran.stdout), (0, f"{where}/libprobe.a\n"), ran.stderr)
            self.assertEqual([" ".join(call) for call in self.calls()[-2:]], [f"{lib} in probe_c", f"clang {clang}"])
        ran = self.piped(str(HERE / "archive.sh"), "--covered", "probe", "x86_64")
        self.assertEqual((ran.returncode, ran.stdout), (0, f"{self.archive.parent}/covered/x86_64/libprobe.a\n"))
        self.assertRegex(" ".join(self.calls()[-1]), r"^clang --target=x86_64-unknown-linux-gnu -march=x86-64 -Werror -c a module.bc -fsanitize-coverage=\S+$")
        self.assertTrue(self.is_kept())  # all of them stand beside each other

    def test_a_pipe_has_one_line(self):
        ran = self.run_piped()
        self.assertEqual((ran.returncode, ran.stdout), (0, f"{self.archive}\n"))
        self.assertEqual(ran.stderr, "probe: proving and building, once; this takes some minutes\n")
        self.assertEqual(self.run_piped().stderr, "")

    def test_a_terminal_has_a_line_for_each_crate_and_the_time(self):
        terminal = self.on_terminal(*self.words(), PAUSE="1.1")
        self.assertEqual(terminal.end(WAIT), 0)
        lines = [line for _, line in terminal.lines]
        self.assertEqual(lines[0], "probe: proving and building, once; this takes some minutes")
        for line, told in zip(lines[1:], ("1 of 4, low", "2 of 4, middle", "3 of 4, probe", "4 of 4, probe_c")):
            self.assertRegex(line, rf"^{told}, [12] s$")
        self.assertEqual(lines[5:], [str(self.archive)])
        self.assertRegex(" ".join(terminal.held.values()), r"0 of 4 proved, \d+ s so far.*2 of 4 proved, \d+ s so far")

    def test_crates_that_are_as_they_were_are_counted_with_the_next_one(self):
        terminal = self.on_terminal(*self.words(), KEPT="low probe")
        self.assertEqual(terminal.end(WAIT), 0)
        self.assertEqual([line[:4] + line.split(",")[1] for _, line in terminal.lines[1:-1]], ["2 of middle", "4 of probe_c"])

    def test_a_plain_terminal_has_no_line_that_is_written_over(self):
        terminal = self.on_terminal(*self.words(), PAUSE="0.1", TERM="dumb")
        self.assertEqual(terminal.end(WAIT), 0)
        self.assertEqual(terminal.held, {})
        self.assertRegex([line for _, line in terminal.lines][1], r"^1 of 4, low, [01] s$")

    @staticmethod
    def text_of(path):
        try:
            return path.read_text()
        except FileNotFoundError:
            return None

    def is_half(self):
        """Whether rt is at the archive."""
        return self.text_of(self.made) == "half\n"

    def interrupted(self, seen, how, processor="x86_64"):
        """A call that is ended once `seen` is true leaves no process and no archive but the one that was there; the next one goes through."""
        before = self.text_of(self.archive)
        self.made.unlink(missing_ok=True)
        # The terminal's own shell stays: with it the system would end all that is left on the terminal.
        terminal = self.on_terminal("sh", "-c", 'trap : INT TERM; "$@"; echo "ended $?"; read -r _', "sh", *self.words(processor), PAUSE="30")
        self.assertTrue(terminal.until(seen, WAIT))
        how(terminal)
        self.assertTrue(terminal.until(lambda one: any(line.endswith("ended 130") for _, line in one.lines), WAIT), terminal.lines)
        self.assertEqual(self.left(terminal.pid), [])
        terminal.type("\n")
        terminal.end(WAIT)
        there = sorted(str(path.relative_to(self.archive.parent)) for path in self.archive.parent.rglob("*") if path.is_file())
        self.assertEqual(there, [] if before is None else ["libprobe.a", "libprobe.a.sums"])
        self.assertEqual(self.text_of(self.archive), before)

    def test_an_interrupt_leaves_nothing(self):
        def half(_):
            return self.is_half()

        def proving(terminal):
            return "proved" in terminal.last
        self.interrupted(proving, Terminal.interrupt)
        self.interrupted(proving, lambda terminal: os.killpg(terminal.pid, signal.SIGTERM))
        self.interrupted(half, Terminal.interrupt)
        self.assertEqual(self.run_piped().returncode, 0)
        self.write("crates/probe/src/lib.rt", "changed")
        self.interrupted(half, Terminal.interrupt)
        self.interrupted(half, Terminal.interrupt, "riscv64")
        self.assertEqual(self.run_piped().returncode, 0)

    def held(self):
        """The file that rt waits for before the archive is whole, and how a call is begun that waits so."""
        held_by = self.room / "go on"
        return held_by, {"cwd": self.repository, "env": {**self.env, "HELD_BY": str(held_by)}, "stdout": subprocess.PIPE, "stderr": subprocess.PIPE,
                         "text": True}

    def test_a_source_that_changes_meanwhile(self):
        held_by, begun = self.held()
        with subprocess.Popen(self.words(), **begun) as first:
            self.until(self.is_half)
            self.write("crates/probe/src/lib.rt", "changed")
            held_by.touch()
            self.assertEqual(first.communicate(timeout=WAIT)[0], f"{self.archive}\n")
        self.assertFalse(self.is_kept())

    def test_a_call_that_was_killed(self):
        self.run_piped()
        with subprocess.Popen(self.words("riscv64"), **self.held()[1]):
            self.until(self.is_half)
            while processes := self.begun():
                for process in processes:
                    with contextlib.suppress(ProcessLookupError):  # some last a moment only
                        os.kill(process, signal.SIGKILL)
        self.assertEqual(self.piped(*self.words("riscv64")).returncode, 0)
        self.assertTrue(self.is_kept())

    def test_the_second_of_two_waits(self):
        held_by, begun = self.held()
        with subprocess.Popen(self.words(), **begun) as first:
            self.assertIn("proving", first.stderr.readline())
            with subprocess.Popen(self.words(), **begun) as second:
                self.assertEqual(second.stderr.readline(), "probe: waiting for another build\n")
                held_by.touch()
                told = [one.communicate(timeout=WAIT) for one in (first, second)]
        self.assertEqual(told, [(f"{self.archive}\n", "")] * 2)
        self.assertEqual([call[0] for call in self.calls()], ["lib", "clang"])  # once

    def test_a_proof_that_fails_is_shown(self):
        ran = self.run_piped(FAILS="middle")
        self.assertEqual((ran.returncode, ran.stdout), (1, ""))
        last = "rt: the library middle did not build, so nothing above it was checked"
        said = [line for crate in ("low", "middle") for line in (f"fn {crate}::f: proved", "library another: modules loaded=3 checked=0",
                                                                  f"crate {crate}: modules loaded=0 checked=3")]
        self.assertEqual(ran.stderr.splitlines()[1:], [*said[:3], "logic=proved functions=1", *said[3:], "logic=not-proved", last])
        self.assertFalse(self.archive.exists())
        terminal = self.on_terminal(*self.words(), FAILS="middle")
        self.assertEqual(terminal.end(WAIT), 1)
        self.assertEqual([line for _, line in terminal.lines][-1], last)

    def test_no_rt(self):
        ran = self.run_piped(PATH=self.bare())
        self.assertEqual((ran.returncode, ran.stderr), (2, "archive: rt, the command of the Rattle kit, is not on the path\n"))


# Builds a command that prints the number of times that one has been built, its words, and what it reads.
CARGO = """#!/bin/sh
cat >/dev/null
[ -z "${CARGO_BUILD_TARGET:-}${NUVALETA_ARCHIVE:-}" ] || exit 1 # they would have it elsewhere, or of something else
echo "cargo $*" >>"$CALLS"
sleep "$PAUSE"
mkdir -p build/release
printf '#!/bin/sh\\necho %s: "$@"\\ncat\\n' "$(grep -c cargo "$CALLS")" >build/release/nuvaleta
chmod +x build/release/nuvaleta
"""
PACK = """#!/bin/sh
echo "${NUVALETA:-none}: $*"
"""
COPIED = ["nuvaleta", *(f"host/archive/{name}" for name in ("archive.sh", "prove.sh", "link.rs")),
          *(f"host/rust/{name}" for name in ("built.sh", "build.sh", "Cargo.toml"))]


class Command(Repository):
    FILES = {"crates.txt": "nuvaleta:\nnuvaleta_c staticlib: nuvaleta\n", "crates/nuvaleta/src/lib.rt": "nuvaleta",
             "crates/nuvaleta_c/src/lib.rt": "nuvaleta_c", "host/pack/pack": PACK, "host/rust/src/main.rs": "main",
             "host/vectors/src/form.rs": "form",
             "host/rust/src/help/nuvaleta.txt": "all\n", "host/rust/src/help/pack.txt": "usage: nuvaleta pack\n",
             "host/rust/src/help/novel.txt": "usage: nuvaleta novel\n"}

    def setUp(self):
        super().setUp()
        for name in COPIED:
            self.write(name, (ROOT / name).read_text())
            shutil.copymode(ROOT / name, self.repository / name)
        (self.repository / "host/pack/pack").chmod(0o755)
        self.program("bin/cargo", CARGO)
        self.program("bin/cc", "")
        self.command = self.repository / "host/rust/build/release/nuvaleta"

    def expect(self, status, printed, *words, **env):
        """Runs nuvaleta with these words; what it prints is on standard output for status 0, else on standard error."""
        ran = self.piped("./nuvaleta", *words, **env)
        self.assertEqual((ran.returncode, ran.stderr if status else ran.stdout), (status, printed), words)

    def test_once_built_it_needs_neither_cargo_nor_rt(self):
        self.expect(2, "archive: rt, the command of the Rattle kit, is not on the path\n", "a", PATH=self.bare())
        self.expect(0, "1: a b\n", "a", "b", CARGO_BUILD_TARGET="wasm32-wasi", NUVALETA_ARCHIVE="elsewhere")
        self.expect(0, "1: a b\n", "a", "b", PATH=self.bare())
        os.symlink(self.repository / "nuvaleta", self.room / "bin/nuvaleta")
        self.assertEqual(self.piped("nuvaleta", "a").stdout, "1: a\n")
        self.repository = self.repository.rename(self.room / "mov'd \"ä\" repository")
        self.expect(0, "1: a b\n", "a", "b", PATH=self.bare())

    def test_what_builds_it_does_not_read_what_it_is_given(self):
        self.input = "module m {}"
        self.expect(0, "1: deps -\nmodule m {}", "deps", "-")

    def test_it_is_built_again_where_something_has_changed(self):
        self.expect(0, "1:\n")
        for built, name in enumerate(("host/rust/src/main.rs", "host/rust/src/help/new.txt", "host/rust/Cargo.toml", "host/archive/link.rs",
                                      "host/vectors/src/form.rs", "host/rust/build/release/nuvaleta"), 2):
            self.write(name, "changed")
            self.expect(2, "nuvaleta: cargo, Rust's command, is not on the path\n", PATH=self.bare())
            self.expect(0, f"{built}:\n")
        self.write("crates/nuvaleta/src/lib.rt", "changed")
        self.expect(2, "archive: rt, the command of the Rattle kit, is not on the path\n", PATH=self.bare())
        self.expect(0, "8:\n")
        self.write("host/rust/README.md", "no source")
        self.expect(0, "8:\n", PATH=self.bare())

    def test_a_source_that_changes_while_it_is_built(self):
        with subprocess.Popen(["./nuvaleta"], cwd=self.repository, env={**self.env, "PAUSE": "1"}, stdin=subprocess.DEVNULL, stdout=subprocess.DEVNULL,
                              stderr=subprocess.DEVNULL):
            self.until(lambda: any(call[0] == "cargo" for call in self.calls()))
            self.write("host/rust/src/main.rs", "changed")
        self.expect(0, "2:\n")

    def test_help_follows_the_pages(self):
        for words in (("help", "novel"), ("novel", "--help"), ("novel", "-h")):
            self.expect(0, "usage: nuvaleta novel\n", *words)
        self.expect(0, "all\n", "help")
        for words in (("help", "pack"), ("pack", "--help"), ("pack", "-h")):
            self.expect(0, "usage: nuvaleta pack\n", *words)
        self.assertEqual(self.calls(), [])
        for words in (("help", "nuvaleta"), ("help", "../help/novel"), ("help", "none"), ("none", "--help"), ("help",  "novel", "novel")):
            self.expect(0, f"1: {' '.join(words)}\n", *words)  # which it is for the command to refuse

    def test_packing_has_the_command(self):
        for words in ("", "show x", "show-bundle x --json", "folder --help", "--json --help", "library -h", "nonsense"):
            self.expect(0, f"none: {words}\n", "pack", *words.split())
        self.assertEqual(self.calls(), [])
        for words in ("folder a b c", "library a b c d", "--all a b", "--json folder a"):
            self.expect(0, f"{self.command}: {words}\n", "pack", *words.split())
        self.expect(0, f"{self.command}: folder a --json\n", "--json", "pack", "folder", "a")
        self.expect(0, f"{self.command}: folder a --help b\n", "pack", "folder", "a --help b")  # a folder with blanks in its name

    def test_an_interrupt_leaves_nothing(self):
        terminal = self.on_terminal("./nuvaleta", "a", PAUSE="1")
        self.assertTrue(terminal.until(lambda _: any(call[0] == "cargo" for call in self.calls()), WAIT))
        lines = [line for _, line in terminal.lines]
        self.assertRegex(lines[1], r"^nuvaleta: about \d+ minutes on two processors, \d+ GB of memory, \d+ MB of disk$")
        self.assertEqual(lines[-1], "nuvaleta: building the command, which takes some seconds")
        self.assertLessEqual(max(map(len, lines)), 80)
        terminal.interrupt()
        self.assertEqual(terminal.end(WAIT), 130)
        self.assertEqual((self.left(), self.command.exists()), ([], False))
        self.expect(0, "2: a\n", "a")

    def test_a_build_that_fails(self):
        self.program("bin/cargo", "#!/bin/sh\necho no >&2\nexit 101\n")
        self.expect(2, "nuvaleta: proving and building, once; this takes some minutes\nno\n", "a")
        self.expect(2, "no\n", "a")


if __name__ == "__main__":
    unittest.main(argv=["archive"], verbosity=0)
