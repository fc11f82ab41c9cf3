#!/usr/bin/env python3
"""Tests of `nuvaleta order --all`, over the command that build.sh has built: what it prints where, its files, its exit status, on a terminal too."""
import fcntl
import io
import json
import os
import pty
import re
import signal
import subprocess
import sys
import tempfile
import time
import unittest

sys.dont_write_bytecode = True
HERE = os.path.dirname(os.path.abspath(__file__))
COMMAND = os.path.join(HERE, "build", "release", "nuvaleta")
sys.path.insert(0, os.path.join(HERE, "..", "pack"))
import form  # noqa: E402
from form import Module, Set  # noqa: E402

SUMMARY = (r"([\d,]+) routers?: (\d+) in order, (\d+) refused, (\d+) not readable(?:, (\d+) not written)?(?:, (\d+) given up)?; ([\d,]+) schemas?, "
           r"([\d,]+) edges?; \d+\.\d\d s on (\d+) processors?\n")


def line(count):
    """A router of so many modules, each of which imports the next: image, bundle, and the order, which is from the last to the first."""
    names = [f"m{i:03}" for i in range(count)]
    texts = [(own, f"import {after} {{ prefix p; }}".encode()) for own, after in zip(names, names[1:])] + [(names[-1], b"")]
    return form.write_image([Set([Module(name) for name in names])]), form.write_bundle(texts), names[::-1]


def pair(m, b):
    """Two modules with these texts."""
    return form.write_image([Set([Module("m"), Module("b")])]), form.write_bundle([("m", m), ("b", b)])


def nine():
    """Nine small texts, of which each includes the next one 256 times; and their order."""
    names = [f"s{i}" for i in range(1, 9)]
    texts = [(own, b"include %s;" % after.encode() * 256) for own, after in zip(["m", *names], names)] + [(names[-1], b"")]
    return form.write_image([Set([Module("m", names)])]), form.write_bundle(texts), [*names[::-1], "m"]


RING = pair(b"import b{prefix b;}", b"import m{prefix m;}")
CLOSED = pair(b"import b{}", b"")
TWICE = form.write_image([Set([Module("m")]), Set([Module("m", ["s"])])]), form.write_bundle([("m", b"include s;"), ("s", b"")])
RING_SAID = """refused 40: no order of registration: 2 schemas wait for each other in a ring
    m before b
    b before m
To do: in each line the second imports, includes, augments or deviates from the first: one of these has to go
"""
CLOSED_SAID = """refused 25: module m (set 1, entry 1): the text of m, line 1, column 11: an import is closed without prefix (scan refusal 7, byte 10)
    import b{}
              ^
expected prefix NAME; before the end of the block, found }
To do: write `prefix NAME;` inside the braces of the import
"""
ANEW = "To do: make it anew by `nuvaleta pack`. The place is the start of the first wrong number or name, or the first byte too many"
# Names that would break a line, or look like another one; in the order of their bytes.
ODD = {b"l\nm\t": r"l\nm\t", rb"l\nm\t": r"l\\nm\\t", b"n\xc3\xa9\xfe\xc3": r"né\xfe\xc3", b"n\xc3\xa9\xff": r"né\xff"}


def alone():
    """For a child: one processor."""
    os.sched_setaffinity(0, {min(os.sched_getaffinity(0))})


class Case(unittest.TestCase):
    def setUp(self):
        held = tempfile.TemporaryDirectory(prefix="all of ")
        self.addCleanup(held.cleanup)
        self.folder, self.into = (os.path.join(held.name, name) for name in ("routers", "orders"))
        os.mkdir(self.folder)
        os.mkdir(self.into)

    def put(self, name, data):
        with open(os.path.join(self.folder, name), "wb") as file:
            file.write(data)

    def router(self, name, image, bundle):
        self.put(name + ".image", image)
        self.put(name + ".bundle", bundle)

    def held(self, name):
        """A router whose bundle nobody can open from now on: the lease that the test has on it makes whoever opens it wait, for as long as
        /proc/sys/fs/lease-break-time says, mostly 45 seconds (fcntl, F_SETLEASE), longer than any time that is given here. So its process does
        not end by itself, however fast the machine is."""
        self.router(name, *line(1)[:2])
        signal.signal(signal.SIGIO, signal.SIG_IGN)  # by which the holder is told that somebody waits
        file = open(os.path.join(self.folder, name + ".bundle"), "rb", buffering=0)
        self.addCleanup(file.close)
        with open("/proc/sys/fs/lease-break-time", encoding="ascii") as told:
            seconds = int(told.read())
        self.assertGreaterEqual(seconds, 10, "/proc/sys/fs/lease-break-time is below 10 seconds: a lease does not hold as long as this test needs")
        try:
            fcntl.fcntl(file, fcntl.F_SETLEASE, fcntl.F_WRLCK)
        except OSError as error:
            self.fail(f"no lease on {file.name}: {error}. This test needs a filesystem with leases: set TMPDIR to a folder on another one")
        return file

    def lines(self, counts):
        """Routers of so many modules; what is to be printed of all of them."""
        due = ""
        for at, count in enumerate(counts):
            image, bundle, order = line(count)
            self.router(f"r{at:03}", image, bundle)
            due += "".join(f"r{at:03}\t{name}\n" for name in order)
        return due

    def run_it(self, *words, **more):
        ran = subprocess.run([COMMAND, "order", "--all", self.folder, *words], capture_output=True, encoding="utf-8", check=False, timeout=60, **more)
        return ran.returncode, ran.stdout, ran.stderr

    def summary(self, err):
        """The last line of what is said, as numbers; and what comes before it."""
        hit = re.search(r"(?:^|\n)" + SUMMARY + r"\Z", err)
        self.assertTrue(hit, err)
        rest = err[:hit.start() + 1] if hit.start() or err.startswith("\n") else ""
        return [int((n or "0").replace(",", "")) for n in hit.groups()[:8]], rest


class Routers(Case):
    def mixed(self):
        """Good ones, refused ones, halves, and files that cannot be read."""
        self.router("a", *line(3)[:2])
        self.router("b", *RING)
        self.router("c", *CLOSED)
        self.put("d.image", line(1)[0])
        self.put("e.bundle", line(1)[1])
        self.router("f", b"\1", line(1)[1])
        self.router("g", bytes(65_537), bytes(16_777_217))
        self.put("h.bundle", line(1)[1])
        os.mkdir(os.path.join(self.folder, "h.image"))
        self.put("i.image", line(1)[0])
        os.mkfifo(os.path.join(self.folder, "i.bundle"))
        self.router("j k", *line(2)[:2])
        for name in ODD:
            self.router(os.fsdecode(name), *line(1)[:2])
        for other in "notes.txt", ".image", "x.imag":
            self.put(other, b"")

    def test_mixed(self):
        self.mixed()
        status, out, err = self.run_it()
        self.assertEqual(status, 2)
        self.assertEqual(out, "a\tm002\na\tm001\na\tm000\nj k\tm001\nj k\tm000\n" + "".join(f"{name}\tm000\n" for name in ODD.values()))
        counts, rest = self.summary(err)
        self.assertEqual(counts, [14, 6, 4, 4, 0, 0, 9, 3])
        self.assertEqual(rest, f"""b: {RING_SAID}c: {CLOSED_SAID}d: not readable: d.bundle: no such file beside the other half
e: not readable: e.image: no such file beside the other half
f: refused 20: the image breaks its form at byte 1
{ANEW}
g: refused 20: the image has more than 65,536 bytes
{ANEW}
h: not readable: h.image: no plain file
i: not readable: i.bundle: no plain file
""")

    def test_json(self):
        self.mixed()
        status, out, err = self.run_it("--json")
        self.assertEqual((status, err), (2, ""))
        said = [json.loads(one) for one in out.splitlines()]
        self.assertEqual([one.get("router") for one in said], ["a", "b", "c", "d", "e", "f", "g", "h", "i", "j k", *ODD.values(), None])
        self.assertEqual([one.get("order") for one in said], [["m002", "m001", "m000"]] + 8 * [None] + [["m001", "m000"]] + 4 * [["m000"]] + [None])
        self.assertEqual([one.get("refused", {}).get("number") for one in said[:7]], [None, 40, 25, None, None, 20, 20])
        self.assertEqual(said[1]["refused"]["ring"], ["m", "b"])
        self.assertEqual(said[7]["not_readable"], "h.image: no plain file")
        summary = said[-1]["summary"]
        self.assertGreaterEqual(summary.pop("seconds"), 0)
        self.assertIn(summary.pop("processors"), range(1, 1_025))
        self.assertEqual(summary, {"routers": 14, "in_order": 6, "refused": 4, "not_readable": 4, "not_written": 0, "given_up": 0, "schemas": 9, "edges": 3})

    def test_status(self):
        self.router("a", *line(1)[:2])
        status, out, err = self.run_it()
        self.assertEqual((status, out, self.summary(err)), (0, "a\tm000\n", ([1, 1, 0, 0, 0, 0, 1, 0], "")))
        self.router("b", *RING)
        self.assertEqual(self.run_it()[0], 1)
        self.put("c.image", b"")
        self.assertEqual(self.run_it()[0], 2)

    def test_complete(self):
        """A module in two sets, with a submodule in the second alone, is refused but with --complete, in a process of its own too."""
        self.router("a", *line(2)[:2])
        self.router("b", *TWICE)
        for words in (), ("--seconds", "50"):
            status, out, err = self.run_it(*words)
            counts, rest = self.summary(err)
            self.assertEqual((status, out, counts), (1, "a\tm001\na\tm000\n", [2, 1, 1, 0, 0, 0, 2, 1]))
            self.assertRegex(rest, r"\Ab: refused 28: module m \(set 1, entry 1\): .*\nTo do: .* draw the graph with --complete .*\n\Z")
            status, out, err = self.run_it("--complete", *words)
            self.assertEqual((status, out, self.summary(err)), (0, "a\tm001\na\tm000\nb\ts\nb\tm\n", ([2, 2, 0, 0, 0, 0, 4, 2], "")))
            status, out, err = self.run_it("--json", "--complete", "--into", self.into, *words)
            self.assertEqual((status, err, [json.loads(one).get("order") for one in out.splitlines()]), (0, "", [["m001", "m000"], ["s", "m"], None]))
            with open(os.path.join(self.into, "b.order"), encoding="ascii") as file:
                self.assertEqual(file.read(), "s\nm\n")

    def test_as_one_by_one(self):
        """The first routers take longest; all are told in the order of their names, and as `nuvaleta order` tells each."""
        due = self.lines([500 - 7 * i for i in range(60)])
        status, out, err = self.run_it()
        self.assertEqual((status, out == due), (0, True))
        self.assertEqual(self.summary(err), ([60, 60, 0, 0, 0, 0, due.count("\n"), due.count("\n") - 60], ""))
        for at in 0, 31, 59:
            files = [os.path.join(self.folder, f"r{at:03}.{kind}") for kind in ("image", "bundle")]
            one = subprocess.run([COMMAND, "order", *files], capture_output=True, text=True, check=True).stdout
            self.assertEqual([row.split("\t")[1] for row in out.splitlines() if row.startswith(f"r{at:03}\t")], one.splitlines())
        status, out, err = self.run_it(preexec_fn=alone)
        self.assertEqual((status, out == due), (0, True))
        self.assertIn(" s on 1 processor\n", err)

    def test_into(self):
        self.mixed()
        os.mkdir(os.path.join(self.into, "a.order"))
        with open(os.path.join(self.into, "j k.order"), "w", encoding="ascii") as file:
            file.write("an earlier one, which is longer than the new one")
        status, out, err = self.run_it("--into", self.into)
        self.assertEqual((status, out), (2, ""))
        counts, rest = self.summary(err)
        self.assertEqual(counts, [14, 5, 4, 4, 1, 0, 6, 1])
        self.assertTrue(rest.startswith(f"a: not written: {self.into}/a.order: Is a directory (os error 21)\n"), rest)
        self.assertEqual(sorted(os.listdir(os.fsencode(self.into))), [b"a.order", b"j k.order", *(name + b".order" for name in ODD)])
        with open(os.path.join(self.into, "j k.order"), encoding="ascii") as file:
            self.assertEqual(file.read(), "m001\nm000\n")
        os.rmdir(os.path.join(self.into, "a.order"))
        status, out, _ = self.run_it("--json", "--into", self.into)
        self.assertEqual((status, out.count("\n")), (2, 15))
        with open(os.path.join(self.into, "a.order"), encoding="ascii") as file:
            self.assertEqual(file.read(), "m002\nm001\nm000\n")
        self.assertEqual(self.run_it("--into", self.into + "x"), (2, "", f"nuvaleta: {self.into}x: no such folder\n"))
        file = os.path.join(self.folder, "a.image")
        self.assertEqual(self.run_it("--into", file), (2, "", f"nuvaleta: {file}: no folder\n"))

    def test_how_many(self):
        folder, none = self.folder, "no router; one is a pair of files, NAME.image and NAME.bundle"
        self.assertEqual(self.run_it(), (2, "", f"nuvaleta: {folder}: {none}\n"))
        self.folder += "x"
        self.assertEqual(self.run_it(), (2, "", f"nuvaleta: {folder}x: No such file or directory (os error 2)\n"))
        self.folder = folder
        due = self.lines([1] * 400)
        status, out, err = self.run_it()
        self.assertEqual((status, out, self.summary(err)), (0, due, ([400, 400, 0, 0, 0, 0, 400, 0], "")))
        self.lines([1] * 401)
        self.assertEqual(self.run_it(), (2, "", f"nuvaleta: {folder}: more than 400 routers; at most 400 are done at once\n"))

    def test_standard_output(self):
        self.lines([500] * 100)
        with subprocess.Popen([COMMAND, "order", "--all", self.folder], stdout=subprocess.PIPE, stderr=subprocess.PIPE) as ran:
            self.assertEqual(ran.stdout.readline(), b"r000\tm499\n")
            ran.stdout.close()
            self.assertEqual((ran.wait(timeout=60), ran.stderr.read()), (0, b""))
        with open("/dev/full", "wb") as full:
            ran = subprocess.run([COMMAND, "order", "--all", self.folder], stdout=full, stderr=subprocess.PIPE, text=True, check=False, timeout=60)
        self.assertEqual((ran.returncode, ran.stderr), (2, "nuvaleta: standard output: No space left on device (os error 28)\n"))

    def test_reader_leaves(self):
        """Files are written and counted all the same."""
        self.lines([500] * 100)
        self.router("s", *RING)
        words = [COMMAND, "order", "--json", "--all", self.folder, "--into", self.into]
        with subprocess.Popen(words, stdout=subprocess.PIPE, stderr=subprocess.PIPE) as ran:
            self.assertEqual(ran.stdout.read(16), b'{"router":"r000"')
            ran.stdout.close()
            self.assertEqual((ran.wait(timeout=60), ran.stderr.read()), (1, b""))
        self.assertEqual(len(os.listdir(self.into)), 100)

    def test_does_not_run_ahead(self):
        """While nobody reads, no more is worked out than a pipe and a few answers hold."""
        self.lines([500] * 100)
        words = [COMMAND, "order", "--json", "--all", self.folder, "--into", self.into]
        with subprocess.Popen(words, stdout=subprocess.PIPE, preexec_fn=alone) as ran:
            before, now = -1, 0
            while before < now or not now:
                time.sleep(0.5)
                before, now = now, len(os.listdir(self.into))
            self.assertLess(now, 50)
            self.assertEqual(ran.stdout.read().count(b"\n"), 101)
            self.assertEqual(ran.wait(timeout=60), 0)
        self.assertEqual(len(os.listdir(self.into)), 100)


class Seconds(Case):
    """Each router in a process of its own, which is ended when its time is up."""

    def test_given_up(self):
        self.router("a", *line(3)[:2])
        held = self.held("b c")
        self.router("d", *RING)
        self.router("-e", *line(1)[:2])
        begun = time.monotonic()
        status, out, err = self.run_it("--seconds", "3")
        self.assertIn(round(time.monotonic() - begun), range(3, 30))
        self.assertEqual((status, out), (2, "-e\tm000\na\tm002\na\tm001\na\tm000\n"))
        self.assertEqual(self.summary(err), ([4, 2, 1, 0, 0, 1, 4, 2], f"b c: given up after 3 s\nd: {RING_SAID}"))
        held.close()
        self.held("b c")
        status, out, err = self.run_it("--seconds", "3", "--json", "--into", self.into)
        said = [json.loads(one) for one in out.splitlines()]
        self.assertEqual((status, err, said[2]), (2, "", {"router": "b c", "given_up": "after 3 s"}))
        self.assertEqual((said[3]["refused"]["number"], said[-1]["summary"]["given_up"]), (40, 1))
        self.assertEqual(sorted(os.listdir(self.into)), ["-e.order", "a.order"])

    def test_nine(self):
        """Texts that include each other many times are no reason to give up."""
        image, bundle, order = nine()
        self.router("a", image, bundle)
        due = "".join(f"a\t{name}\n" for name in order)
        for words in (), ("--seconds", "20"), ("--seconds", "20", "--complete"):
            status, out, err = self.run_it(*words)
            self.assertEqual((status, out, self.summary(err)), (0, due, ([1, 1, 0, 0, 0, 0, 9, 8], "")))

    def test_as_without(self):
        """With time enough all is told as without --seconds, word for word."""
        Routers.mixed(self)
        for words in (), ("--json",), ("--into", self.into):
            plain, timed = self.run_it(*words), self.run_it("--seconds", "50", *words)
            alike = [(status, *(re.sub(r'\d\.\d+ s on|"seconds":\d+\.\d+', "", text) for text in told)) for status, *told in (plain, timed)]
            self.assertEqual(alike[0], alike[1])

    def test_no_process(self):
        """A program that is not found under its own path any more starts no process: that is told of each router."""
        self.router("a", *line(1)[:2])
        with open(COMMAND, "rb") as file, open(os.memfd_create("gone"), "wb") as gone:
            gone.write(file.read())
            gone.flush()
            with open(f"/proc/self/fd/{gone.fileno()}", "rb") as there:
                gone.close()  # what is open for writing cannot be run
                words = [f"/proc/self/fd/{there.fileno()}", "order", "--all", self.folder, "--seconds", "5"]
                ran = subprocess.run(words, capture_output=True, text=True, check=False, timeout=60, pass_fds=[there.fileno()])
        self.assertEqual((ran.returncode, ran.stdout), (2, ""))
        self.assertEqual(self.summary(ran.stderr)[0], [1, 0, 0, 0, 0, 1, 0, 0])
        self.assertRegex(ran.stderr, r"\Aa: given up since no process can be started: No such file or directory \(os error 2\)\n")


class Terminal(Case):
    def on_terminal(self, out, status=1, words=()):
        """What is written to a terminal that is standard error, and if `out` is None standard output too."""
        reader, writer = pty.openpty()
        with subprocess.Popen([COMMAND, "order", "--all", self.folder, *words], stdout=writer if out is None else out, stderr=writer) as ran:
            os.close(writer)
            said = b""
            while True:
                try:
                    part = os.read(reader, 65_536)
                except OSError:  # the other end is closed
                    part = b""
                if not part:
                    break
                said += part
            os.close(reader)
            self.assertEqual(ran.wait(timeout=60), status)
        return said.decode().replace("\r\n", "\n")

    @staticmethod
    def left(said):
        """The lines that are to be seen in the end."""
        screen = []
        for row in said.split("\n"):
            seen = ""
            for part in row.split("\r"):
                seen = part + seen[len(part):]
            screen.append(seen.rstrip())
        return "\n".join(screen)

    def test_progress(self):
        self.lines([500] * 200)
        said = self.on_terminal(subprocess.DEVNULL, 0)
        self.assertRegex(said, r"\r\d+ of 200 routers")
        self.assertRegex(self.left(said), r"\A" + SUMMARY + r"\Z")
        self.router("r100x", *RING)
        said = self.on_terminal(subprocess.DEVNULL)
        self.assertRegex(said, r"\r\d+ of 201 routers")
        self.assertRegex(self.left(said), r"\Ar100x: " + re.escape(RING_SAID) + SUMMARY + r"\Z")
        took = float(re.search(r"(\d+\.\d\d) s on", said)[1])
        self.assertLessEqual(said.count(" of 201 routers"), 2 + 10 * took)

    def test_at_which(self):
        """The line names the oldest router that is still worked on, and for how long; nothing of it is left in the end."""
        long = "r001 " + "long" * 20
        self.lines([1] * 30)
        os.remove(os.path.join(self.folder, "r001.image"))
        os.remove(os.path.join(self.folder, "r001.bundle"))
        self.held(long)
        said = self.on_terminal(subprocess.DEVNULL, 2, ["--seconds", "4"])
        self.assertIn(f"\r1 of 30 routers, at {long[:32]}.. for 1 s", said)
        self.assertRegex(self.left(said), re.escape(f"{long}: given up after 4 s\n") + SUMMARY + r"\Z")
        self.assertLessEqual(max(len(part) for part in re.split(r"[\r\n]", said) if " of 30 " in part), 79)

    def test_none(self):
        self.lines([2] * 20)
        self.router("s", *RING)
        self.assertNotIn("\r", self.run_it()[2])
        self.assertNotIn("\r", self.on_terminal(None))


def main():
    said = io.StringIO()
    result = unittest.TextTestRunner(stream=said).run(unittest.defaultTestLoader.loadTestsFromModule(sys.modules[__name__]))
    failed = len(result.failures) + len(result.errors)
    if failed:
        print(said.getvalue())
    print(f"rust: order --all, {result.testsRun} tests, {failed} failed")
    return failed != 0


if __name__ == "__main__":
    sys.exit(main())
