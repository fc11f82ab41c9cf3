#!/usr/bin/env python3
"""record.py [--check] [PAGE]: from a fresh clone to the first order, as a person sees it.

Clones this repository, as it was committed, into a folder of its own, runs the commands below there on a terminal, and writes PAGE, docs/first-order.md: each
line with the time after which it came. With nothing else on the machine, and no other checkout there whose proofs rt could take, the times are those that a
person waits. With --check nothing is cloned or written: the commands of PAGE are run over what is built here, and must print what stands there, but for what is
said while it proves and builds."""
import os
import platform
import re
import resource
import shutil
import subprocess
import sys
import tempfile
import textwrap
from pathlib import Path

sys.dont_write_bytecode = True
from terminal import Terminal  # noqa: E402

ROOT = Path(__file__).resolve().parents[2]
PAGE = ROOT / "docs/first-order.md"
CLONE = "git clone URL nuvaleta && cd nuvaleta"
FIRST = "./nuvaleta order examples/core.image examples/core.bundle"
COMMANDS = [FIRST, "./nuvaleta deps examples/core/acme-bgp@2024-04-10.yang",
            "./nuvaleta pack library examples/core/library.xml examples/core r1.image r1.bundle", "./nuvaleta order r1.image r1.bundle"]
COLUMNS = 80
MEANWHILE = re.compile(r"\d+ of \d+, |nuvaleta: (proving|building|waiting|about)")
HEAD = [
    "# From a fresh clone to the first order",
    "What a person sees on a terminal, recorded by `host/first/record.py`. In front of each line stands the time after which it came, in minutes and seconds "
    "from the command's start. The machine: {machine}. `rt` and cargo were installed before.",
    "The first command proves the library and builds it. That is done once; it took {first}, {memory} of memory at most and {disk} of disk. {beside}"]
LAST = ["Below the lines of the first command one more counts while it proves; after {after} it was `{held}`. On a pipe there is none of these: "
        "one line says that it proves and builds."]


def lasting(seconds):
    return f"{seconds:.2f} s" if seconds < 10 else f"{int(seconds) // 60}:{int(seconds) % 60:02} minutes"


def machine():
    """Kind and number of processors, memory and system of this machine."""
    told = subprocess.run(["lscpu"], capture_output=True, text=True, env={**os.environ, "LC_ALL": "C"}).stdout
    model = re.search(r"^Model name:\s*(.+)$", told, re.M)
    memory = int(re.search(r"MemTotal:\s*(\d+)", Path("/proc/meminfo").read_text())[1]) / 1024 / 1024
    system = re.search(r'^PRETTY_NAME="?([^"\n]+)', Path("/etc/os-release").read_text(), re.M)
    return f"{platform.machine()}, {len(os.sched_getaffinity(0))} processors ({model[1] if model else 'unknown'}), {memory:.0f} GB of memory, {system[1]}"


class Memory:
    """The most memory that the processes below one took together: of all that are there at a time, the most that each has had so far."""

    def __init__(self):
        self.most = 0

    def look(self, pid):
        above, own = {}, {}
        for status in Path("/proc").glob("[0-9]*/status"):
            try:
                text = status.read_text()
            except OSError:
                continue
            values = dict(re.findall(r"^(Pid|PPid|VmHWM):\s*(\d+)", text, re.M))
            above[int(values["Pid"])], own[int(values["Pid"])] = int(values["PPid"]), int(values.get("VmHWM", 0))

        def below(one):
            while one in above and one != pid:
                one = above[one]
            return one == pid

        self.most = max(self.most, sum(kilobytes for one, kilobytes in own.items() if below(one)))


def run(command, folder, memory=None):
    """Runs a command on a terminal, as a shell does, to its end."""
    ran = Terminal(["sh", "-c", command], cwd=folder)
    while not ran.until(lambda _: False, 0.5) and ran.status is None:
        if memory:
            memory.look(ran.pid)
    return ran


def block(command, lines):
    """The command and what it prints, each line as the terminal breaks it."""
    made = [f"$ {command}"]
    for after, line in lines:
        pieces = [line[at:at + COLUMNS] for at in range(0, len(line), COLUMNS)] or [""]
        made.append(f"{int(after) // 60:4}:{int(after) % 60:02}  {pieces[0]}".rstrip())
        made += [f"         {piece}".rstrip() for piece in pieces[1:]]
    return made


class Beside:
    """How much of the processors is taken by others from here on."""

    def __init__(self):
        self.before = self.read()

    @staticmethod
    def read():
        ticks = [int(number) for number in Path("/proc/stat").read_text().split("\n")[0].split()[1:9]]
        own = resource.getrusage(resource.RUSAGE_CHILDREN)
        return sum(ticks) / os.sysconf("SC_CLK_TCK"), (ticks[3] + ticks[4]) / os.sysconf("SC_CLK_TCK"), own.ru_utime + own.ru_stime

    def told(self):
        every, idle, own = (now - then for now, then in zip(self.read(), self.before))
        share = round(100 * max(0, every - idle - own) / every)
        return f"Other work took {share} % of the processors meanwhile" + (": with nothing beside it takes less." if share >= 5 else ".")


def used(folder):
    told = subprocess.run(["du", "-sk", str(folder)], capture_output=True, text=True, check=True).stdout
    return int(told.split()[0]) / 1024


def in_clone(folder):
    """Runs all commands in a fresh clone. Answers the runs, and what the head of the page says of the first one."""
    before, beside, memory, runs = used(folder), Beside(), Memory(), []
    for command in COMMANDS:
        ran = run(command, folder, None if runs else memory)
        if ran.status != 0:
            sys.exit(f"record: {command}: status {ran.status}\n" + "\n".join(line for _, line in ran.lines))
        if not runs:
            told = {"machine": machine(), "first": lasting(ran.seconds()), "memory": f"{memory.most / 1024 / 1024:.1f} GB", "beside": beside.told()}
        runs.append(ran)
    return runs, {**told, "disk": f"{used(folder) - before:.0f} MB"}


def prose(paragraphs, told):
    return "\n\n".join(textwrap.fill(one.format(**told), 159) for one in paragraphs) + "\n"


def page_of(runs, told):
    """The page as a whole."""
    blocks = [block(CLONE, [])] + [block(command, ran.lines) + [f"({lasting(ran.seconds())})"] for command, ran in zip(COMMANDS, runs)]
    text = prose(HEAD, told) + "".join("\n```console\n" + "\n".join(lines) + "\n```\n" for lines in blocks)
    counted = {second: line for second, line in runs[0].held.items() if second <= 120 and " so far" in line}
    if counted:
        after = max(counted)
        text += "\n" + prose(LAST, {"after": f"{after // 60}:{after % 60:02}", "held": counted[after]})
    return text


def record(page):
    room = tempfile.mkdtemp()
    try:
        subprocess.run(["git", "clone", "-q", str(ROOT), f"{room}/nuvaleta"], check=True)
        runs, told = in_clone(Path(room) / "nuvaleta")
    finally:
        shutil.rmtree(room)
    page.write_text(page_of(runs, told))
    print(f"record: {page.name}: the first order after {told['first']}")


def recorded(page):
    """The commands of the page, each with the lines that it prints once all is built."""
    found = []
    for line in page.read_text().splitlines():
        if line.startswith("$ "):
            found.append((line[2:], []))
        elif re.match(r" *\d+:\d\d(  |$)", line):
            found[-1][1].append(line[9:])
        elif line.startswith(" " * 9):
            found[-1][1][-1] += line[9:]
    return [(command, [line for line in lines if not MEANWHILE.match(line)]) for command, lines in found if command != CLONE]


def check(page):
    found, wrong = recorded(page), []
    if [command for command, _ in found] != COMMANDS:
        wrong.append("the commands are others than those that are recorded")
    with tempfile.TemporaryDirectory() as room:
        for name in ("nuvaleta", "examples"):
            os.symlink(ROOT / name, Path(room) / name)
        for command, lines in found:
            ran = run(command, room)
            printed = [line for _, line in ran.lines if not MEANWHILE.match(line)]
            if ran.status != 0 or ["".join(line.split()) for line in printed] != ["".join(line.split()) for line in lines]:
                wrong.append(f"{command}: status {ran.status}, prints\n" + "\n".join(printed))
    for why in wrong:
        print(f"record: {page.name}: {why}", file=sys.stderr)
    print(f"record: {page.name}: {len(found)} commands print what stands there" if not wrong else f"record: {page.name} is to be recorded anew")
    return 1 if wrong else 0


if __name__ == "__main__":
    words = sys.argv[1:]
    checking = words[:1] == ["--check"]
    where = Path(words[checking]) if len(words) > checking else PAGE
    sys.exit(check(where) if checking else record(where))
