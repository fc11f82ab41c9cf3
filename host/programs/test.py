#!/usr/bin/env python3
"""Proves deps and meta, runs them, and holds every byte that they print to what is due: refusals, and texts at the program's limit and over it."""
import subprocess
import sys
from pathlib import Path

ROOT = Path(__file__).resolve().parents[2]
TOO_LONG = "input too long\n"


def padded(text, size):
    """A text, with blanks behind it up to so many bytes."""
    return text.encode().ljust(size)


def high(at):
    """Blanks, and a byte of 128 at a place, which is no UTF-8."""
    return bytes([128]).rjust(at + 1)


CASES = {
    "deps": [
        (b"import a{}", "refused 7 keyword 8 at 10\n"),
        (b"module import {}", "refused 4 keyword 8 at 14\n"),
        (b'import "a"+"b', "refused 6 keyword 8 at 13\n"),
        (b"include a;" * 257, "refused 10 keyword 9 at 2567\n"),
        (high(32767), "refused 12 keyword 0 at 32767\n"),
        ("x \u00e9".encode(), "refused 3 keyword 0 at 2\n"),
        ("include '\u00e9';".encode(), "Imports (0):\n\nIncludes (1):\n  - \u00e9\n"),
        (b"", "Imports (0):\n\nIncludes (0):\n"),
        (b"include a;" * 256, "Imports (0):\n\nIncludes (256):\n" + "  - a\n" * 256),
        (padded("include a;", 32768), "Imports (0):\n\nIncludes (1):\n  - a\n"),
        (padded("include a;", 32769), TOO_LONG),
        (high(32768), TOO_LONG),
        (padded("include a;", 200000), TOO_LONG),
    ],
    "meta": [
        (b"", "refused 9 keyword 0 at 0\n"),
        (b"module {}", "refused 4 keyword 1 at 7\n"),
        (b"module m;", "refused 5 keyword 1 at 8\n"),
        (b'module m{namespace "u"', "refused 6 keyword 4 at 22\n"),
        (high(131071), "refused 12 keyword 0 at 131071\n"),
        ("module \u00e9{".encode(), "refused 3 keyword 0 at 7\n"),
        ("module '\u00e9'{".encode(), "name: \u00e9\n"),
        (padded("module m{", 32769), "name: m\n"),
        (padded("module m{", 131072), "name: m\n"),
        (padded("module m{", 131073), TOO_LONG),
        (high(131072), TOO_LONG),
    ],
}


def built(name):
    """Has rt prove and build a program, and run it once, on nothing. Answers where it is."""
    folder = ROOT / "crates" / name
    ran = subprocess.run(["rt", "run"], cwd=folder, stdin=subprocess.DEVNULL, stdout=subprocess.PIPE, stderr=subprocess.STDOUT, text=True)
    if ran.returncode:
        sys.exit(f"{ran.stdout}programs: rt run of {name}: status {ran.returncode}")
    return folder / "out" / name


def main():
    wrong = 0
    for name, cases in CASES.items():
        program = built(name)
        for text, due in cases:
            run = subprocess.run([program], input=text, capture_output=True)
            if run.returncode or run.stdout != due.encode():
                wrong += 1
                print(f"programs: {name} prints {run.stdout!r}, and not {due!r}, for {len(text)} bytes that begin with {text[:40]!r}", file=sys.stderr)
    if wrong:
        sys.exit(1)
    print(f"programs: {' and '.join(f'{name} prints what is due for {len(cases)} texts' for name, cases in CASES.items())}, byte for byte")


main()
