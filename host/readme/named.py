#!/usr/bin/env python3
"""named.py: what the documents name is there. docs/ARCHITECTURE.md has the floors and crates of crates.txt, in its order. In README.md, CONTRIBUTING.md and
docs/*.md, `crates/..` is a path; `CRATE/File` is a file of definitions (crates/CRATE/specs/File.antt) that has the names in backquotes behind it;
`CRATE/proofs/File` is a file of laws; `CRATE/an_edit` is a must-fail edit. docs/PROMISES.md names every edit. Notes of changes (docs/changes) tell of their own
time and are not looked at."""
import re
import sys
from pathlib import Path

ROOT = Path(__file__).resolve().parents[2]
CRATES = ROOT / "crates"
# Folders that a path of the documents may begin with, beside a crate's name; and those of a crate.
FOLDERS = {"docs", "host", "include", "examples", "target", "CRATE", "NAME"}
PARTS = {"src", "specs", "proofs", "must-fail", "data", "stdin", "stdout"}
PATH = re.compile(r"(?<![\w/.+-])([A-Za-z_0-9]+)/([\w+-]+)((?:/[\w+.-]+)*)")
NAMES = re.compile(r"((?:,? `[^`]+`(?: \([^)]*\))?)+)")


def told_floors():
    """The floors and crates of the table of docs/ARCHITECTURE.md: a bold first cell is a floor."""
    floors = []
    for row in re.findall(r"^\| (.+?) \| .* \|$", (ROOT / "docs" / "ARCHITECTURE.md").read_text(), re.M):
        if row.startswith("**"):
            floors.append((row.strip("*"), []))
        elif floors:
            floors[-1][1].extend(row.split(", "))
    return floors


def listed_floors():
    """Those of crates.txt: a # line right above a crate's line is a floor."""
    floors, heading = [], None
    for line in (ROOT / "crates.txt").read_text().splitlines():
        name, colon, _ = line.partition(":")
        if line.startswith("#"):
            heading = line.strip("# ")
            continue
        if colon:
            floors.extend([(heading, [])] if heading else [])
            floors[-1][1].append(name.split()[0])
        heading = None
    return floors


def faults_of(text, crates):
    """What a document names that is not there."""
    for hit in PATH.finditer(text):
        crate, what, rest = hit.groups()
        if crate == "crates":
            whole = f"{what}{rest}".rstrip(".")
            if not (what.isupper() or text[hit.end():hit.end() + 1] == "*" or re.search("[A-Z]{4}", rest) or (CRATES / whole).exists()):
                yield f"crates/{whole}: it is not there"
        elif crate in FOLDERS or what in PARTS and not rest or not (crate in crates or "_" in crate):
            continue
        elif crate not in crates:
            yield f"{hit[0]}: there is no crate {crate}"
        elif what == "proofs":
            if not any((CRATES / crate / f"proofs{rest}{end}").exists() for end in ("", ".antt")):
                yield f"{hit[0]}: there is no such file of laws"
        elif what[0].isupper():
            file = CRATES / crate / "specs" / f"{what}.antt"
            if not file.exists():
                yield f"{hit[0]}: there is no such file of definitions"
                continue
            has = set(re.findall(r"[^\s(){};,]+", file.read_text()))
            behind = NAMES.match(text, hit.end())
            for name in re.findall(r"`([^` ]+)[^`]*`", behind[1]) if behind else []:
                if name not in has:
                    yield f"{hit[0]} `{name}`: there is no such definition in it"
        elif what not in PARTS and not (CRATES / crate / "must-fail" / f"{what}.edit").exists():
            yield f"{hit[0]}: there is no such edit"


def unnamed_edits():
    """Edits that docs/PROMISES.md does not name."""
    text = (ROOT / "docs" / "PROMISES.md").read_text()
    for edit in sorted(CRATES.glob("*/must-fail/*.edit")):
        name = f"{edit.parts[-3]}/{edit.stem}"
        if not re.search(rf"(?<![\w/]){name}(?!\w)", text):
            yield f"PROMISES.md: {name} is not named"


def main():
    crates = {name for _, names in listed_floors() for name in names}
    faults = [] if told_floors() == listed_floors() else ["docs/ARCHITECTURE.md: its table does not have the floors and crates of crates.txt, in their order"]
    for file in [ROOT / "README.md", ROOT / "CONTRIBUTING.md", *sorted((ROOT / "docs").glob("*.md"))]:
        faults += [f"{file.name}: {fault}" for fault in faults_of(file.read_text(), crates)]
    faults += unnamed_edits()
    if faults:
        sys.exit("\n".join(["named: what the documents name, and what is there, differ:", *faults]))
    print("named: crates, definitions, laws and edits that the documents name are there, and every edit is named")


if __name__ == "__main__":
    main()
