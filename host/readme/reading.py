#!/usr/bin/env python3
"""reading.py [README]: what a reader must believe. The promises of the host's calls and the demands stand in whole files of definitions; what these use of
other files is followed from definition to definition. Prints the files and the lines of what is reached, topic by topic, as a table; with a file, fails
unless that table stands in it."""
import re
import sys
from pathlib import Path

CRATES = Path(__file__).resolve().parents[2] / "crates"
# In reading order; a definition belongs to the first topic that has its crate or reaches it.
TOPICS = [
    ("bytes, UTF-8, gaps, keywords, values, skipping",
     {"text", "text_past", "text_utf8", "text_string", "text_value", "text_skip", "text_statement"}, []),
    ("imports and includes of a text, their printed form", set(), ["nuvaleta/Host"]),
    ("the metadata of a text", set(), ["nuvaleta/Record"]),
    ("image and bundle, the finds", {"library_form", "library_image", "library_index", "library_find", "library_bundle"}, ["nuvaleta/Finds"]),
    ("the graph", set(), ["nuvaleta/Graphs"]),
    ("the order of registration", set(), ["nuvaleta/Orders"]),
    ("demand 1: which refusals a call can give; one outcome of each", set(), ["demands/Demand1", "demands/OneOutcome", "demands/Answers"]),
    ("demand 2: each value is the one behind its keyword; RFC 7950's quoted values; the newest revision", set(),
     ["demands_values/Demand2", "demands_rfc/RfcEquality", "demands_rfc/RfcQuoted", "demands_scans/Newest"]),
    ("demand 3: which edges a graph has", set(), ["demands/Demand3", "demands/Demand3Needs"]),
    ("a graph with all names as nodes: what it gives beyond demand 3", set(), ["graph/Complete", "demands/Complete"]),
    ("each included text once: the walk with a memory is the plain walk, and reads no text twice", set(), ["graph/Once", "demands/Once"]),
    ("the whole-text mode of a scan beside the old one, with all readings of its request", set(), ["demands_scans/Whole", "demands/Whole"]),
    ("names with accents: the check is RFC 3629's table; what 3 and 12 tell; every value is UTF-8; with all readings of its request", set(),
     ["demands_utf8/Utf8Right", "demands_scans/Accents", "demands/Accents", "demands_accents/ValuesValid", "demands_accents/StoreValid"]),
    ("what an order is, by edges alone", set(), ["demands_order/Order", "demands/OrderCalls"]),
    ("document 01's starred examples", set(), ["demands/Starred"]),
]
# A type of the code with an `impl Model`: contracts see it by definitions, which the impl names. `Own` is the type as a file of definitions uses it.
MODEL = re.compile(r"^impl(?:<[^>]*>)? Model for (\w+)[^\n]*\n(.*?)^\}", re.M | re.S)
GHOST = re.compile(r"\s*ghost use Rattle\.([a-z_0-9]+)\.specs\.(\w+)\.\{([^}]*)\};$")
OWN = re.compile(r"use Rattle\.([a-z_0-9]+)\.specs\.declared\.(\w+)\.\{\2\}$")
USE = re.compile(r"use Rattle\.([a-z_0-9]+)\.specs\.(\w+)(?:\.\{([^}]*)\}| as (\w+))$")
DEFINED = re.compile(r"\s*(?:(?:abbrev |unfoldable )*(?:pub )?(\S+) :|(?:pub )?(?:record|data|module) (\S+))")
TOKEN = re.compile(r"[^\s(){};,]+")


class File:
    """A file of definitions: which part, of those between empty lines, defines a name, and where its other names come from."""

    def __init__(self, name):
        crate, stem = name.split("/")
        parts = re.split(r"\n{2,}", (CRATES / crate / "specs" / f"{stem}.antt").read_text().strip())
        self.parts, self.owner, self.imported, self.alias, self.seen = {}, {}, {}, {}, {}
        for line in parts[0].split("\n"):
            hit = USE.match(line)
            if hit and (CRATES / hit[1]).is_dir():  # else it is the kit's
                self.take(*hit.groups())
            own = OWN.match(line)
            if own and (CRATES / own[1]).is_dir():
                self.seen[own[2]] = views(own[1]).get(own[2], [])
        for at, part in enumerate(parts[1:], 1):
            lines = [line for line in part.split("\n") if not line.startswith("--")]
            if not lines:
                continue
            self.parts[at] = part
            for hit in filter(None, map(DEFINED.match, lines)):
                self.owner.setdefault(hit[1] or hit[2], at)

    def take(self, crate, stem, words, alias):
        if alias:
            self.alias[alias] = f"{crate}/{stem}"
        for word in filter(None, map(str.strip, (words or "").split(","))):
            own, _, other = word.partition(" as ")
            self.imported[other or own] = (f"{crate}/{stem}", own)

    def uses(self, at):
        """The names that a part uses: its own file's as parts, others' by file and name."""
        for token in set(TOKEN.findall("\n".join(line for line in self.parts[at].split("\n") if not line.startswith("--")))):
            head, _, rest = token.partition(".")
            if head in self.alias and rest:
                yield self.alias[head], rest
                continue
            for name in {token, head}:  # a name, or one whose field is taken
                yield from self.seen.get(name, [])
                if name in self.imported:
                    yield self.imported[name]
                elif name in self.owner:
                    yield None, name


VIEWS = {}


def views(crate):
    """What contracts see of the crate's types, each by the definitions that its impl names."""
    if crate not in VIEWS:
        VIEWS[crate] = {}
        for source in sorted((CRATES / crate / "src").glob("*.rt")):
            for kind, body in MODEL.findall(source.read_text()):
                named = [(f"{use[1]}/{use[2]}", word.strip()) for line in body.split("\n") for use in [GHOST.match(line)] if use and (CRATES / use[1]).is_dir()
                         for word in use[3].split(",")]
                VIEWS[crate][kind] = named
    return VIEWS[crate]


FILES = {}


def file(name):
    if name not in FILES:
        FILES[name] = File(name)
    return FILES[name]


def reach(name, at, seen):
    todo = [(name, at)]
    while todo:
        name, at = todo.pop()
        if (name, at) in seen:
            continue
        seen.add((name, at))
        for other, word in file(name).uses(at):
            other = other or name
            found = file(other).owner.get(word)
            if found is None:
                sys.exit(f"reading: {name} uses {word} of {other}, which has no such definition")
            todo.append((other, found))


def table():
    left = {topic: set() for topic, _, _ in TOPICS}
    done = set()
    for topic, _, starts in TOPICS:
        seen = set()
        for start in starts:
            for at in file(start).parts:
                reach(start, at, seen)
        for name, at in seen - done:
            crate = name.split("/")[0]
            home = next((t for t, crates, _ in TOPICS if crate in crates), topic)
            left[home].add((name, at))
        done |= seen
    rows, total = ["| topic | definitions in crates/ | lines |", "|---|---|---|"], 0
    for topic, parts in left.items():
        lines = sum(file(name).parts[at].count("\n") + 1 for name, at in parts)
        total += lines
        crates = {}
        for name in sorted({name for name, _ in parts}):
            crates.setdefault(name.split("/")[0], []).append(name.split("/")[1])
        named = "; ".join(f"{crate}: {', '.join(stems)}" for crate, stems in crates.items())
        rows.append(f"| {topic} | {named} | {lines:,} |")
    return "\n".join(rows + [f"| all | | {total:,} |"])


def main():
    made = table()
    if len(sys.argv) < 2:
        print(made)
    elif made not in Path(sys.argv[1]).read_text():
        sys.exit(f"reading: {sys.argv[1]} has another table of what to read; it is now\n{made}")
    else:
        print("reading: the table of what to read is right")


if __name__ == "__main__":
    main()
