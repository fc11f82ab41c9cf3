#!/usr/bin/env python3
"""Brings the repository's own definitions and lemmas to one spelling: words in snake case, types and modules in camel case.

usage: python3 tools/port_names.py [--nested] [--list]      at the top of the repository, once, after the kit's port.py

A definition `gapEnd` becomes `gap_end`, a lemma `gap-from` becomes `gap_from`. Names of src/ keep their spelling, and so do names that Rattle makes, as the
goals of a function. Where a lemma would have a definition's name, it ends in `_lem`. Names in strings stay as they are.
--nested turns the names of lemmas that stand further in, in a module of a file; it ran when the proofs were today's already.
--list prints the names and writes nothing."""

import collections
import os
import re
import sys

WORD = r"[^\s(){};,.:=|\[\]\"`\u25ef]+"
DECLARED = re.compile(r"( *)(?:(?:abbrev|opaque|unfoldable|pub|instance|record|data)\s+)*(" + WORD + r")((?:\s+\{[^}]*\}|\s+\([^)]*\))*)\s*:\s*(.*)")
KEYWORDS = {"let", "use", "mod", "where", "module", "elim", "unfolding", "mutual", "ruleset", "in"}


def files(suffixes, top="crates"):
    for folder, dirs, names in os.walk(top):
        dirs[:] = sorted(d for d in dirs if d not in ("out", "target", ".git"))
        for name in sorted(names):
            if name.endswith(suffixes):
                yield os.path.join(folder, name)


def text(path):
    with open(path, encoding="utf-8") as f:
        return f.read()


def snake(name):
    """gapEnd, gap-end and eqE-eq in snake case."""
    out = re.sub(r"(?<=[a-z0-9'])([A-Z])", r"_\1", name)
    out = re.sub(r"(?<=[A-Z])([A-Z])(?=[a-z])", r"_\1", out)
    out = out.replace("-", "_")
    return out if name[0].isupper() else out.lower()


DEPTH = 2  # how far in a declaration stands at most


def declared():
    """Each name that a file of specs/ or proofs/ declares, with the files; and the names of records' fields."""
    found, fields = collections.defaultdict(set), set()
    for path in files(".antt"):
        own = path.endswith("/Proof.antt")
        if re.search(r"/proofs/.+/(Answers|Invariants)\.antt$", path):
            continue
        in_record = 0  # how far in the fields of the record stand that is read
        for line in text(path).split("\n"):
            here = len(line) - len(line.lstrip())
            if re.match(r"\s*(pub )?(record|data)\b", line):
                in_record = here + 2 if line.rstrip().endswith("where") else 0
            elif line.strip() and here < in_record and not line.lstrip().startswith("--"):
                in_record = 0
            m = DECLARED.match(line)
            if not m or len(m[1]) > DEPTH or m[2] in KEYWORDS or m[2].startswith(("--", "\u03bb")):
                continue
            if own and (re.match(r"(tie|lts)\.", m[4]) or m[2].endswith(("-spec", "_spec"))):
                continue
            found[m[2]].add(path)
            if in_record and len(m[1]) == in_record:
                fields.add(m[2])
        for line in re.findall(r"(?m)^ *(?:pub )?ruleset (" + WORD + ")", text(path)):
            found[line].add(path)
    return found, fields


# Names whose plain spelling another thing has, in one file with them.
OTHERWISE = {"nameIn": "name_in_row", "tooShort": "is_too_short"}
# Lemmas that port.py gave a definition's name.
LEMMAS = ["head_step", "is_one", "no_text", "read_number", "run_end"]


def of_libraries():
    """The names that files take from the libraries of the kit: one of the repository's own that is spelled alike keeps its spelling."""
    out = set()
    for path in files((".antt", ".rt")):
        for module, items in re.findall(r"(?m)^\s*(?:pub )?(?:ghost )?use ([^\s{}]+)\.\{([^}]*)\}", text(path)):
            if not module.startswith("Rattle.") or module.startswith("Rattle.std."):
                out.update(i.split(" as ")[0].strip() for i in items.split(","))
    return out


def together_in(found, new):
    """The spellings that two things would share in one file."""
    by = collections.defaultdict(set)
    for n, to in new.items():
        by[to].add(n)
    by = {to: ns | ({to} if to in found else set()) for to, ns in by.items()}
    by = {to: ns for to, ns in by.items() if len(ns) > 1}
    hit = set()
    for path in files((".antt", ".rt")):
        if path.endswith("/Proof.antt"):
            continue
        t = re.sub(r"(?m)(^|[ \t])--([ \t].*)?$", "", text(path))
        words = set(re.findall(WORD, t))
        hit.update(to for to, ns in by.items() if len(ns & words) > 1)
    return hit


def names():
    found, fields = declared()
    tokens = collections.Counter()
    for path in files(".antt"):
        tokens.update(re.findall(WORD, text(path)))
    kept = of_libraries()
    own = [n for n in found if n not in kept and not n.startswith("+")]
    camel = [n for n in own if re.match(r"[a-z][\w']*[A-Z]", n) and "-" not in n]
    dash = [n for n in own if "-" in n]
    new = {n: OTHERWISE.get(n, snake(n)) for n in camel + dash}
    together = sorted(together_in(found, new))
    for n in dash:
        if new[n] in together:
            new[n] += "_lem"
    return new, fields, together, tokens


def turned(line, new, fields):
    """A line with the names turned. A name behind a dot is a field's, or the last part of a module's path, which no definition is."""

    def one(m):
        name, before = m[0], line[: m.start()]
        if name not in new or name.endswith("-spec"):
            return name
        of_value = before.endswith(".") and not re.search(r"(^|[^\w.])[A-Z]\w*\.$", before)
        if of_value and name not in fields and not re.match(r"\s*(pub )?(ghost )?use\b", line) and "-" in name:
            return name
        return new[name]

    return re.sub(WORD, one, line)


def turn_antt(t, new, fields):
    for n in LEMMAS if DEPTH == 2 else []:
        if re.search(rf"(?m)^ *(pub )?{n} ", t) or re.search(rf"(?m)^\s*use [^\n]*[{{ ]{n}[,}}]", t):
            t = re.sub(rf"(?<![\w.'-]){n}(?![\w.'-])", n + "_lem", t)
    out = []
    for line in t.split("\n"):
        code, note = line, ""
        m = re.search(r"(^|\s)--(\s|$)", line)
        if m:
            code, note = line[: m.start()], line[m.start() :]
        out.append(turned(code, new, fields) + turn_note(note, new))
    return "\n".join(out)


def turn_note(note, new):
    """In a comment only what can be nothing else: a name in camel case, and what stands in backticks."""
    note = re.sub(r"`[^`\n]*`", lambda m: re.sub(WORD, lambda w: new.get(w[0], w[0]), m[0]), note)
    return re.sub(r"\b[a-z][a-z0-9]*(?:[A-Z][a-z0-9]*)+\b", lambda w: new.get(w[0], w[0]), note)


def turn_rt(t, new):
    """In a file of src/ names of definitions stand in ghost items, clauses and comments: those in camel case are no names of Rust's."""
    out = []
    for line in t.split("\n"):
        if re.match(r"\s*(//|///)", line):
            out.append(turn_note(line, new))
        elif re.match(r"\s*(ghost|requires|ensures)\b", line) or ("\u2261" in line or "\u2264" in line):
            out.append(re.sub(WORD, lambda w: new.get(w[0], w[0]), line))
        else:
            parts = re.split(r'("(?:[^"\\]|\\.)*")', line)
            out.append("".join(p if i % 2 else re.sub(r"\b[a-z][a-z0-9]*(?:[A-Z][a-z0-9]*)+\b", lambda w: new.get(w[0], w[0]), p) for i, p in enumerate(parts)))
    return "\n".join(out)


def turn_edit(t, new, fields):
    """A must-fail edit: its lines old: and new: are lines of the file that it names."""
    m = re.search(r"(?m)^file:\s*(\S+)", t)
    rt = m and m[1].endswith(".rt")
    out = []
    for line in t.split("\n"):
        w = re.match(r"(old|new):( ?)(.*)", line)
        if not w:
            out.append(turn_note(line, new))
        else:
            out.append(f"{w[1]}:{w[2]}" + (turn_rt(w[3], new) if rt else turn_antt(w[3], new, fields)))
    return "\n".join(out)


def main(argv):
    global DEPTH
    if "--nested" in argv:
        DEPTH = 12
    new, fields, together, tokens = names()
    for to in together:
        print(f"falls together: {to}: {' '.join(sorted(n for n, x in new.items() if x in (to, to + '_lem')))}")
    for n, to in sorted(new.items()):
        if tokens[to]:
            print(f"look: {n} becomes {to}, which stands {tokens[to]} times already")
    if "--list" in argv:
        for n, to in sorted(new.items()):
            print(f"{n}\t{to}")
        return 0
    changed = 0
    for path in list(files((".antt", ".rt", ".edit"))) + [p for p in files(".md", "docs")] + ["README.md", "CONTRIBUTING.md"]:
        t = text(path)
        if path.endswith(".antt"):
            u = turn_antt(t, new, fields)
        elif path.endswith(".rt"):
            u = turn_rt(t, new)
        elif path.endswith(".edit"):
            u = turn_edit(t, new, fields)
        else:
            u = "\n".join(turn_note(line, new) for line in t.split("\n"))
        if u != t:
            changed += 1
            with open(path, "w", encoding="utf-8") as f:
                f.write(u)
    print(f"{len(new)} names, {changed} files")
    return 0


if __name__ == "__main__":
    raise SystemExit(main(sys.argv[1:]))
