#!/usr/bin/env python3
"""forms.py [--list] [CRATES]: counts, point by point of docs/DESIGN-PASS.md, the places in crates/*/src/*.rt that have an older form.

CRATES is the folder of crates, ./crates where none is given. With --list each place is printed. The rules are regular expressions, said beside each point; they
find candidates, and the page says of each one what became of it."""
import collections
import glob
import os
import re
import sys

LIST = "--list" in sys.argv
ARGS = [a for a in sys.argv[1:] if not a.startswith("--")]
ROOT = ARGS[0] if ARGS else "crates"


def plain(text):
    """The text without comments and clauses of contracts, line for line."""
    text = re.sub(r"//[^\n]*", "", text)
    return re.sub(r"\b(requires|ensures)( \w+)? \{", lambda m: m.group(0), text)


def matching(s, i):
    depth = 0
    for j in range(i, len(s)):
        if s[j] in "({[":
            depth += 1
        elif s[j] in ")}]":
            depth -= 1
            if depth == 0:
                return j
    return len(s) - 1


def functions(s):
    """(name, line, parameters, clauses, body) of each function."""
    for m in re.finditer(r"\bfn (\w+)(<[^(]*>)?\(", s):
        end = matching(s, m.end() - 1)
        params = s[m.end() : end]
        clauses, k = [], end + 1
        while True:
            n = re.compile(r"\s*(->\s*(?:io::)?[^{;]*?\s)?\s*(requires|ensures)( \w+)? \{").match(s, k)
            if not n:
                break
            z = matching(s, n.end() - 1)
            clauses.append((n.group(2), " ".join(s[n.end() : z].split())))
            k = z + 1
        b = s.find("{", k)
        body = s[b : matching(s, b) + 1] if b >= 0 else ""
        yield m.group(1), s.count("\n", 0, m.start()) + 1, params, clauses, body


def enums(s):
    for m in re.finditer(r"\benum (\w+) \{", s):
        z = matching(s, m.end() - 1)
        inner, variants = s[m.end() : z], []
        for v in re.finditer(r"\b([A-Z]\w*)\s*(\([^)]*\)|\{[^}]*\})?\s*,", inner):
            variants.append((v.group(1), v.group(2) or ""))
        yield m.group(1), s.count("\n", 0, m.start()) + 1, variants


FAILED = re.compile(r"^(Refused|NoImport|NoInclude|Not|Unfit|Broken|Wrong|WrongAt|Stop|Stopped|Bad|Full|TooMany|High|Missing|Different|Unclosed|Open|Nothing|Unknown)$")


def point_1(name, s):
    for enum, line, variants in enums(s):
        bare = [v for v, d in variants if not d]
        if any(FAILED.match(v) or "Refusal" in d for v, d in variants) or (len(variants) == 2 and len(bare) == 1):
            yield line, f"enum {enum}: {', '.join(v + d.replace(chr(10), ' ') for v, d in variants)}"[:110]
    for m in re.finditer(r"\bstruct (\w+) \{[^}]*\b(present|closed): bool", s):
        yield s.count("\n", 0, m.start()) + 1, f"struct {m.group(1)}: the flag {m.group(2)} beside a value"
    for m in re.finditer(r"\bstruct (\w+) \{[^}]*\b(number|answer|kind|keyword): (u32|usize|Refusal)", s):
        yield s.count("\n", 0, m.start()) + 1, f"struct {m.group(1)}: the number {m.group(2)}: {m.group(3)}"
    groups = re.finditer(r"((?:^(?:pub )?const [A-Z0-9_]+: (?:u8|u32|usize) = \d+;\n\n?)+)", s, re.M)
    kinds = re.compile(
        r"\b(OTHER|NO_REFUSAL|MODULE|NO_NAME|NO_PREFIX|OPEN_ENDED|TOO_MANY|IMAGE_BROKEN|BUNDLE_BROKEN|TOO_MANY_NODES|UNKNOWN_MODULE|SCAN_REFUSED|NO_ENTRY_TEXT|LENT_TOO_SHORT|"
        r"TABLES_UNFIT|CYCLE_MET|READING|NAME_VALUE)\b"
    )
    for m in groups:
        names = re.findall(r"const ([A-Z0-9_]+):", m.group(1))
        if kinds.search(names[0]):
            yield s.count("\n", 0, m.start()) + 1, f"numbers: {', '.join(names)}"[:110]


KEYWORDS = set("fn let mut if else while for in loop match return break continue as pub const true false Some None Ok Err self".split())


def shape(params, body):
    """A function with its types, numbers and constants struck out and its names in the order in which they come."""
    text = params + " " + body
    names = {}

    def word(m):
        w = m.group(0)
        if w in KEYWORDS:
            return w
        if re.fullmatch(r"u8|u16|u32|u64|usize", w):
            return "T"
        if re.fullmatch(r"\d+|[A-Z][A-Z0-9_]*", w):
            return "N"
        return names.setdefault(w, "x%d" % len(names))

    text = re.sub(r'b?"[^"]*"', '"S"', text)
    text = re.sub(r"\b\w+\b", word, text)
    return re.sub(r"[\s,]+", "", text)


def point_2(all_functions):
    found = collections.defaultdict(list)
    for name, line, params, clauses, body, crate in all_functions:
        if len(body) > 60 and crate != "nuvaleta_c":
            found[shape(params, body)].append(f"{crate}:{line} {name}")
    return [v for v in found.values() if len(v) > 1]


def point_3(name, s):
    for m in re.finditer(r"\bwhile ([^{]*) \{", s):
        body = s[m.end() : matching(s, m.end() - 1)]
        v = re.search(r"\b(\w+) (\+|-)= 1;", body)
        if v and re.search(r"\b" + v.group(1) + r"\b", m.group(1)):
            yield s.count("\n", 0, m.start()) + 1, f"while {m.group(1)}"


BY_HAND = re.compile(
    r"\bfn (larger|largest|least|less|same|copy|copy_part|begins|clear_bytes|clear_words|clear|of_word|of_byte|of_link|mark|first|first_words|is_word|put|printable|"
    r"node_row|among|read_words)\b"
)


def point_4(name, s):
    for m in BY_HAND.finditer(s):
        yield s.count("\n", 0, m.start()) + 1, f"fn {m.group(1)}"


def point_5(all_functions):
    facts, groups = collections.defaultdict(set), collections.defaultdict(set)
    for name, line, params, clauses, body, crate in all_functions:
        if crate in ("nuvaleta", "nuvaleta_c"):
            continue
        for kind, text in clauses:
            if kind == "requires":
                for part in re.split(r" × ", text):
                    facts[part.strip(" ()")].add(f"{crate}::{name}")
        names = [p.split(":")[0].strip() for p in params.split(",") if ":" in p]
        for i in range(len(names) - 2):
            groups[tuple(names[i : i + 3])].add(f"{crate}::{name}")
    out = [f"fact in {len(v)} functions: {k}"[:130] for k, v in facts.items() if len(v) >= 3]
    out += [f"three parameters in {len(v)} functions: {', '.join(k)}" for k, v in groups.items() if len(v) >= 3]
    return out


def point_6(all_functions):
    for name, line, params, clauses, body, crate in all_functions:
        if crate == "nuvaleta_c":
            continue
        m = re.search(r"(\w+): &(?:mut )?\[(?:u8|u16|u32)\],\s*(n|m|count|items|rows|texts|used): usize", params)
        if m:
            yield f"{crate}:{line} {name}: {m.group(1)}, {m.group(2)}"


def point_7(all_functions):
    for name, line, params, clauses, body, crate in all_functions:
        m = re.match(r"\{\s*if (\w+) \{\s*return \w+(::\w+)*\(", body)
        if m and re.search(r"\b" + m.group(1) + r": bool", params):
            yield f"{crate}:{line} {name}: by {m.group(1)}"
        m = re.match(r"\{\s*match (\w+) \{\s*\w+::\w+ => \w+\(", body)
        if m and m.group(1) in params:
            yield f"{crate}:{line} {name}: by {m.group(1)}"


def main():
    every, totals = [], collections.OrderedDict()
    files = sorted(glob.glob(os.path.join(ROOT, "*", "src", "*.rt")))
    sources = [(f.split(os.sep)[-3], plain(open(f, encoding="utf-8").read())) for f in files]
    for crate, s in sources:
        every += [(*f, crate) for f in functions(s)]
    rows = []
    for title, rule in (("1 own enums, flags, numbers", point_1), ("3 index loops", point_3), ("4 by hand", point_4)):
        rows.append((title, [f"{c}:{line} {what}" for c, s in sources for line, what in rule(c, s)]))
    rows.append(("2 twins", [", ".join(g) for g in point_2(every)]))
    rows.append(("5 facts and parameters that travel", point_5(every)))
    rows.append(("6 buffers with a length beside", list(point_6(every))))
    rows.append(("7 switches", list(point_7(every))))
    answers = glob.glob(os.path.join(ROOT, "*", "proofs", "**", "Answers.antt"), recursive=True)
    n = sum(len(re.findall(r"^pub \S+ : goal\.", open(f, encoding="utf-8").read(), re.M)) for f in answers)
    for title, places in sorted(rows):
        print(f"{title}: {len(places)}")
        if LIST:
            for p in places:
                print("   ", p)
    print(f"8 answers in proofs: {n} in {len(answers)} files")


main()
