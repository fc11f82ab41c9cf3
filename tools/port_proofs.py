#!/usr/bin/env python3
"""Turns the old Proof.antt files of a crate, which name the steps of a function by place, to Invariants.antt and Answers.antt.

usage: python3 tools/port_proofs.py CRATE [F ..]     at the top of the repository, once every crate below CRATE proves

It asks rt for the names of goals and steps that an older Rattle gave and those of today. What it cannot turn it marks by 'LEFT:' in a comment, and lists.
The folders that it turned are to be checked: rt check says what is left."""

import json
import os
import re
import subprocess
import sys
import tempfile

WORD = r"[^\s(){};,.:=|\[\]\u03bb]+"
START = {"args", "requires", "ranges", "well_formed", "lifetimes", "utf8", "pre"}


def plain(name):
    return name.replace("_", "-").lower()


def blocks(t):
    """The head (comments and use lines) and the declarations of a file, each with the comment above it."""
    head, out, cur = [], [], None
    note = []
    for line in t.split("\n"):
        if line.startswith("--") or re.match(r"(pub )?use ", line):
            if cur is None and not out and (line.startswith("--") or "use " in line):
                head.append(line)
                continue
            if line.startswith("--"):
                note.append(line)
                cur = None
                continue
        if not line.strip():
            continue
        m = re.match(r"(?:(?:abbrev|pub|unfoldable|opaque) )*(" + WORD + r")(?: [^:=]*)?\s*:(?: |$)", line)
        starts = m and not line[0].isspace()
        if starts or re.match(r"(module|mutual|record|data|pub data|pub record)(\s|$)", line):
            cur = note + [line]
            note = []
            out.append(cur)
        elif cur is None:
            cur = note + [line]
            note = []
            out.append(cur)
        else:
            cur.append(line)
    return head, out


class Names:
    def __init__(self, d):
        self.places = {}
        for p in d["places"]:
            self.places.setdefault(p[0], p)
        self.parent = {p[0]: p[1] for p in d["places"]}
        self.step = {p[0]: p[2] for p in d["places"]}
        self.callee = {p[0]: p[3] for p in d["places"]}
        self.params = d["params"]
        self.loops = {plain(l[0][0]): (l[0][1], l[1], ch) for l, ch in zip(d["loops"], d["changed"])}
        self.arms = {p[0]: a for p, a in zip(d["places"], d["arms"]) if a}
        self.settled = set(d["settled"])
        self.needs = {}
        for (old, new), (place, _) in zip(d["needs"], d["asked_at"]):
            self.needs[plain(old)] = (new, place)

    def arm(self, place, parts):
        """What today's Rattle calls a fact of an arm, which had a step and a path of its own: `enum_told.given.1` is `in-V.is`."""
        cur = place
        while cur is not None:
            a = self.arms.get(cur)
            if a:
                fits = []
                for field, step, path in a[2]:
                    rest = parts[1:]
                    if rest[:1] == ["ensures"] and path[:1] == ["given"]:
                        rest = ["given"] + rest[1:]
                    if plain(step) == plain(parts[0]) and rest[: len(path)] == path:
                        fits.append((len(path), field, parts[1 + len(path) :]))
                if fits:
                    n, field, rest = max(fits)
                    return ".".join(["c", a[0], field] + rest)
            cur = self.parent.get(cur)
        return None

    def arm_step(self, place, step):
        cur = place
        while cur is not None:
            if any(plain(s) == plain(step) for _, s, _ in (self.arms.get(cur) or ["", 0, []])[2]):
                return True
            cur = self.parent.get(cur)
        return False

    def tuple(self, at, rest):
        """`auto.1.1.0` and `new.1.1.0` of a call are named after its third parameter."""
        params = self.params.get(self.callee.get(at))
        if not params or len(rest) < 2 or rest[0] not in ("auto", "new"):
            return rest
        n = 1
        while n < len(rest) and rest[n] == "1":
            n += 1
        if n - 1 >= len(params):
            return rest
        k = n - 1
        if n < len(rest) and rest[n] == "0":
            n += 1
        return [rest[0], params[k]] + rest[n:]

    def up(self, place, step):
        want = plain(step)
        cur, n = place, 0
        while cur is not None:
            if self.step.get(cur) and plain(self.step[cur][0]) == want:
                return cur
            cur = self.parent.get(cur)
            n += 1
        return None


PATH = re.compile(r"(?<![\w.'\u2080-\u2089-])([A-Za-z][\w'-]*)((?:\.[^\s().,;{}\[\]]+)+)")


def turn_body(body, names, place, left):
    """The body of an answer at a place, with paths through .before turned to c.STEP."""
    bound, whole, steps = {"c": place}, {}, {}

    def resolve(var, rest):
        parts = rest.split(".")[1:]
        cur = bound[var]
        while parts and parts[0] == "before":
            cur = names.parent.get(cur) or cur  # behind the start there is nothing
            parts = parts[1:]
        return cur, parts

    def path(m):
        var, rest = m[1], m[2]
        if var in whole:
            cur, parts = whole[var][0], whole[var][1] + rest.split(".")[1:]
        elif var in steps:
            return ".".join([var] + names.tuple(steps[var], rest.split(".")[1:]))
        elif var not in bound:
            return m[0]
        else:
            cur, parts = resolve(var, rest)
        if cur is None or not parts:
            left.append(m[0])
            return m[0]
        parts[0] = "requires" if parts[0] == "pre" else parts[0].replace("well-formed", "well_formed")
        if parts[0] in START:
            return "c." + ".".join(parts)
        arm = names.arm(cur, parts) or names.arm(place, parts)
        if arm:
            return arm
        at = names.up(cur, parts[0]) or names.up(place, parts[0])
        if at is None:
            if re.match(r"(told|fits)-", parts[0]):
                return "c." + ".".join(parts)
            left.append(m[0])
            return m[0]
        rest = parts[1:]
        if rest and rest[0] == "given" and names.callee.get(at):
            rest[0] = "ensures"
        return "c." + ".".join([names.step[at][1]] + names.tuple(at, rest))

    def bind(m):
        """let v = c.before.before in: the place is kept, the line goes."""
        v, var, rest = m[1], m[2], m[3]
        if var not in bound:
            return m[0]
        parts = rest.split(".")[1:]
        if parts and any(p != "before" for p in parts):
            cur, parts = resolve(var, rest)
            if cur is not None and names.arm_step(place, parts[0]) and parts[1:] in (["given"], ["given", "0"], ["given", "0", "1"]):
                whole[v] = (place, parts)
                return ""
            if cur is not None and len(parts) == 1 and names.up(cur, parts[0]):
                steps[v] = names.up(cur, parts[0])
            return PATH.sub(path, m[0])
        cur, _ = resolve(var, rest)
        if cur is None:
            left.append(m[0])
            return m[0]
        bound[v] = cur
        return ""

    out, i = [], 0
    let = re.compile(r"let ([A-Za-z][\w'-]*) = ([A-Za-z][\w'-]*)((?:\.[^\s().,;{}\[\]]+)*)\s+in\b[ \n]*")
    while True:
        m = let.search(body, i)
        if not m:
            out.append(PATH.sub(path, body[i:]))
            break
        out.append(PATH.sub(path, body[i : m.start()]))
        out.append(bind(m))
        i = m.end()
    got = "".join(out)
    for v in list(bound) + list(whole):
        if v != "c" and re.search(r"(?<![\w.'-])" + re.escape(v) + r"(?![\w'.-])", got):
            left.append(v)
    if re.search(r"(?<![\w.'-])c(?![\w'.-])", got):
        left.append("c")
    return got


def uses(head, text):
    """The use lines of the head that the text needs, with only the names that it has."""
    words = set(re.findall(WORD, text))
    # an operator is imported with holes
    out = []
    for line in head:
        m = re.match(r"(pub )?use ([^\s{}]+)\.\{(.*)\}$", line)
        if not m:
            if re.match(r"use ", line) and not re.search(r"\.proofs\..*\.(Statement|Tie|Lts)\b", line):
                out.append(line)
            continue
        if re.search(r"\.proofs\..*\.(Statement|Tie)$", m[2]):
            continue
        keep = []
        for item in m[3].split(", "):
            name = item.split(" as ")[-1]
            pieces = [x for x in re.split("[\u25cc\u25ef]", name) if x]
            if name in words or (name == "[]" and "[]" in text) or ("\u25cc" in name and all(x in text for x in pieces)):
                keep.append(item)
        if keep:
            out.append(f"use {m[2]}.{{{', '.join(keep)}}}")
    return out


def turn(crate, folder, names, report):
    f = os.path.relpath(folder, os.path.join("crates", crate, "proofs"))
    module = f"Rattle.{crate}.proofs." + f.replace(os.sep, ".")
    with open(os.path.join(folder, "Proof.antt"), encoding="utf-8") as it:
        t = it.read()
    head, decls = blocks(t)
    notes = [l for l in head if l.startswith("--")]
    head = [l for l in head if not l.startswith("--")]
    invariants, answers, left = [], [], []
    for lines in decls:
        text = "\n".join(lines)
        code = [l for l in lines if not l.startswith("--")]
        above = [l for l in lines if l.startswith("--")]
        sig = re.match(r"((?:(?:abbrev|pub|unfoldable|opaque) )*)(" + WORD + r")(?: \{[^}]*\})?\s*: (.*)", code[0])
        if not sig:
            answers.append(text)
            left.append(code[0][:60])
            continue
        name, kind = sig[2], sig[3]
        if re.search(r"[-_]spec$", name) and "statement" in kind:
            inline = [x for x in re.findall(r"\(\u03bb [^()]*\. ((?:[^()]|\([^()]*\))*)\)", text) if x not in ("search rules", "search needs", "tt")]
            if inline:
                left.append("inline: " + "; ".join(inline)[:200])
                answers.append("-- LEFT: " + " ; ".join(x.replace("\n", " ") for x in inline))
            continue
        m = re.match(r"tie\.(invariant|decreases|InvT|MeasureT|Left)-(\S+)", kind)
        if m:
            loop = names.loops.get(plain(m[2]))
            body = "\n".join(code[1:])
            b = re.match(r"(" + re.escape(name) + r")((?:\s+[^=\s]+)*)\s=(.*)", body, re.S)
            if not loop or not b:
                left.append("loop " + m[2])
                invariants.append("-- LEFT:\n" + text)
                continue
            new, params, changed = loop
            args = b[2].split()
            # the old arguments: each variable at the loop's start, and then those that change
            first = list(zip(params, changed))
            want = []
            for v, ch in first:
                want.append(("initial." + v) if ch else v)
            want += [v for v, ch in first if ch]
            if len(args) != len(want):
                left.append(f"loop {m[2]}: {len(args)} arguments, {len(want)} wanted")
                invariants.append("-- LEFT: " + " ".join(want) + "\n" + text)
                continue
            to = dict(zip(args, want))
            variable = r"(?<![\w.'\u2080-\u2089-])([A-Za-z\u2080-\u2089_][\w'\u2080-\u2089-]*)(?![\w'\u2080-\u2089-])"
            got = re.sub(variable, lambda w: "l." + to[w[1]] if w[1] in to else w[0], b[3])
            label = ("invariant-" if m[1] in ("invariant", "InvT", "Left") else "decreases-") + new
            invariants.append("\n".join(above + [f"abbrev pub {label} : goal.{label}", f"{label} l ={got}"]))
            continue
        m = re.match(r"tie\.Need-(\S+)", kind)
        if m:
            key = plain(re.sub(r"^overflow[-_]", "", m[1]))
            need = names.needs.get(key) or names.needs.get(plain(name)) or names.needs.get(key.replace("slice-bounds-", "part-"))
            if need is None:
                if key.startswith("same-length"):
                    continue
                left.append("goal " + m[1])
                answers.append("-- LEFT: " + m[1] + "\n" + "\n".join("-- " + l for l in lines))
                continue
            new, place = need
            if new in names.settled:
                continue
            body = "\n".join(code[1:])
            b = re.match(r"((?:unfolding [^\n]*\n)*)" + re.escape(name) + r"((?: [^=\s]+)*) =(.*)", body, re.S)
            if not b:
                left.append("shape " + m[1])
                answers.append("-- LEFT:\n" + "\n".join("-- " + l for l in lines))
                continue
            some = []
            got = turn_body(b[3], names, place, some)
            if some:
                left.append(f"{new}: {' '.join(some)[:160]}")
            args = [a for a in b[2].split() if a not in ("\u03bas",)]
            answers.append("\n".join(above + [f"pub {new} : goal.{new}", b[1] + f"{new} {' '.join(args)} ={got}"]))
            continue
        answers.append(text)
        if "lts." in text or "tie." in text:
            left.append("helper " + name)
    made = []
    whole = "\n\n".join(answers)
    if invariants:
        body = "\n\n".join(invariants)
        with open(os.path.join(folder, "Invariants.antt"), "w", encoding="utf-8") as it:
            it.write("\n".join(notes + sorted(set(uses(head, body))) + [f"use {module}.Given as goal", "", body, ""]))
        made.append("Invariants")
    if whole.strip():
        with open(os.path.join(folder, "Answers.antt"), "w", encoding="utf-8") as it:
            it.write("\n".join((notes if not invariants else []) + sorted(set(uses(head, whole))) + [f"use {module}.Goals as goal", "", whole, ""]))
        made.append("Answers")
    os.remove(os.path.join(folder, "Proof.antt"))
    if not os.listdir(folder):
        os.rmdir(folder)
    report.append(f"{f}: {' '.join(made) or 'nothing left'}" + (f"   LEFT: {' | '.join(left)}" if left else ""))


def main(argv):
    crate, only = argv[0], argv[1:]
    base = os.path.join("crates", crate)
    with tempfile.TemporaryDirectory() as d:
        r = subprocess.run(["rt", "check", "--generated", d + "/g", "--old-names"], cwd=base, capture_output=True, text=True)
        try:
            with open(d + "/g/names.json") as it:
                names = json.load(it)
        except OSError:
            print(r.stdout[-3000:], r.stderr[-3000:])
            return 1
    report = []
    for folder, dirs, files in sorted(os.walk(os.path.join(base, "proofs"))):
        if "Proof.antt" not in files:
            continue
        f = os.path.relpath(folder, os.path.join(base, "proofs"))
        if only and f not in only:
            continue
        key = f"Rattle-{crate}-proofs." + f.replace(os.sep, ".") + ".Lts"
        if key not in names:
            report.append(f"{f}: no names (by hand)")
            continue
        turn(crate, folder, Names(names[key]), report)
    print("\n".join(report))
    return 0


if __name__ == "__main__":
    raise SystemExit(main(sys.argv[1:]))
