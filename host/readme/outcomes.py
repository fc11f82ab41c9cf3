#!/usr/bin/env python3
"""outcomes.py: docs/PROMISES.md says of every public function which law gives it one outcome (the table under "One outcome"), and the law fits its promise.
`equal`: the promise, all clauses of it, says by equations what is returned and what is left in each buffer that is lent to be written, and the right sides
know neither. A field of `Views` (crates/demands/specs/OneOutcome.antt): the same, but of that view of what is returned. A field of `OneOutcome`: it speaks of
the record that the promise is. `open`: the function stands in the page's table of what is left open. `system`: it is one of crates/host_input or crates/replay,
and speaks with the system; the page says what it promises. The table under "Inner functions" names each public function that requires something, and no
other."""
import re
import sys
from pathlib import Path

ROOT = Path(__file__).resolve().parents[2]
PAGE = (ROOT / "docs" / "PROMISES.md").read_text()
LAWS = (ROOT / "crates" / "demands" / "specs" / "OneOutcome.antt").read_text()
# The crates that speak with the system.
SPEAK = ("host_input", "replay")
# A clause, which may have a name, and whose braces hold at most one pair within another. Of a function its name; parameters and answer; its clauses.
CLAUSE = r"\s*(?:requires|ensures)\*?(?: \w+)? \{[^{}]*(?:\{[^{}]*\}[^{}]*)*\}"
PUBLIC = re.compile(rf'^ *pub (?:extern "C" )?fn (\w+)((?:(?!requires|ensures)[^{{])*)((?:{CLAUSE})*)\s*\{{', re.M)
ENSURES = re.compile(r"ensures\*?(?: \w+)? \{(.*?)\}(?=\s*(?:requires|ensures|$))", re.S)


def told():
    """function of a crate: law, as the page's table says it."""
    part = PAGE.split("| crate | functions, by law |")[1].split("\n\n")[0]
    for crate, cell in re.findall(r"^\| (\w+) \| (.*) \|$", part, re.M):
        for law, names in re.findall(r"`([\w-]+)`: ([\w, ]+)", cell):
            yield from (((crate, name), law) for name in names.split(", "))


def clauses():
    """function of a crate: its parameters and answer, and its clauses."""
    for file in sorted((ROOT / "crates").glob("*/src/lib.rt")):
        for name, head, text in PUBLIC.findall(file.read_text()):
            yield (file.parts[-3], name), (head, text)


def written():
    """function of a crate: its parameters and answer, and its promise."""
    for key, (head, text) in clauses():
        yield key, (head, [" ".join(promise.split()) for promise in ENSURES.findall(text)])


def required():
    """What is wrong with the table of the functions that require something."""
    part = PAGE.split("| crate | functions | they require |")[1].split("\n\n")[0]
    told = {(crate, name) for crate, names in re.findall(r"^\| (\w+) \| ([\w, ]+) \|", part, re.M) for name in names.split(", ")}
    there = {key for key, (_, text) in clauses() if "requires" in text}
    return ["::".join(key) + (": it requires something, and the table does not have it" if key in there else ": it requires nothing")
            for key in sorted(told ^ there)]


def conjuncts(promise):
    """A clause, taken apart at each × that no bracket holds."""
    depth, parts = 0, [""]
    for c in promise:
        depth += (c == "(") - (c == ")")
        if c == "×" and depth == 0:
            parts.append("")
        else:
            parts[-1] += c
    return [p.strip()[1:-1] if p.strip().startswith("(") and p.strip().endswith(")") else p.strip() for p in parts]


def misfit(head, promises, view):
    """Why the promises are not a list of equations for all that is returned and left, or nothing."""
    left_to_say = set(re.findall(r"(\w+): &(?:'\w+ )?mut", head)) | ({"self"} if re.search(r"&(?:'\w+ )?mut self", head) else set())
    due = {f"{name}.new" for name in left_to_say}
    told = "->" not in head
    for promise in promises:
        for part in conjuncts(promise):
            if re.search(r"[→⊎↔¬]", part) or re.match(r"\w+ : ", part):
                return f"'{part}' is no equation"
            left, equals, right = part.partition(" ≡ ")
            if not equals or re.search(r"\w\.new\b|(?<![\w.])result\b", right):
                continue
            due.discard(left)
            told |= left in ({f"{view} result", f"result{view}"} if view else {"result", "result.now"})
    return ", ".join(sorted(due)) if told else "no equation says what is returned"


def named(promises, field):
    """What a field must speak of to be about these promises: each one's record; and of a field with a `let`, which is about certain arguments, these too."""
    for promise in promises:
        text = re.sub(r"\b\w+\.\w+", " ", promise)
        record, *others = (word for word in re.findall(r"[A-Za-z]\w*", text) if word not in {"true", "false", "result"})
        yield record if text.split()[0] == record else "a record, since the promise is none"
        yield from others if " let " in field else ()


def test():
    """Promises that leave something open are seen."""
    assert not misfit("(t: &mut [u8]) -> usize", ["(result ≡ f x) × (t.new ≡ g x) × (result < 5)"], "")
    assert not misfit("(t: &mut [u8]) -> usize", ["64 ≡ length t.new", "result ≡ f x", "t.new ≡ g x t.old"], "")
    assert not misfit("() -> Number", ["seen result ≡ f x"], "seen") and not misfit("() -> Node", ["result.at ≡ f x"], ".at")
    assert misfit("(t: &mut [u8]) -> usize", ["result ≡ f x"], "") == "t.new"
    assert misfit("(t: &mut [u8]) -> usize", ["result ≡ f x", "t.new ≡ g t.new"], "") == "t.new"
    for promise in ("result ≡ f result", "result < 5", "seen result ≡ f x", "(n : ℕ) × (result ≡ f n)", "result ≡ f x → ⊥", "result ≡ f x ⊎ P x",
                    "result ≡ true ↔ P x", "¬ (result ≡ f x)", "result.at ≡ f x", "n ≡ f x"):
        assert misfit("() -> usize", [promise], ""), promise
    assert misfit("(&mut self) -> usize", ["result ≡ f x"], "") == "self.new"
    text = "pub fn f(t: &mut [u8]) -> u8\n    requires a { P }\n    ensures b { Q { x } }\n    ensures { result ≡ y }\n{\n    t[0]\n}\n"
    (name, _, clauses), = PUBLIC.findall(text)
    assert (name, [promise.strip() for promise in ENSURES.findall(clauses)]) == ("f", ["Q { x }", "result ≡ y"])


def main():
    test()
    laws, functions, faults = dict(told()), dict(written()), []
    views = {name: view.split()[0] if "(" not in view else re.search(r"(\w+ s|\.\w+)\)", view)[1]
             for name, view in re.findall(r"^  pub (\w+) : .*LosesNothing (.*)$", LAWS.split("pub record OneOutcome")[0], re.M)}
    fields = dict(re.findall(r"^  pub ([\w-]+) : (.*?)(?=^  (?:--|pub)|\Z)", LAWS.split("pub record OneOutcome")[1], re.M | re.S))
    left_open = set(re.findall(r"`(\w+::\w+)`", PAGE.split("| function | what is left open | why |")[1].split("\n\n")[0]))
    for key in sorted(functions.keys() | laws.keys()):
        name, law = "::".join(key), laws.get(key)
        if law is None or key not in functions:
            faults.append(f"{name}: " + ("the table does not have it" if law is None else "there is no such public function"))
        elif law == "equal" or law in views:
            view = views.get(law, "")
            view = f"{view.split()[0]} s.now" if view.endswith(" s") else view
            fault = misfit(*functions[key], view)
            faults += [f"{name}: {law}: {fault}"] if fault else []
        elif law == "open":
            faults += [] if name in left_open else [f"{name}: not in the table of what is left open"]
        elif law == "system":
            faults += [] if key[0] in SPEAK else [f"{name}: only {' and '.join(SPEAK)} speak with the system"]
        else:
            promises, field = functions[key][1], fields.get(law, "")
            lost = set(named(promises, field)) - set(re.findall(r"[A-Za-z]\w*", field))
            faults += [f"{name}: {law} of OneOutcome does not speak of {', '.join(sorted(lost))}"] if lost or not promises else []
    if faults:
        sys.exit("\n".join(["outcomes: of these functions docs/PROMISES.md does not say rightly why they have one outcome:", *faults]))
    if required():
        sys.exit("\n".join(["outcomes: docs/PROMISES.md does not say rightly which functions require something:", *required()]))
    print(f"outcomes: docs/PROMISES.md says of each of the {len(functions)} public functions why it has one outcome, and which require something")


if __name__ == "__main__":
    main()
