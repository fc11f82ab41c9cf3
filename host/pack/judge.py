"""What is wrong with texts and libraries that can be packed all the same. What a text says of itself, and what `order` would refuse, is told by the built
command, from the library's own scans; here it is held against what was asked for.
"""
import json
import os
import re
import subprocess
import tempfile
from typing import NamedTuple

from form import Unusable

SECONDS = 300  # so long the command is waited for: it needs milliseconds, and for names that were chosen to be slow some seconds
TO_DO = {  # what to do about what only packing knows; about a refusal the command tells it
    "missing": "get the text from the router by get-schema, or name its folder by --texts",
    "empty": "get the text anew",
    "not_utf8": "save the text as UTF-8",
    "byte_order_mark": "save the text without its first three bytes",
    "no_module": "get the text anew, and keep what is inside the envelope alone",
    "name": "get the text of that name, or give the file the name that stands inside",
    "revision": "get the text of that revision from the router: the imports of another may differ",
    "parent": "get the text that this router has, or correct the library",
    "passed_over": "quote the word that ends the scan or move it behind the imports, and put a blank behind import or include: the edge is missing otherwise",
    "not_read": "write it under the name and namespace that a library has, or ask the router anew; an edge may be missing otherwise",
    "not_included": "get the texts that this router has, as a module includes all its submodules; or take the submodule out of the library",
    "other_imports": "let the entry of that revision be the first in the library, or pack the sets that have it on their own",
    "cut_off": "get the text anew, or close its module by } if nothing is missing: edges may be missing otherwise",
    "augments": "see to it that the import of that prefix is read, or list the text under augmented-by of the module: an edge may be missing otherwise",
}
PLACES = "../rust/build/release/nuvaleta", "../../bin/nuvaleta"  # from this folder: in a clone, in an install


class Problem(NamedTuple):
    level: str  # error, warning or note
    kind: str
    words: str
    text: str = None  # its name in the bundle
    file: str = None
    number: int = None  # of the refusal that an order would give
    line: int = None
    column: int = None
    advice: str = None

    def to_do(self):
        return self.advice or TO_DO.get(self.kind)

    def said(self):
        place = f", line {self.line}, column {self.column}" if self.line else ""
        words = f"refused {self.number}: {self.words.replace(place, '', 1) if place else self.words}" if self.kind == "refused" else self.words
        return f"{self.file}{place}: {words}" if self.file else words

    def members(self):
        return {**{name: value for name, value in self._asdict().items() if name != "level"}, "advice": self.to_do()}


class Role(NamedTuple):
    """What the text under a name is to be."""
    name: str
    revision: str = ""
    parent: str = None  # the module that lists a submodule
    import_only: bool = False  # it is, or belongs to, an import-only module
    by_file: bool = False  # it is known by its file alone, and may be a module or a submodule of any

    def asks(self):
        return "its file is named" if self.by_file else "the library asks for"


def due(roles):
    """Those that the one text under a name must fit: of implemented modules, or if there is none, of import-only modules."""
    return [role for role in roles if not role.import_only] or list(roles)


# ---- the built command


def command():
    """The path of the command: the one that NUVALETA names, else the one of the clone or the install that this program is part of."""
    here = os.path.dirname(os.path.realpath(__file__))
    given = os.environ.get("NUVALETA")
    for path in [given] if given else [os.path.normpath(os.path.join(here, place)) for place in PLACES]:
        if os.path.isfile(path) and os.access(path, os.X_OK):
            return path
    if given:
        raise Unusable(f"{given}: not a program that can be run; NUVALETA is to be the path of the built command")
    raise Unusable("the built command, which reads the texts, is not there: `./nuvaleta pack ..` in the clone builds it first; "
                   "or set NUVALETA to its path")


def ask(words, data):
    """The command's answer; None if it is not there in time."""
    path = command()
    try:
        ran = subprocess.run([path, *words], input=data, capture_output=True, timeout=SECONDS, check=False)
        if ran.returncode in (0, 1):
            return json.loads(ran.stdout)
    except subprocess.TimeoutExpired:
        return None
    except OSError as error:
        raise Unusable(f"{path}: {error.strerror}") from None
    except ValueError:
        pass
    said = ran.stderr.decode(errors="replace").splitlines()
    raise Unusable(f"{path} {words[0]}: not the answer that is due{': ' + said[0] if said else ''}: build the command anew, or set NUVALETA to its path")


def describe(bundle):
    """What each text of a bundle says of itself, by name."""
    answer = ask(["texts", "--json", "-"], bundle)
    if answer is None or "texts" not in answer:
        raise Unusable("the command does not tell what the texts say of themselves: build it anew")
    return {one["name"]: one for one in answer["texts"]}


def walk(image, bundle, complete):
    """All that an order would refuse, with --complete or without; None if that was given up."""
    with tempfile.TemporaryDirectory(prefix="nuvaleta-pack-") as folder:
        path = os.path.join(folder, "image")
        with open(path, "wb") as file:
            file.write(image)
        answer = ask(["check", "--json", *(["--complete"] if complete else []), path, "-"], bundle)
    if answer is not None and "faults" not in answer:
        raise Unusable("the command does not tell what an order would refuse: build it anew")
    return answer and answer["faults"]


# ---- one text


LOOKS = {  # what a text seems to be that begins so, whatever the case of its letters
    b"<!doctype html": "a page of HTML, as a server gives it for what it does not have",
    b"<html": "a page of HTML, as a server gives it for what it does not have",
    b"<": "XML: if the text is inside, take it out of its envelope",
    b"{": "JSON: if the text is inside, take it out of its envelope",
    b"[": "JSON: if the text is inside, take it out of its envelope",
    b'"': "JSON: if the text is inside, take it out of its envelope",
    b"#": "a reply in NETCONF's chunks: take the text out of them",
    b"\xff\xfe": "UTF-16: write it in UTF-8",
    b"\xfe\xff": "UTF-16: write it in UTF-8",
}


def no_module(text, metadata):
    """(kind, words) for a text that is no module or submodule at all. One that does not begin with that word or a comment is none, whatever a scan finds
    further on."""
    begin = text.lstrip(b" \t\r\n\f\v\xef\xbb\xbf")[:100]
    if not begin:
        return "empty", "no module or submodule statement: it is empty"
    for lead, seems in LOOKS.items():
        if begin.lower().startswith(lead):
            return "no_module", f"no module or submodule statement: it looks like {seems}"
    if metadata.get("refused", {}).get("number") == 9 or not re.match(rb"(sub)?module\b|/[/*]", begin):
        return "no_module", f"no module or submodule statement; it begins with {begin.splitlines()[0][:40].decode('ascii', 'backslashreplace')!r}"
    return None


def revisions(metadata):
    """The revisions by which a text may be called: the first one written and the newest one."""
    return list(dict.fromkeys(filter(None, (metadata["first_revision"], metadata["newest_revision"]))))


def unlike(role, metadata):
    """(kind, words) of the first thing by which a text is not what it is to be; None if there is none."""
    own, parent, inside = metadata["name"], metadata["parent"], revisions(metadata)
    if own != role.name:
        return "name", f"it calls itself {own}; {role.asks()} {role.name}"
    if not role.by_file and parent != role.parent:
        is_, wanted = (f"it belongs to {parent}" if parent else "it has no belongs-to"), (f"a submodule of {role.parent}" if role.parent else "a module")
        return "parent", f"{is_}; {role.asks()} {wanted}"
    if role.revision and role.revision not in inside:
        return "revision", f"its revision is {' or '.join(inside) or '(none)'}; {role.asks()} {role.revision}"
    return None


def file_name(path, metadata):
    """The words of a warning where a revision in a file's name is not the one inside."""
    revision = os.path.basename(path)[:-len(".yang")].partition("@")[2]
    inside = revisions(metadata)
    return f"its revision is {' or '.join(inside) or '(none)'}, and its file's name says {revision}" if revision and revision not in inside else None


def text_problems(word, text, path, told, roles):
    """What is wrong with the text under a name, which is to be one of these."""
    def problem(level, kind, words, line=None, column=None):
        return Problem(level, kind, words, word, path, line=line, column=column)

    found = [problem("warning", w["kind"], w["words"], w["line"], w["column"]) for w in told["warnings"]]
    metadata = told["metadata"]
    none = no_module(text, metadata)
    if none:
        return [problem("error", *none)]
    if "refused" in metadata:
        if "refused" not in told["dependencies"]:
            why = metadata["refused"]
            found.append(problem("warning", "metadata", f"its name and revision cannot be read: {why['words']}", why.get("line"), why.get("column")))
        return found
    wrongs = [unlike(role, metadata) for role in due(roles)]
    if None not in wrongs:
        found.append(problem("error", *wrongs[0]))
    others = dict.fromkeys(unlike(role, metadata) for role in roles)
    found += [problem("warning", *wrong) for wrong in others if None in wrongs and wrong and wrong[0] != "revision"]
    named = file_name(path, metadata)
    if named and not any(one.kind == "revision" for one in found):
        found.append(problem("warning", "file_name", named))
    return found


# ---- a whole library


COMMENT = rb"//[^\n]*(?:\n|\Z)|/\*(?:[^*]|\*(?!/))*(?:\*/|\Z)"  # what never ends goes on to the end, so that a search takes one turn
STRING = rb"\"(?:\\.|[^\"\\])*(?:\"|\\?\Z)|'[^']*(?:'|\Z)"


def place(fault, text):
    """Line and column of a fault; those of an import or include that nothing resolves are looked for in its text."""
    if fault.get("line") or fault.get("by") not in ("import", "include") or text is None:
        return fault.get("line"), fault.get("column")
    keyword, name = fault["by"].encode(), re.escape(fault["listed"].encode())
    statement = rb"(?P<statement>(?<![\w.-])%s(?:\s|%s)+[\"']?%s(?![\w.:-]))" % (keyword, COMMENT, name)
    found = next((one for one in re.finditer(b"|".join((COMMENT, statement, STRING)), text, re.DOTALL) if one["statement"]), None)
    before = text[:found.start()].split(b"\n") if found else []
    return (len(before), len(before[-1].decode(errors="replace")) + 1) if found else (None, None)


def fault_words(fault):
    """The words of a fault with what else is known of it."""
    words = fault["words"]
    if fault.get("expected") and fault.get("found"):
        words += f"; expected {fault['expected']}, found {fault['found']}"
    if fault.get("ring"):
        words += ": " + " before ".join(fault["ring"] + fault["ring"][:1])
    return words


def library_problems(image, bundle, texts, files, told, complete):
    """All that an order would refuse, but for what has been told of a text already: that it is missing, or no YANG at all."""
    faults = walk(image, bundle, complete)
    if faults is None:
        return [Problem("error", "slow", f"given up after {SECONDS} s: the command does not say whether there is an order")]
    known = {(one.text, one.kind) for one in told}
    found, texts = [], dict(texts)
    for fault in faults:
        word = fault.get("text")
        if fault["number"] in (23, 24) and (fault.get("listed") or fault.get("name"), "missing") in known:
            continue
        if fault["number"] == 25 and (word, "no_module") in known:
            continue
        line, column = place(fault, texts.get(word))
        found.append(Problem("error", "refused", fault_words(fault), word, files.get(word), fault["number"], line, column, fault.get("advice")))
    return found


def unread(told, files, found):
    """Warnings for texts that a scan refuses and that no walk reads."""
    known = {one.text for one in found if one.number == 25 or one.kind == "no_module"}
    return [Problem("warning", *scan_refuses(why), word, files[word], None, why.get("line"), why.get("column"))
            for word, one in told.items() if word not in known for why in [one["dependencies"].get("refused")] if why]


def scan_refuses(why):
    """(kind, words) for a text that a scan refuses. What comes of how it was saved has a kind of its own."""
    kind, words = "scan", why["words"]
    if why["number"] == 12:
        kind = "not_utf8"
    elif why["number"] == 3 and why["found"].startswith("a byte order mark"):
        kind, words = "byte_order_mark", "it has a byte order mark"
    return kind, f"a scan refuses it, though nothing reads it now: {words}"


def not_included(entries, told, files):
    """Warnings for submodules with imports or includes that no walk reads, though it reads the module that they belong to."""
    seen, due = set(), list(entries)
    while due:
        word = due.pop()
        if word not in seen and word in told:
            seen.add(word)
            due += names(told[word], "includes")
    scanned = {word for word, one in told.items() if "refused" not in one["dependencies"]}
    lost = {word: names(told[word], "imports") + names(told[word], "includes") for word in files if word in scanned - seen}
    return [Problem("warning", "not_included", f"no text that is read includes it, so its own imports and includes give no edge: {', '.join(words)}",
                    word, files[word])
            for word, words in lost.items() if words and told[word]["metadata"].get("parent") in scanned]


def names(one, kind):
    """Of one text the names of its imports or includes, as far as they are read."""
    return [row["name"] for row in one["dependencies"].get(kind, [])]
