"""A router's library as it hands it out: yang-library of RFC 8525 or modules-state of RFC 7895, in XML or JSON, bare, in its envelope or in NETCONF's framing.

Whatever it was written in, it becomes a list of Rows, one for each module set, and then the sets of an image.
"""
import json
import re
import xml.etree.ElementTree as ET
from typing import NamedTuple
from xml.parsers import expat

from form import ImportOnly, Module, Refused, Set

MODULE = "ietf-yang-library"
NAMESPACE = "urn:ietf:params:xml:ns:yang:" + MODULE
XMLNS = "{" + NAMESPACE + "}"
KINDS = "yang-library", "modules-state"  # servers of RFC 8525 give the same library in both forms
WHITE = b" \t\r\n"
ROOTS = 16  # more than this in one message are not read


class Entry(NamedTuple):
    name: str
    revision: str
    submodules: list = []  # of entries
    augmenting: list = []
    deviations: list = []


class Rows(NamedTuple):
    name: str
    modules: list
    import_only: list


# ---- NETCONF's framing (RFC 6242)

END = b"]]>]]>"
CHUNK = re.compile(rb"\n#([1-9][0-9]{0,9})\n")
CHUNKS_END = re.compile(rb"\n##(\n|\Z)")
GAP = re.compile(rb"[ \t\r\n]*?(?=\n#|[^ \t\r\n]|\Z)")


def messages(data):
    """The messages of a session without their framing: behind each its end marker, or all in chunks. A document without framing is one message. With each
    comes the number of line breaks before it, None for one in chunks."""
    if data.startswith(b"#"):
        data = b"\n" + data  # the line break before the first chunk is easily lost when a reply is saved
    found, at = [], GAP.match(data).end()
    while at < len(data):
        if data.startswith(b"\n#", at):
            message, at = unchunked(data, at)
            found.append((message, None))
        else:
            end, lines = data.find(END, at), data.count(b"\n", 0, at)
            message, at = (data[at:], len(data)) if end < 0 else (data[at:end], end + len(END))
            found.append((message, lines))
        at = GAP.match(data, at).end()
    return found


def unchunked(data, at):
    """The message in the chunks from here on, and the place behind it."""
    parts = []
    while not CHUNKS_END.match(data, at):
        what = f"chunked framing, chunk {len(parts) + 1}"
        if at >= len(data):
            raise Refused(f"{what}: neither this chunk nor the end of all, `##`, is there: the reply is cut off")
        head = CHUNK.match(data, at)
        if head is None:
            raise Refused(f"{what}: it does not begin with `#`, its length and a line break: the length before it is wrong, or lines were changed")
        size = int(head[1])
        part = data[head.end():head.end() + size]
        if len(part) < size:
            raise Refused(f"{what}: {size:,} bytes are told, and {len(part):,} are there: the reply is cut off, or the length is wrong")
        parts.append(part)
        at = head.end() + size
    return b"".join(parts), at + 4


# ---- XML


def spot(message, lines, at):
    """Line and column of a place of a message, behind so many line breaks of its document."""
    before = message[:at]
    line, column = before.count(b"\n") + 1 + (lines or 0), at - before.rfind(b"\n")
    return f"line {line}, column {column}{' of the message without its chunks' if lines is None else ''}"


class Root:
    """Reads one root element; what stands behind it is left over. `where` says in words where a place is."""

    def __init__(self, data, where):
        self.builder, self.depth, self.element, self.rest = ET.TreeBuilder(), 0, None, b""
        parser = expat.ParserCreate(None, "}")
        parser.buffer_text = True
        parser.StartElementHandler, parser.EndElementHandler = self.start, self.end
        parser.CharacterDataHandler, parser.StartDoctypeDeclHandler = self.builder.data, self.doctype
        try:
            parser.Parse(data, True)
        except expat.ExpatError as error:
            if self.element is None:
                raise Refused(f"no XML: {expat.ErrorString(error.code)}: {where(parser.ErrorByteIndex)}") from None
            self.rest = data[parser.ErrorByteIndex:]
        except (LookupError, ValueError):
            raise Refused("no XML that can be read: its declaration has an encoding that is not known here") from None

    def start(self, word, _):
        self.depth += 1
        self.builder.start("{" + word if "}" in word else word, {})

    def end(self, word):
        self.depth -= 1
        closed = self.builder.end("{" + word if "}" in word else word)
        if self.depth == 0:
            self.element = closed

    def doctype(self, *_):
        raise Refused("a DOCTYPE; a library document has none, and one that does is not read")


def roots(message, lines):
    """The root elements of a message: one, or several one behind the other, as yanglint prints them."""
    found, rest = [], message.lstrip(WHITE)
    while rest or not found:
        if len(found) == ROOTS:
            raise Refused(f"more than {ROOTS} root elements one behind the other")
        start = len(message) - len(rest)
        try:
            root = Root(rest, lambda at, start=start: spot(message, lines, start + at))
        except Refused as why:
            raise Refused(f"behind the root element {local(found[-1])}: {why}" if found else str(why)) from None
        found.append(root.element)
        rest = root.rest
    return found


def local(element):
    return element.tag.rpartition("}")[2]


class Xml:
    """An element of the document: its children by name, in the namespace of the library."""

    def __init__(self, element):
        self.element = element

    def words(self):
        """The name of each child, and whether it is of the library's own namespace."""
        return [(local(child), child.tag.startswith(XMLNS)) for child in self.element]

    def rows(self, word):
        return [Xml(child) for child in self.element.findall(XMLNS + word)]

    inner = rows

    def leaves(self, word, anywhere=False):
        found = self.element.findall(("{*}" if anywhere else XMLNS) + word)
        for inner in (inner for child in found for inner in child):
            raise Refused(f"{word} has an element {local(inner)} inside; a text alone is due")
        return [(child.text or "").strip() for child in found]

    def leaf(self, word, what):
        found = self.leaves(word)
        if len(found) > 1:
            raise Refused(f"{what}: {word} stands there {len(found)} times")
        return found[0] if found else ""


def not_a_library(root):
    """What is said of a root element without a library in it."""
    errors = error_messages(root)
    said = f"; it is an error: {errors[0]}" if errors else ""
    return Refused(f"no yang-library and no modules-state of the namespace {NAMESPACE} in the root element {local(root)}{said}")


def error_messages(root):
    return [(element.text or "").strip() for element in root.iterfind(".//{*}error-message")]


def xml_libraries(data):
    """The element of each kind that is there, and warnings."""
    found, warnings = {kind: [] for kind in KINDS}, []
    for root in (root for message, lines in messages(data) for root in roots(message, lines)):
        inside = {kind: list(root.iter(XMLNS + kind)) for kind in KINDS}
        if not any(inside.values()) and local(root) != "hello":
            raise not_a_library(root)
        warnings += [f"the reply has an error beside the library, which may be cut short: {words}" for words in error_messages(root)]
        for kind in KINDS:
            found[kind] += inside[kind]
    for kind in KINDS:
        if len(found[kind]) > 1:
            raise Refused(f"{len(found[kind])} {kind} elements; one is due")
    if not any(found.values()):
        raise Refused("a hello alone; the reply with the library is not there")
    return {kind: Xml(elements[0]) for kind, elements in found.items() if elements}, warnings


# ---- JSON


class Json:
    """An object of the document: its members by name, with or without the prefix of the library's module."""

    def __init__(self, members):
        if not isinstance(members, dict):
            raise Refused(f"{json.dumps(members)[:40]} stands where an object is due")
        self.members = members

    def words(self):
        """The name of each member, and whether it is of the library's own module. Those with `@` are annotations (RFC 7952)."""
        pairs = (key.rpartition(":") for key in self.members if not key.startswith("@"))
        return [(word, not colon or prefix == MODULE) for prefix, colon, word in pairs]

    def member(self, word, anywhere=False):
        found = [v for k, v in self.members.items() if k in (word, f"{MODULE}:{word}") or anywhere and k.endswith(":" + word)]
        if len(found) > 1:
            raise Refused(f"{word} stands twice in one object")
        return found[0] if found else None

    def items(self, word, kind, anywhere=False):
        found = self.member(word, anywhere)
        if found is None:
            return []
        if not isinstance(found, list) or not all(isinstance(item, kind) for item in found):
            raise Refused(f"{word} is not a list of {'objects' if kind is dict else 'strings'}")
        return found

    def rows(self, word):
        return [Json(item) for item in self.items(word, dict)]

    def inner(self, word):
        found = self.member(word)
        return [] if found is None else [Json(found)]

    def leaves(self, word, anywhere=False):
        return [item.strip() for item in self.items(word, str, anywhere)]

    def leaf(self, word, what):
        found = self.member(word)
        if found is None:
            return ""
        if not isinstance(found, str):
            raise Refused(f"{what}: {word} is not a string")
        return found.strip()


def once(pairs):
    members = dict(pairs)
    if len(members) != len(pairs):
        raise Refused("a member stands twice in one object: " + next(k for i, (k, _) in enumerate(pairs) if k in dict(pairs[:i])))
    return members


def json_libraries(data):
    """The object of each kind that is there: named, or known by the list that it has."""
    try:
        top = Json(json.loads(data, object_pairs_hook=once))
    except (ValueError, RecursionError) as error:
        raise Refused(f"no JSON: {error}") from None
    for _ in range(2):
        found = {kind: Json(top.member(kind)) for kind in KINDS if top.member(kind) is not None}
        found = found or {kind: top for kind, rows in zip(KINDS, ("module-set", "module")) if top.member(rows) is not None}
        if found:
            return found, []
        if top.member("data", anywhere=True) is not None:
            top = Json(top.member("data", anywhere=True))
    raise Refused(f"no {MODULE}:yang-library or {MODULE}:modules-state, and no module-set or module")


# ---- what both say


def named(row, what):
    """Name and revision of an entry."""
    word = row.leaf("name", what)
    if not word:
        raise Refused(f"{what} without a name")
    return Entry(word, row.leaf("revision", f"{what} {word}"))


def entry(row, what, state=False):
    """A module's entry. In a modules-state a deviation is an entry too, and drafts of RFC 7895 have a container around the submodules."""
    own = named(row, what)
    what = f"{what} {own.name}"
    try:
        submodules = row.rows("submodule") + [inner for box in row.inner("submodules") for inner in box.rows("submodule")]
        deviations = [named(r, f"{what}, a deviation").name for r in row.rows("deviation")] if state else row.leaves("deviation")
        return own._replace(submodules=[named(r, f"{what}, a submodule") for r in submodules],
                            augmenting=row.leaves("augmented-by", anywhere=True), deviations=deviations)
    except Refused as why:
        raise Refused(str(why) if str(why).startswith(what) else f"{what}: {why}") from None


def yang_library(library):
    sets = []
    for at, row in enumerate(library.rows("module-set"), 1):
        word = row.leaf("name", f"set {at}")
        what = f"set {at} ({word})" if word else f"set {at}"
        sets.append(Rows(what, [entry(r, f"{what}, module") for r in row.rows("module")],
                         [entry(r, f"{what}, import-only module") for r in row.rows("import-only-module")]))
    return sets


def modules_state(state):
    rows = Rows("modules-state", [], [])
    for row in state.rows("module"):
        one = entry(row, "modules-state, module", state=True)
        what = f"modules-state, module {one.name}"
        kind = row.leaf("conformance-type", what)
        if kind not in ("implement", "import"):
            raise Refused(f"{what}: its conformance-type is {kind!r}; implement or import is due" if kind else f"{what}: no conformance-type")
        (rows.modules if kind == "implement" else rows.import_only).append(one)
    return [rows]


def neither(data):
    """What is said of a document that begins neither as XML nor as an object."""
    if not data.strip():
        return Refused("it is empty")
    try:
        json.loads(data)
    except (ValueError, RecursionError):
        return Refused("neither XML nor JSON")
    return Refused("no JSON object")


# What each thing of a library may have inside; drafts of RFC 8525 have a checksum.
OF_MODULE = {"name", "revision", "namespace", "location", "schema", "feature", "submodule", "submodules", "deviation", "conformance-type", "augmented-by"}
INSIDE = {
    "yang-library": {"module-set", "schema", "datastore", "content-id", "checksum"}, "modules-state": {"module-set-id", "module"},
    "module-set": {"name", "module", "import-only-module"}, "module": OF_MODULE, "import-only-module": OF_MODULE,
    "submodule": {"name", "revision", "location", "schema"},
}


def not_read(row, kind, what):
    """(word, whether it is of the library's own module, where) for each thing that is not read and looks as if an edge came of it."""
    found = [(word, own, what) for word, own in row.words() if (word not in INSIDE[kind] if own else word in INSIDE or word == "deviation")]
    for inner in sorted(INSIDE[kind] & set(INSIDE)):
        for child in row.rows(inner):
            found += not_read(child, inner, f"{what}, {inner} {child.leaf('name', inner)}")
    return found


def not_read_words(found):
    """A warning for each word, with the first place and how many there are."""
    places = {}
    for word, own, what in found:
        places.setdefault((word, own), []).append(what)
    return [f"{what[0]}: {word} is not read, as it is {'no name that a library has' if own else 'not of ' + MODULE}"
            f"{f'; there are {len(what):,} of them' if len(what) > 1 else ''}" for (word, own), what in places.items()]


def things(all_rows):
    """The names of all entries, and all deviations."""
    entries = [one for rows in all_rows for one in rows.modules + rows.import_only]
    return {one.name for one in entries} | {f"deviation {word} of {one.name}" for one in entries for word in one.deviations}


def beside(all_rows, kind, library):
    """Warnings about the library's other form, which is not taken."""
    try:
        more = sorted(things(READERS[kind](library)) - things(all_rows))
    except Refused as why:
        return [f"{kind}, which is not taken, cannot be read: {why}"]
    return [f"{kind}, which is not taken, has more than {KINDS[0]}: {', '.join(more)}"] if more else []


READERS = {"yang-library": yang_library, "modules-state": modules_state}


def read(data):
    """The rows of a library document, and warnings. Of its two forms the first one is taken that has a module."""
    first = data.lstrip(b"\xef\xbb\xbf\xfe\xff\0" + WHITE)[:1]
    if first not in (b"<", b"{", b"#"):
        raise neither(data)
    found, warnings = json_libraries(data) if first == b"{" else xml_libraries(data)
    (kind, library), *others = found.items()
    all_rows = READERS[kind](library)
    if others and not things(all_rows):
        kind, library = others.pop()
        all_rows = READERS[kind](library)
    for other in others:
        warnings += beside(all_rows, *other)
    return all_rows, warnings + not_read_words(not_read(library, kind, kind))


def to_set(rows):
    only = {}
    for one in rows.import_only:
        revisions = only.setdefault(one.name, {})
        if one.revision in revisions:
            raise Refused(f"{rows.name}, import-only module {one.name}: revision {one.revision or '(none)'} stands there twice")
        revisions[one.revision] = [s.name for s in one.submodules]
    return Set([Module(m.name, [s.name for s in m.submodules], m.augmenting, m.deviations) for m in rows.modules],
               [ImportOnly(word, list(revisions.values())) for word, revisions in only.items()])
