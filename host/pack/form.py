"""The house form of a library image and of a bundle (document 01): a writer that checks every limit, and a plain reader.

An image is a list of Set. A bundle is a list of (name, text), the text as bytes. What the writer refuses is a `Refused` that says what
it is about and which limit it breaks; what the reader refuses is a `Wrong` with the place of the first wrong number or name.
"""
from typing import NamedTuple

SETS, MODULES, LIST, REVISIONS, NAME, IMAGE = 16, 512, 64, 8, 128, 65_536
TEXTS, TEXT, BUNDLE = 2_048, 2_097_151, 16_777_216
NUMBER = 2_097_151
SCANNED = 1_048_576  # the longest text that a scan takes, shorter than what a bundle takes

TO_DO = {
    "sets": "put several of them together in the document; list a module that stands in two of them once, with the lists of both",
    "submodules": "leave those out that nothing includes; or name the module once more in another set, with the rest, and take --complete",
    "augmenting modules": "name the module once more in another set, with the rest of the list",
    "deviations": "name the module once more in another set, with the rest of the list",
    "revisions": "keep those whose submodules differ: a bundle has one text under a name",
    "texts": "leave those out that this router does not use: a graph has at most 1,024 names",
}
SHORTER_IMAGE = "leave modules out that are not registered, or pack each schema of the router on its own"
SHORTER_TEXTS = "cut the longest texts behind their imports and includes: a graph needs no more of them"


class Module(NamedTuple):
    name: str
    submodules: list = []
    augmenting: list = []
    deviations: list = []


class ImportOnly(NamedTuple):
    name: str
    revisions: list  # of lists of submodules


class Set(NamedTuple):
    modules: list = []
    import_only: list = []


class Refused(Exception):
    """What cannot be packed, said for a person."""


class Unusable(Exception):
    """A file or folder that cannot be read or written, said for a person."""


class Wrong(Exception):
    """An image or bundle that breaks its form."""

    def __init__(self, place):
        super().__init__(place)
        self.place = place


# ---- writing


def number(n):
    assert 0 <= n <= NUMBER
    out = bytearray()
    while n >= 128:
        out.append(n % 128 + 128)
        n //= 128
    out.append(n)
    return bytes(out)


def name(word, what):
    if not 1 <= len(word) <= NAME:
        raise Refused(f"{what}: the name {word!r} has {len(word):,} characters; a name has 1 to {NAME}: rename it, or leave it out")
    if not all(33 <= ord(c) <= 126 for c in word):
        raise Refused(f"{what}: the name {word!r} has a character that is none of the bytes 33 to 126: rename it, or leave it out")
    return number(len(word)) + word.encode("ascii")


def few(items, most, what, kind):
    """The number of items, if there are not too many."""
    if len(items) > most:
        raise Refused(f"{what}: {len(items):,} {kind}; at most {most:,} are allowed" + (f": {TO_DO[kind]}" if kind in TO_DO else ""))
    return number(len(items))


def differ(words, what, kind):
    seen = set()
    for word in words:
        if word in seen:
            raise Refused(f"{what}: {kind} {word} stands there twice; in one place names differ: leave one of them out")
        seen.add(word)


def names(words, what, kind):
    return few(words, LIST, what, kind) + b"".join(name(w, f"{what}, {kind}") for w in words)


def write_module(module, where):
    what = f"{where}, module {module.name}"
    return (name(module.name, f"{where}, a module") + names(module.submodules, what, "submodules")
            + names(module.augmenting, what, "augmenting modules") + names(module.deviations, what, "deviations"))


def write_import_only(module, where):
    what = f"{where}, import-only module {module.name}"
    out = name(module.name, f"{where}, an import-only module")
    if not module.revisions:
        raise Refused(f"{what}: no revisions; at least 1 is needed")
    out += few(module.revisions, REVISIONS, what, "revisions")
    for at, submodules in enumerate(module.revisions, 1):
        differ(submodules, f"{what}, revision {at}", "submodule")
        out += names(submodules, f"{what}, revision {at}", "submodules")
    return out


def write_image(sets, called=None):
    """The bytes of an image. `called` has a word for each set, for messages; else they are set 1, set 2, .. ."""
    out = bytearray(few(sets, SETS, "image", "sets"))

    def add(piece, what):
        out.extend(piece)
        if len(out) > IMAGE:
            raise Refused(f"image: {what} takes it over its {IMAGE:,} bytes: {SHORTER_IMAGE}")

    for at, one in enumerate(sets):
        where = called[at] if called else f"set {at + 1}"
        differ([m.name for m in one.modules], where, "module")
        differ([m.name for m in one.import_only], where, "import-only module")
        add(few(one.modules, MODULES, where, "modules"), where)
        for module in one.modules:
            add(write_module(module, where), f"{where}, module {module.name}")
        add(few(one.import_only, MODULES, where, "import-only modules"), f"{where}, module {one.modules[-1].name}" if one.modules else where)
        for module in one.import_only:
            add(write_import_only(module, where), f"{where}, import-only module {module.name}")
    return bytes(out)


def write_bundle(texts, files=None):
    """The bytes of a bundle. `files` may have the file of a name, for messages."""
    def what(word):
        return f"text {word} ({files[word]})" if files and word in files else f"text {word}"

    out = bytearray(few(texts, TEXTS, "bundle", "texts"))
    differ([n for n, _ in texts], "bundle", "text")
    for word, text in texts:
        out += name(word, what(word))
        if len(text) > TEXT:
            raise Refused(f"{what(word)}: {len(text):,} bytes or more; at most {TEXT:,} are allowed, and a scan takes {SCANNED:,}: {SHORTER_TEXTS}")
        out += number(len(text)) + text
        if len(out) > BUNDLE:
            raise Refused(f"bundle: {what(word)} takes it over its {BUNDLE:,} bytes: {SHORTER_TEXTS}")
    return bytes(out)


# ---- more modules than a set takes


def parts(items):
    return [items[at:at + MODULES] for at in range(0, len(items), MODULES)] or [[]]


def spread(sets, called):
    """The same with no set over its limit, a word for each set, and a note for each that was spread. Modules come before import-only modules still, and so
    the nodes of a graph keep their order."""
    out, words, notes = [], [], []
    for one, word in zip(sets, called):
        differ([m.name for m in one.modules], word, "module")
        modules, only = parts(one.modules), parts(one.import_only)
        pieces = [Set(part) for part in modules[:-1]] + [Set(modules[-1], only[0])] + [Set([], part) for part in only[1:]]
        out += pieces
        words += [word] if len(pieces) == 1 else [f"{word}, part {at} of {len(pieces)}" for at in range(1, len(pieces) + 1)]
        if len(pieces) > 1:
            notes.append(f"{word}: {len(one.modules):,} modules and {len(one.import_only):,} import-only modules are spread over {len(pieces)} sets, "
                         f"as a set has at most {MODULES} of each; the graph is the same")
    return out, words, notes


# ---- reading


class Reader:
    def __init__(self, data, most):
        self.data, self.at = data, 0
        if len(data) > most:
            raise Wrong(0)

    def number(self, least, most):
        start, n = self.at, 0
        for group in range(3):
            if self.at == len(self.data):
                raise Wrong(start)
            byte = self.data[self.at]
            self.at += 1
            n += byte % 128 << 7 * group
            if byte < 128:
                if byte == 0 and group or not least <= n <= most:
                    break
                return n
        raise Wrong(start)

    def part(self, length, start):
        """The next bytes; where they are cut short, that is wrong at `start`."""
        if length > len(self.data) - self.at:
            raise Wrong(start)
        self.at += length
        return self.data[self.at - length:self.at]

    def name(self, seen=None):
        start = self.at
        try:
            part = self.part(self.number(1, NAME), start)
        except Wrong:
            raise Wrong(start) from None
        word = part.decode("latin-1")
        if not all(33 <= b <= 126 for b in part) or seen is not None and word in seen:
            raise Wrong(start)
        if seen is not None:
            seen.add(word)
        return word

    def names(self, seen=None):
        return [self.name(seen) for _ in range(self.number(0, LIST))]

    def end(self):
        if self.at != len(self.data):
            raise Wrong(self.at)


def read_image(data):
    r = Reader(data, IMAGE)
    sets = []
    for _ in range(r.number(0, SETS)):
        seen = set()
        modules = [Module(r.name(seen), r.names(), r.names(), r.names()) for _ in range(r.number(0, MODULES))]
        only = set()
        import_only = [ImportOnly(r.name(only), [r.names(set()) for _ in range(r.number(1, REVISIONS))])
                       for _ in range(r.number(0, MODULES))]
        sets.append(Set(modules, import_only))
    r.end()
    return sets


def read_bundle(data):
    r = Reader(data, BUNDLE)
    seen, texts = set(), []
    for _ in range(r.number(0, TEXTS)):
        word, start = r.name(seen), r.at
        texts.append((word, r.part(r.number(0, TEXT), start)))
    r.end()
    return texts
