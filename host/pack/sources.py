"""What people have: folders of .yang files, and the library of a router with the texts in such folders. Both give a `Packed`."""
import os
from typing import NamedTuple

import form
import judge
import library
from form import Module, Refused, Set, Unusable
from judge import Problem, Role

DOCUMENT = 67_108_864  # the longest library document that is read


class Packed(NamedTuple):
    image: bytes
    sets: list
    bundle: bytes
    texts: list
    problems: list


# ---- files


def yang_files(folder):
    """Every *.yang under the folder, the ending in any case of its letters, in the order of their paths. Links to folders are followed, none in a circle."""
    if not os.path.isdir(folder):
        raise Unusable(f"{folder}: no such folder")

    def fail(error):
        raise Unusable(f"{error.filename}: {error.strerror}")

    found, seen = [], {os.path.realpath(folder)}
    for at, folders, names in os.walk(folder, onerror=fail, followlinks=True):
        below = {n: os.path.realpath(os.path.join(at, n)) for n in sorted(folders)}
        folders[:] = [n for n, path in below.items() if path not in seen]
        seen.update(below.values())
        found += [os.path.join(at, n) for n in names if n.lower().endswith(".yang")]
    for path in found:
        if not os.path.isfile(path):
            raise Unusable(f"{path}: no file that can be read")
    return sorted(found)


def read_file(path, most=form.TEXT):
    """The bytes of a file, or the first `most` + 1 of them if there are more."""
    try:
        with open(path, "rb") as file:
            return file.read(most + 1)
    except OSError as error:
        raise Unusable(f"{path}: {error.strerror}") from None


class Shelf:
    """The texts of some folders, and of another shelf: for each name the revisions in names of files, "" where there is none, and the files of each."""

    def __init__(self, folders, other=None):
        self.folders, self.own, self.other = folders, {}, other
        for folder in folders:
            for path in yang_files(folder):
                word, _, revision = os.path.basename(path)[:-len(".yang")].partition("@")
                self.own.setdefault(word, {}).setdefault(revision, []).append(path)

    def called(self):
        return ", ".join(self.folders + (self.other.folders if self.other else [])) or "any folder, as none is given"

    def revisions(self, word):
        found = self.other.revisions(word) if self.other else {}
        for revision, paths in self.own.get(word, {}).items():
            found[revision] = found.get(revision, []) + paths
        return found

    def one(self, paths, word):
        """The first of several files, which must be the same text."""
        for path in paths[1:]:
            if read_file(path) != read_file(paths[0]):
                raise Refused(f"{paths[0]} and {path}: both are the text of {word}, and they differ: take one of them away")
        return paths[0]

    def find(self, entry):
        """The file of an entry's text: of its own revision, else the one without a revision, else, if the entry has no revision, the only one."""
        there = self.revisions(entry.name)
        ways = [entry.revision, ""] if entry.revision or "" in there or len(there) != 1 else list(there)
        paths = next((there[way] for way in ways if way in there), None)
        return paths and self.one(paths, entry.name)


class Pile:
    """Texts as they are read, and where they come from."""

    def __init__(self):
        self.texts, self.files, self.size = [], {}, 0

    def add(self, word, path):
        text = read_file(path)
        self.texts.append((word, text))
        self.files[word] = path
        self.size += len(text)
        if self.size > form.BUNDLE:
            raise Refused(f"bundle: text {word} ({path}) takes it over its {form.BUNDLE:,} bytes: {form.SHORTER_TEXTS}")

    def judged(self, told, roles):
        """What is wrong with each text by itself."""
        return [problem for word, text in self.texts for problem in judge.text_problems(word, text, self.files[word], told[word], roles[word])]

    def packed(self, sets, called, bundle, told, problems, complete):
        """All of it, with what is wrong with it as a whole: what an order would refuse, with --complete or without."""
        sets, called, notes = form.spread(sets, called)
        image = form.write_image(sets, called)
        found = problems + judge.library_problems(image, bundle, self.texts, self.files, problems, complete)
        entries = [one.name for part in sets for one in part.modules + part.import_only]
        found += judge.unread(told, self.files, found) + judge.not_included(entries, told, self.files)
        return Packed(image, sets, bundle, self.texts, [Problem("note", "spread", note) for note in notes] + found)


# ---- folders


def from_folders(folders, complete):
    shelf, pile, modules, problems = Shelf(folders), Pile(), {}, []
    for word, files in sorted(shelf.own.items()):
        paths = [path for same in files.values() for path in same]
        form.name(word, paths[0])
        pile.add(word, shelf.one(paths, word))
    if not pile.texts:
        raise Refused(f"no .yang file under {shelf.called()}")
    bundle = form.write_bundle(pile.texts, pile.files)
    told = judge.describe(bundle)
    problems += pile.judged(told, {word: [Role(word, by_file=True)] for word in told})
    parents = {word: one["metadata"].get("parent") for word, one in told.items()}
    for word, parent in parents.items():
        if parent is None:
            modules[word] = []
    for word, parent in parents.items():
        if parent in modules:
            modules[parent].append(word)
        elif parent is not None:
            words = f"it belongs to {parent}, which is no module here; its text is packed, and no module lists it"
            problems.append(Problem("warning", "parent", words, word, pile.files[word]))
    return pile.packed([Set([Module(word, own) for word, own in modules.items()])], [shelf.called()], bundle, told, problems, complete)


# ---- a library


def asked_for(all_rows):
    """By name, what the library asks for, in its order: the entries with the module of a submodule, each once."""
    asked = {}
    for rows in all_rows:
        for module, only in [(one, False) for one in rows.modules] + [(one, True) for one in rows.import_only]:
            for entry, parent in [(module, None)] + [(submodule, module.name) for submodule in module.submodules]:
                asked.setdefault(entry.name, {})[Role(entry.name, entry.revision, parent, only)] = entry
    return asked


def missing(word, roles, shelf):
    """What is said of a name without a text."""
    wanted = list(dict.fromkeys(role.revision for role in roles))
    others = ", ".join(sorted(os.path.basename(path) for paths in shelf.revisions(word).values() for path in paths))
    if "" in wanted:
        words, there = "no text", f"; the library tells no revision, and there are {others}"
    else:
        words, there = f"no text of revision {' or '.join(wanted)}", f"; of other revisions there are {others}"
    number = 23 if any(role.parent is None for role in roles) else 24
    return Problem("error", "missing", f"{word}: {words} in {shelf.called()}{there if others else ''}", word, number=number)


def library_texts(asked, shelf):
    """The texts that are asked for, and what is wrong with the choice."""
    pile, problems = Pile(), []
    for word, roles in asked.items():
        due = judge.due(roles)
        path = next(filter(None, (shelf.find(roles[role]) for role in due)), None)
        if path is None:
            problems.append(missing(word, due, shelf))
            continue
        revisions = list(dict.fromkeys(role.revision or "(none)" for role in roles))
        if len(revisions) > 1:
            words = f"revisions {', '.join(revisions)} of {word} are asked for, and a bundle has one text under a name: this one"
            problems.append(Problem("warning", "revisions", words, word, path))
        pile.add(word, path)
    return pile, problems


def other_imports(asked, shelf, pile, told):
    """Warnings for texts of other revisions than those that are packed, whose imports and includes give no edge."""
    found = []
    for word, roles in asked.items():
        for path in dict.fromkeys(filter(None, map(shelf.find, roles.values()))):
            if path != pile.files[word]:
                (other,) = judge.describe(form.write_bundle([(word, read_file(path)[:form.TEXT])])).values()
                more = [name for kind in ("imports", "includes") for name in judge.names(other, kind) if name not in judge.names(told[word], kind)]
                words = f"it is not packed, since {pile.files[word]} is, and what it alone imports or includes gives no edge: {', '.join(more)}"
                found += [Problem("warning", "other_imports", words, word, path)] if more else []
    return found


def lost_lists(all_rows):
    """Warnings for lists of import-only modules, which an image has no place for."""
    return [Problem("warning", "lists", f"{rows.name}, import-only module {one.name}: it is augmented by or deviated from by {', '.join(names)}; "
                    "an image has no such lists of import-only modules, and no edge comes of them")
            for rows in all_rows for one in rows.import_only for names in [one.augmenting + one.deviations] if names]


def read_library(path):
    """The rows of a library document, the sets, the words for them, and warnings."""
    data = read_file(path, DOCUMENT)
    try:
        if len(data) > DOCUMENT:
            raise Refused(f"a document of over {DOCUMENT:,} bytes is not read: ask the router for the library alone")
        all_rows, warnings = library.read(data)
        sets, called = [library.to_set(rows) for rows in all_rows], [rows.name for rows in all_rows]
        form.write_image(*form.spread(sets, called)[:2])  # what cannot be written at all is told first
        return all_rows, sets, called, [Problem("warning", "not_read", f"{path}: {words}") for words in warnings]
    except Refused as error:
        raise Refused(f"{path}: {error}") from None


def from_library(path, shelf, complete):
    all_rows, sets, called, warnings = read_library(path)
    asked = asked_for(all_rows)
    pile, problems = library_texts(asked, shelf)
    if not asked:
        problems.append(Problem("error", "no_modules", f"{path}: a library without any module; it may be the answer to a filter that asked for less"))
    bundle = form.write_bundle(pile.texts, pile.files)
    told = judge.describe(bundle)
    several = {word: roles for word, roles in asked.items() if word in pile.files and len(roles) > 1}
    problems += other_imports(several, shelf, pile, told)
    return pile.packed(sets, called, bundle, told, warnings + lost_lists(all_rows) + problems + pile.judged(told, asked), complete)
