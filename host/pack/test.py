#!/usr/bin/env python3
"""Tests of host/pack that need nothing built: the writer beside the reader, every limit, one library in every form, broken documents and bytes, words."""
import itertools
import json
import os
import re
import subprocess
import sys
import unittest.mock

from cases import BARE, BARE_STATE, HERE, LIBRARY, M_S_B, STATE, XML, Case, main, pack
import form
import library
from form import ImportOnly, Module, Refused, Set, Wrong

os.environ["NUVALETA"] = os.path.join(HERE, "no command")
ALL = [Set([Module("m", ["s", "t"], ["a"], ["d", "d"]), Module("a"), Module("d")], [ImportOnly("m", [["s"], ["s", "u"]]), ImportOnly("i", [[]])]), Set()]


def prefixed(value):
    if isinstance(value, dict):
        return {k if ":" in k else "ietf-yang-library:" + k: prefixed(v) for k, v in value.items()}
    return [prefixed(v) for v in value] if isinstance(value, list) else value


class Form(Case):
    def test_round_trips(self):
        for sets in [], [Set()], ALL, LIBRARY, [Set([Module("m" * 128)])] * 16:
            self.assertEqual(form.read_image(form.write_image(sets)), sets)
        for texts in [], [("m", b"")], [("m", b"x" * 127), ("n", b"y" * 128), ("o", b"z" * 16_384), ("p", b"\xff\0")]:
            self.assertEqual(form.read_bundle(form.write_bundle(texts)), texts)
        for n in 0, 127, 128, 16_383, 16_384, 2_097_151:
            self.assertEqual(form.Reader(form.number(n), 3).number(0, form.NUMBER), n)

    def test_limits_of_the_header(self):
        """The limits here are those of the C header, and the number of routers that of `order --all`."""
        with open(os.path.join(HERE, "..", "..", "include", "nuvaleta.h"), encoding="utf-8") as file:
            header = {name: int(value) for name, value in re.findall(r"#define NUVALETA_(\w+)_MOST (\d+)u", file.read())}
        own = {"SETS": form.SETS, "MODULES": form.MODULES, "LIST": form.LIST, "REVISIONS": form.REVISIONS, "NAME": form.NAME, "IMAGE": form.IMAGE,
               "TEXTS": form.TEXTS, "NUMBER": form.TEXT, "BUNDLE": form.BUNDLE, "TEXT": form.SCANNED}
        self.assertEqual({name: header[name] for name in own}, own)
        self.assertIn(f"at most {header['NODES']:,} names", form.TO_DO["texts"])
        with open(os.path.join(HERE, "..", "rust", "src", "all.rs"), encoding="utf-8") as file:
            self.assertIn(f"const ROUTERS_MOST: usize = {pack.TOGETHER};", file.read())

    def test_document_example(self):
        self.assertEqual(form.read_image(M_S_B), [Set([Module("m", ["s"]), Module("b")])])
        self.assertEqual(form.write_image([Set([Module("m", ["s"]), Module("b")])]), M_S_B)

    def test_places(self):
        for data, place in [("", 0), ("01", 1), ("11", 0), ("8100", 0), ("80808000", 0), ("010101 20 00000000", 2), ("01 01 02 6D", 2), ("01 01 00", 2),
                            ("01 8104", 1), ("01 01 01 6D 41", 4), ("01 02 01 6D 000000 01 6D 000000 00", 7), ("01 00 01 01 69 00", 5),
                            ("01 00 01 01 69 09", 5),
                            ("01 00 01 01 69 01 02 01 73 01 73", 9), ("00 00", 1), ("01 01 8101", 2), ("01 01 80", 2)]:
            with self.assertRaises(Wrong) as wrong:
                form.read_image(bytes.fromhex(data))
            self.assertEqual(wrong.exception.place, place, data)
        for data, place in [("", 0), ("01", 1), ("8110", 0), ("01 01 6D", 3), ("01 01 6D 01", 3), ("01 01 6D 80808001", 3), ("02 01 6D 00 01 6D 00", 4),
                            ("00 00", 1)]:
            with self.assertRaises(Wrong) as wrong:
                form.read_bundle(bytes.fromhex(data))
            self.assertEqual(wrong.exception.place, place, data)
        for read, most in (form.read_image, form.IMAGE), (form.read_bundle, form.BUNDLE):
            with self.assertRaises(Wrong) as wrong:
                read(bytes(most + 1))
            self.assertEqual(wrong.exception.place, 0)
            with self.assertRaises(Wrong) as wrong:
                read(bytes(most))
            self.assertEqual(wrong.exception.place, 1)

    def broken(self, data, read, write):
        """Whatever the bytes, they are wrong at a place among them, or are what the writer gives for what was read."""
        try:
            found = read(data)
        except Wrong as wrong:
            self.assertTrue(0 <= wrong.place <= len(data))
            return True
        self.assertEqual(write(found), data)
        return False

    def test_broken_bytes(self):
        bundle = form.write_bundle([("m", b"include s;"), ("s", b""), ("b", b"x" * 130)])
        for data, read, write in [(M_S_B, form.read_image, form.write_image), (form.write_image(ALL), form.read_image, form.write_image),
                                  (bundle, form.read_bundle, form.write_bundle)]:
            for end in range(len(data)):
                self.assertTrue(self.broken(data[:end], read, write))
            for at in range(len(data)):
                for byte in range(256):
                    self.broken(data[:at] + bytes([byte]) + data[at + 1:], read, write)
            self.assertTrue(self.broken(data + b"\0", read, write))


class Limits(Case):
    def both(self, write, good, bad, *words):
        """The first is written and read back, the second is refused with these words."""
        read = form.read_image if write is form.write_image else form.read_bundle
        self.assertEqual(read(write(good)), good)
        with self.assertRaises(Refused) as refused:
            write(bad)
        for word in words:
            self.assertIn(word, str(refused.exception))

    def images(self, good, bad, *words):
        self.both(form.write_image, good, bad, *words)

    def many(self, count, start=0):
        return [f"n{i}" for i in range(start, start + count)]

    def test_sets(self):
        self.images([Set()] * 16, [Set()] * 17, "17 sets", "16")

    def test_modules(self):
        named = [Module(n) for n in self.many(513)]
        self.images([Set(named[:512])], [Set(), Set(named)], "set 2", "513 modules", "512")
        only = [ImportOnly(n, [[]]) for n in self.many(513)]
        self.images([Set([], only[:512])], [Set([], only)], "set 1", "513 import-only modules", "512")

    def test_lists(self):
        for at, kind in (1, "submodules"), (2, "augmenting modules"), (3, "deviations"):
            def module(count):
                return Module("mod")._replace(**{Module._fields[at]: self.many(count)})
            self.images([Set([module(64)])], [Set([module(65)])], "module mod", f"65 {kind}", "64")
        self.images([Set([], [ImportOnly("imp", [self.many(64)])])], [Set([], [ImportOnly("imp", [[], self.many(65)])])],
                    "import-only module imp, revision 2", "65", "64")

    def test_revisions(self):
        self.images([Set([], [ImportOnly("imp", [[]] * 8)])], [Set([], [ImportOnly("imp", [[]] * 9)])], "imp", "9 revisions", "8")
        self.images([], [Set([], [ImportOnly("imp", [])])], "imp", "no revisions")

    def test_names(self):
        for bad in "", "n" * 129, "a b", "a\x7f", "é", "\n":
            self.images([Set([Module("n" * 128)]), Set([Module("!~")])], [Set([Module(bad)])], repr(bad))
            self.images([], [Set([Module("mod", [bad])])], "module mod", repr(bad))
            self.images([], [Set([], [ImportOnly("imp", [[bad]])])], "imp", repr(bad))
            self.both(form.write_bundle, [("n" * 128, b"")], [(bad, b"")], repr(bad))

    def test_names_differ(self):
        self.images([Set([Module("m")], [ImportOnly("m", [["s"], ["s"]])])], [Set([Module("m"), Module("m")])], "module m", "twice")
        self.images([], [Set([], [ImportOnly("i", [[]])] * 2)], "import-only module i", "twice")
        self.images([Set([Module("m", ["s", "s"])])], [Set([], [ImportOnly("i", [["s", "s"]])])], "import-only module i", "submodule s", "twice")
        self.both(form.write_bundle, [("m", b"")], [("m", b""), ("m", b"")], "text m", "twice")

    def test_image_bytes(self):
        modules = [Module(f"{i:0128}") for i in range(492)]
        full = [Set(modules + [Module("n" * 92)])]
        self.assertEqual(len(form.write_image(full)), 65_536)
        self.images(full, [Set(modules + [Module("n" * 93)])], "n" * 93, "65,536")
        self.images([], [Set(modules + [Module("n" * 90)], [ImportOnly("imp", [[]])])], "import-only module imp", "65,536")

    def test_texts(self):
        texts = [(n, b"") for n in self.many(2_049)]
        self.both(form.write_bundle, texts[:2_048], texts, "2,049 texts", "2,048")

    def test_text_length(self):
        self.both(form.write_bundle, [("m", bytes(2_097_151))], [("m", bytes(2_097_152))], "text m", "2,097,151")

    def test_bundle_bytes(self):
        texts = [(n, bytes(2_097_151)) for n in self.many(7)]
        left = 16_777_216 - len(form.write_bundle(texts)) - 6
        self.both(form.write_bundle, texts + [("z7", bytes(left))], texts + [("z7", bytes(left + 1))], "text z7", "16,777,216")

    def test_what_to_do(self):
        """Each error of a limit says what can be done."""
        for write, bad, *words in [
            (form.write_image, [Set()] * 17, "at most 16", "put several of them together"),
            (form.write_image, [Set([Module("m", self.many(65))])], "at most 64", "nothing includes"),
            (form.write_image, [Set([Module("m", [], self.many(65))])], "at most 64", "once more in another set"),
            (form.write_image, [Set([Module("m", [], [], self.many(65))])], "at most 64", "once more in another set"),
            (form.write_image, [Set([], [ImportOnly("i", [[]] * 9)])], "at most 8", "one text under a name"),
            (form.write_image, [Set([Module("n" * 129)])], "1 to 128", "rename it"),
            (form.write_image, [Set([Module(f"{i:0128}") for i in range(512)])], "65,536", "leave modules out"),
            (form.write_bundle, [(n, b"") for n in self.many(2_049)], "at most 2,048", "1,024 names"),
            (form.write_bundle, [("m", bytes(2_097_152))], "2,097,151", "1,048,576", "cut the longest texts"),
            (form.write_bundle, [(n, bytes(2_097_151)) for n in self.many(9)], "16,777,216", "cut the longest texts"),
        ]:
            with self.assertRaises(Refused) as refused:
                write(bad)
            for word in words:
                self.assertIn(word, str(refused.exception))


class Spread(Case):
    """A set of more modules than a set takes: the entries come in the same order."""

    def entries(self, sets):
        return [m for one in sets for m in one.modules], [m for one in sets for m in one.import_only]

    def test_spread(self):
        for modules, only, due in [(0, 0, 1), (512, 512, 1), (513, 0, 2), (0, 513, 2), (513, 513, 3), (1_024, 1, 2), (1_025, 1_025, 5), (512, 513, 2)]:
            one = Set([Module(f"m{i}", [f"s{i}"]) for i in range(modules)], [ImportOnly(f"i{i}", [[]]) for i in range(only)])
            sets, called, notes = form.spread([Set([Module("x")]), one], ["first", "big"])
            self.assertEqual((len(sets), len(notes), called[:1]), (1 + due, due > 1, ["first"]))
            self.assertEqual(self.entries(sets[1:]), (one.modules, one.import_only))
            self.assertEqual(form.read_image(form.write_image(sets, called)), sets)
            walked = [name for s in sets[1:] for name in [m.name for m in s.modules] + [m.name for m in s.import_only]]
            self.assertEqual(walked, [m.name for m in one.modules + one.import_only])
            if due > 1:
                self.assertEqual(called[-1], f"big, part {due} of {due}")
                for word in f"big: {modules:,} modules and {only:,} import-only modules", f"over {due} sets", "512", "the graph is the same":
                    self.assertIn(word, notes[0])

    def test_refused(self):
        with self.assertRaises(Refused) as refused:
            form.spread([Set([Module(f"m{i % 600}") for i in range(601)])], ["big"])
        self.assertIn("big: module m0 stands there twice", str(refused.exception))
        many = {"module-set": [{"module": [{"name": f"m{i}"} for i in range(512 * 16 + 1)]}]}
        self.refused(self.library(many), "17 sets", "16", "put several of them together")


class Documents(Case):
    """One library in every form that a router gives it in."""

    def image_of(self, document):
        data = document if isinstance(document, bytes) else (json.dumps(document) if isinstance(document, dict) else document).encode()
        return form.write_image([library.to_set(rows) for rows in library.read(data)[0]])

    def same(self, documents):
        due = form.write_image(LIBRARY)
        for document in documents:
            self.assertEqual(self.image_of(document), due, document)

    def chunks(self, text, *lengths):
        """NETCONF 1.1's framing, in chunks of these lengths and one of the rest."""
        out, rest = b"", text.encode() if isinstance(text, str) else text
        for length in lengths + (len(rest),):
            part, rest = rest[:length], rest[length:]
            out += b"\n#%d\n" % len(part) + part if part else b""
        return out + b"\n##\n"

    def envelopes(self, inner):
        reply = '<rpc-reply xmlns="urn:ietf:params:xml:ns:netconf:base:1.0" message-id="1">'
        return [inner, f"<data xmlns='urn:x'>{inner}</data>", f"<data>{inner}</data>", f"{reply}<data>{inner}</data></rpc-reply>",
                f'<?xml version="1.0"?>\n<!-- r1 -->{reply}<data>{inner}</data></rpc-reply>\n<!-- end -->', f"\n  {inner}\n"]

    def framings(self, text):
        hello = '<hello xmlns="urn:ietf:params:xml:ns:netconf:base:1.0"><capabilities/></hello>'
        data = text.encode()
        middle = data.index("é".encode()) + 1  # inside a character
        return [data, data + b"]]>]]>", data + b"\n]]>]]>\n", f"{hello}]]>]]>\n{text}]]>]]>".encode(), self.chunks(text), self.chunks(text)[1:],
                self.chunks(text)[:-1],
                self.chunks(text, 1, middle - 1, 7), self.chunks(text) + b"\n\n", f"{hello}]]>]]>".encode() + self.chunks(text, 100),
                self.chunks(hello) + self.chunks(text),
                f"{hello}\n]]>]]>\n\n".encode() + self.chunks(text, 5, 5)]

    def test_xml(self):
        inner = XML[XML.index("<yang-library"):]
        for one in inner, STATE, inner + STATE, STATE + "\n<!-- x -->" + inner:
            self.same(framed for text in self.envelopes(one) for framed in self.framings(text))

    def test_roots(self):
        inner = XML[XML.index("<yang-library"):]
        other = STATE.replace("<name>k</name>", "<name>other</name>")
        declared = '<?xml version="1.0" encoding="UTF-8"?>\n'
        self.same([inner + "\n" + other, other + inner, declared + inner + declared + other, f"<data>{inner}</data>\n<data>{other}</data>",
                   inner + "]]>]]>" + other])

    def test_names_of_xml(self):
        entity = XML.replace("<name>m</name>", "<name>&#109;</name>")
        prefixes = []
        for text in XML[XML.index("<yang-library"):], STATE:
            moved = text.replace(' xmlns="urn:ietf:params:xml:ns:yang:ietf-yang-library"', ' xmlns:l="urn:ietf:params:xml:ns:yang:ietf-yang-library"')
            prefixes.append(re.sub(r"(</?)(?!augmented-by)([a-z])", r"\1l:\2", moved))
        self.same([XML, entity, *prefixes, XML.replace("UTF-8", "UTF-16").encode("utf-16"), b"\xef\xbb\xbf" + XML.encode()])

    def test_json(self):
        for kind, bare in ("yang-library", BARE), ("modules-state", BARE_STATE):
            for one in bare, prefixed(bare):
                named = [one] + [{prefix + kind: one} for prefix in ("", "ietf-yang-library:")]
                for value in named + [{data: inner} for data, inner in itertools.product(("data", "ietf-restconf:data"), named)]:
                    text = json.dumps(value)
                    self.same([value, "\n " + text, "\ufeff" + text, text.encode("utf-16")])
        other = {**BARE_STATE, "module": BARE_STATE["module"][:1]}
        both = {"ietf-yang-library:modules-state": other, "ietf-yang-library:yang-library": BARE}
        self.same([both, {"data": both}])

    def warned(self, document, *due):
        """The library is read with these warnings, beginnings of them."""
        data = (json.dumps(document) if isinstance(document, dict) else document).encode()
        found = library.read(data)[1]
        self.assertEqual([words[:len(begin)] for words, begin in zip(found, due)] + found[len(due):], list(due), document)

    def test_what_is_not_read(self):
        """A thing under another namespace, module or name than a library has, of which an edge may come, is told; what vendors add is not."""
        def sets(row, **more):
            return {"module-set": [{"name": "s", "module": [{"name": "m", **row}, {"name": "n", **row}]}], **more}
        vendors = sets({"acme:size": 1, "@name": {}}, checksum="1"), XML.replace("<feature>", "<x xmlns='u'/><feature>")
        for good in XML, STATE, BARE, BARE_STATE, prefixed(BARE), *vendors:
            self.warned(good)
        of, no = "is not read, as it is not of ietf-yang-library", "is not read, as it is no name that a library has"
        self.warned(XML.replace("<deviation>", "<deviation xmlns='urn:x'>"), f"yang-library, module-set first, module m: deviation {of}")
        self.warned(XML.replace("<module>", "<module xmlns=''>", 1), f"yang-library, module-set first: module {of}")
        self.warned(XML.replace("<submodule>", "<submodule xmlns='urn:x'>"),
                    f"yang-library, module-set first, import-only-module i: submodule {of}; there are 2")
        self.warned(STATE.replace("deviation>", "deviations>"), f"modules-state, module m: deviations {no}")
        self.warned(sets({"x:deviation": ["d"]}), f"yang-library, module-set s, module m: deviation {of}; there are 2 of them")
        self.warned(sets({"Deviation": ["d"]}, **{":module-set": []}), f"yang-library: module-set {of}",
                    f"yang-library, module-set s, module m: Deviation {no}")

    def test_an_error_beside_a_library(self):
        reply = "<rpc-reply><data>{}</data><rpc-error><error-message> too much </error-message></rpc-error></rpc-reply>".format(STATE)
        self.warned(reply, "the reply has an error beside the library, which may be cut short: too much")

    def test_two_forms(self):
        """The first form that has a module is taken; what the other one has besides is told."""
        empty, inner = "<yang-library xmlns='urn:ietf:params:xml:ns:yang:ietf-yang-library'/>", XML[XML.index("<yang-library"):]
        self.same([empty + STATE, STATE + empty, {"yang-library": {}, "modules-state": BARE_STATE},
                   {"modules-state": BARE_STATE, "yang-library": {"module-set": []}}])
        self.warned(empty + STATE)
        self.warned(inner + STATE)
        for old, new, due in [("<name>k</name>", "<name>k2</name>", "k2"), ("<name>b</name>", "<name>b</name><deviation><name>k</name></deviation>",
                                                                            "deviation k of b")]:
            self.warned(STATE.replace(old, new) + inner, f"modules-state, which is not taken, has more than yang-library: {due}")
        self.warned(inner + STATE.replace(" implement ", "?"), "modules-state, which is not taken, cannot be read: modules-state, module b: its conf")
        self.warned({"modules-state": {"module": []}, "yang-library": {}})

    def test_draft(self):
        """Drafts of RFC 7895 have a container around the submodules."""
        boxed = re.sub(r"<submodule>.*?</submodule>", r"<submodules>\g<0></submodules>", STATE)
        rows = [{**{k: v for k, v in row.items() if k != "submodule"}, "submodules": {"submodule": row.get("submodule", [])}} for row in BARE_STATE["module"]]
        self.same([boxed, {"modules-state": {"module": rows}}])

    def test_framing_that_is_broken(self):
        good = self.chunks(STATE, 100, 50)
        for bad, *words in [
            (good[:200], "chunk 3", "cut off"), (good[:90], "chunk 1: 100 bytes are told, and 84 are there"), (good[:-4], "chunk 4", "the reply is cut off"),
            (good.replace(b"#50", b"#49"), "chunk 3: it does not begin with"), (good.replace(b"#50", b"#51"), "chunk 3: it does not begin with"),
            (good.replace(b"#100", b"#99999"), "chunk 1: 99,999 bytes are told"), (good.replace(b"#100", b"#0"), "chunk 1: it does not begin with"),
            (good.replace(b"#100", b"#0100"), "chunk 1: it does not begin with"), (good.replace(b"\n", b"\r\n"), "chunk"), (b"\n##\n", "no XML"),
            (b"#x\n<a/>", "chunk 1"),
            (good + b"\n#5\nab", "chunk 1: 5 bytes are told, and 2 are there"), (STATE + "]]>]]><more", "no XML"), (STATE + "]]>]]>more", "no XML"),
        ]:
            self.refused(self.library(bad), "library: ", *words)

    def test_places_of_broken_xml(self):
        """They are counted in the document, from 1 on; of a message in chunks without these."""
        inner = "<a>\n <b></c>\n</a>"
        for bad, due in [(inner, "line 2, column 7"), ("\n\n " + inner, "line 4, column 7"), ("<hello/>]]>]]>\n" + inner, "line 3, column 7"),
                         (STATE + "\n<x", f"line {STATE.count(chr(10)) + 2}, column 1"), (STATE.rstrip() + "x", f"line {STATE.count(chr(10))}, column 17"),
                         (self.chunks(inner, 2), "line 2, column 7 of the message without its chunks"), ("<a", "line 1, column 1")]:
            self.refused(self.library(bad), "library: ", "no XML", f": {due}\n")

    def test_roots_that_are_no_library(self):
        reply = "<rpc-reply xmlns='urn:n'><rpc-error><error-message xml:lang='en'> access denied </error-message></rpc-error></rpc-reply>"
        for bad, *words in [
            (STATE + "<other/>", "in the root element other"), ("<other/>" + STATE, "in the root element other"),
            (STATE + "]]>]]><other/>]]>]]>", "root element other"),
            (STATE + "more", "behind the root element modules-state: no XML"), (STATE + "<!-- more", "behind the root element modules-state: no XML"),
            (STATE + STATE, "2 modules-state elements"), ("<hello/>" * 17, "more than 16 root elements"),
            (f"{XML[XML.index('<yang'):]}{STATE * 2}", "2 modules-state elements"),
            (f"<data>{XML[XML.index('<yang'):] * 2}</data>", "2 yang-library elements"), ("<hello/>", "a hello alone"),
            (reply, "it is an error: access denied"),
            ("<hello/>]]>]]>" + reply, "access denied"), (STATE + "<!DOCTYPE a>", "behind the root element"),
        ]:
            self.refused(self.library(bad), "library: ", *words)

    def test_states_that_are_broken(self):
        def state(**members):
            return {"modules-state": {"module": [{"name": "mod", "conformance-type": "implement", **members}]}}
        for bad, *words in [
            (STATE.replace("<conformance-type> implement </conformance-type>", ""), "modules-state, module b: no conformance-type"),
            (STATE.replace(" implement ", "import-only"), "module b: its conformance-type is 'import-only'; implement or import is due"),
            (STATE.replace("<name>b</name>", ""), "modules-state, module without a name"),
            (STATE.replace("<name>d</name><rev", "<rev"), "module m, a deviation without a name"),
            (STATE.replace("<name>b</name>", "<name>m</name>"), "module m stands there twice"),
            (STATE.replace("2021-", "2020-"), "module i: revision 2020-01-01", "twice"),
            (STATE.replace("<deviation><name>d</name>", "<deviation>d"), "a deviation without a name"),
            (state(deviation=["d"]), "deviation is not a list of objects"),
            (state(**{"conformance-type": 1}), "conformance-type is not a string"), (state(submodules=[]), "where an object is due"),
            ({"modules-state": []}, "where an object"),
            ({"module": {}}, "module is not a list"), (state(submodule=[{}]), "module mod, a submodule without a name"),
        ]:
            self.refused(self.library(bad), *words)

    def test_doctype(self):
        at = XML.index("<yang-library")
        for doctype in "<!DOCTYPE yang-library>", '<!DOCTYPE yang-library [<!ENTITY e "m">]>', '<!DOCTYPE yang-library SYSTEM "file:///dev/null">':
            self.refused(self.library(XML[:at] + doctype + XML[at:]), "library", "DOCTYPE")

    def test_broken_documents(self):
        def module(**members):
            return {"module-set": [{"name": "first", "module": [{"name": "mod", **members}]}]}
        for document, *words in [
            ("", "library: it is empty"), (" \n", "it is empty"),
            ("module m {", "neither XML nor JSON"), ("[" * 100_000, "neither"), ("[]", "library: no JSON object"), ('"a"', "no JSON object"),
            ("<a", "no XML"), ("<a/>", "no yang-library"), ("{", "no JSON"), ("{}", "no ietf-yang-library:yang-library"),
            ('{"a":' * 100_000, "no JSON"), (XML.replace("ietf-yang-library", "ietf-other"), "no yang-library"), ("<?xml version='1.0'?>", "no XML"),
            ("<!-- -->", "no XML"),
            (XML.replace("<name>b</name>", ""), "set 1 (first)", "module without a name"),
            (XML.replace("<name>b</name>", "<name>b</name>" * 2), "name stands there 2 times"),
            (XML.replace("<deviation>d", "<deviation><name>d</name>"),
             "library: set 1 (first), module m: deviation has an element name inside; a text alone is due"),
            (XML.replace("<name>b</name>", "<name>m</name>"), "library: set 1 (first)", "module m", "twice"),
            (XML.replace("2021-", "2020-"), "module i", "2020-01-01", "twice"),
            (XML.replace("<name>b</name>", "<name>b c</name>"), "library: set 1 (first)", "'b c'", "rename it"), ({"yang-library": []}, "where an object"),
            ({"module-set": {}}, "not a list"),
            ({"module-set": [1]}, "not a list of objects"), (module(deviation="d"), "set 1 (first), module mod: deviation is not a list"),
            (module(deviation=[1]), "list of strings"),
            (module(revision=2024), "mod", "revision is not a string"), (module(submodule=[{}]), "mod, a submodule without a name"),
            ('{"module-set": [], "module-set": []}', "module-set"), ({"module-set": [], "ietf-yang-library:module-set": []}, "twice"),
            (module(deviation=["d"] * 65), "module mod", "65 deviations", "64"), ({"module-set": [{"name": "x"}] * 17}, "17 sets", "16"),
            (b"{\xff}", "no JSON"), (json.dumps(BARE) * 2, "no JSON: Extra data"),
        ]:
            self.refused(self.library(document), *words)

    def test_encodings(self):
        for encoding in "bogus", "utf-7", "utf-32", "hex", "idna", "punycode", "undefined", "x" * 5_000:
            self.refused(self.library(XML.replace("UTF-8", encoding)), "library: no XML", "encoding that is not known")

class Show(Case):
    def test_show(self):
        status, out, err = self.run_pack("show", self.put("image", form.write_image(ALL), self.top))
        self.assertEqual((status, err), (0, ""))
        self.assertEqual(out.splitlines(), [
            "image of 45 bytes, 2 sets", "set 1: 3 modules, 2 import-only names", "  module m", "    submodules: s t", "    augmented by: a",
            "    deviations: d d",
            "  module a", "  module d", "  import-only m: 2 revisions", "    revision 1, submodules: s", "    revision 2, submodules: s u",
            "  import-only i: 1 revision",
            "set 2: 0 modules, 0 import-only names"])

    def test_show_bundle(self):
        _, out, _ = self.run_pack("show-bundle", self.put("bundle", form.write_bundle([("m", b"x" * 1_000), ("longer", b"")]), self.top))
        self.assertEqual(out.splitlines(), ["bundle of 1,013 bytes, 2 texts", "  m          1,000", "  longer         0"])

    def test_one_byte(self):
        path = self.put("empty", b"\0", self.top)
        self.assertEqual(self.run_pack("show", path), (0, "image of 1 byte, 0 sets\n", ""))
        self.assertEqual(self.run_pack("show-bundle", path), (0, "bundle of 1 byte, 0 texts\n", ""))

    def test_broken(self):
        self.assertEqual(self.run_pack("show", self.put("image", M_S_B[:-1], self.top)), (1, "", "nuvaleta pack: image wrong at 14\n"))
        self.assertEqual(self.run_pack("show", self.put("image", bytes(70_000), self.top)), (1, "", "nuvaleta pack: image wrong at 0\n"))
        self.assertEqual(self.run_pack("show-bundle", self.put("bundle", b"\1\1m\5abcd", self.top)), (1, "", "nuvaleta pack: bundle wrong at 3\n"))
        for words in ["show"], ["show-bundle"], ["show", "--json"]:
            self.assertEqual(self.run_pack(*words, self.image + "x"), (2, "", f"nuvaleta pack: {self.image}x: No such file or directory\n"))
            self.assertEqual(self.run_pack(*words, self.dir), (2, "", f"nuvaleta pack: {self.dir}: Is a directory\n"))

    def test_json(self):
        image, bundle = self.put("i", form.write_image(ALL), self.top), self.put("b", form.write_bundle([("m", b"x" * 1_000), ("longer", b"")]), self.top)
        lists = {"submodules": [], "augmenting": [], "deviations": []}
        self.assertEqual(self.said(0, "show", "--json", image), {"bytes": 45, "sets": [
            {"modules": [{"name": "m", "submodules": ["s", "t"], "augmenting": ["a"], "deviations": ["d", "d"]}, {"name": "a", **lists},
                         {"name": "d", **lists}],
             "import_only": [{"name": "m", "revisions": [["s"], ["s", "u"]]}, {"name": "i", "revisions": [[]]}]}, {"modules": [], "import_only": []}]})
        self.assertEqual(self.said(0, "show-bundle", bundle, "--json"),
                         {"bytes": 1_013, "texts": [{"name": "m", "bytes": 1_000}, {"name": "longer", "bytes": 0}]})
        image, bundle = self.put("i", M_S_B[:-1], self.top), self.put("b", b"\1\1m\5abcd", self.top)
        self.assertEqual(self.said(1, "--json", "show", image), {"refused": {"number": 20, "words": "image wrong at 14", "place": 14}})
        self.assertEqual(self.said(1, "show-bundle", "--json", bundle), {"refused": {"number": 21, "words": "bundle wrong at 3", "place": 3}})
        words = f"{self.put('library', '<a/>', self.top)}: no yang-library and no modules-state of the namespace {library.NAMESPACE} in the root element a"
        told = self.said(1, "library", "--json", os.path.join(self.top, "library"), self.dir, self.image, self.bundle)
        self.assertEqual((told["refused"], told["errors"][0]["words"], told["warnings"], told["notes"]),
                         ({"number": None, "words": words, "file": None}, words, [], []))


class Words(Case):
    def test_help(self):
        page = open(os.path.join(HERE, "help.txt"), encoding="ascii").read()
        self.assertEqual(open(os.path.join(HERE, "../rust/src/help/pack.txt"), encoding="ascii").read(), page)  # the command's own help is a copy
        self.assertTrue(all(len(line) <= 80 for line in page.splitlines()))
        for words in ["--help"], ["-h"], ["folder", "--help"], ["show", "x", "-h"], ["--all", "--help"]:
            self.assertEqual(self.run_pack(*words), (0, page, ""))
        for command, told in pack.COMMANDS.items():
            for word in (command, *told.options):
                self.assertRegex(page, rf"(?m)^  (\S.* )?{word}\b")
            self.assertTrue(len(f"usage: nuvaleta pack {told.usage}") <= 80)

    def test_not_understood(self):
        for arguments, *words in [
            ([], "usage: nuvaleta pack folder"), (["pack"], "pack is no command"), (["folder", "a", "b"], "usage: nuvaleta pack folder"),
            (["show", "--js", "a"], "show has no --js"),
            (["folder", "a", "b", "c", "d"], "usage: "), (["library", "a", "b", "c"], "usage: nuvaleta pack library"),
            (["library", "a", "b", "c", "d", "e"], "usage: "),
            (["show", "a", "b"], "usage: nuvaleta pack show [--json] IMAGE"), (["show", "--check", "a"], "show has no --check"),
            (["show-bundle", "--lenient", "a"], "has no --lenient"), (["show", "--complete", "a"], "show has no --complete"),
            (["--all", "a"], "usage: nuvaleta pack --all"), (["--all", "a", "b", "c"], "usage: "), (["--all", "--check"], "usage: "),
            (["all", "a", "b"], "all is no command"),
            (["library", "--check", "a"], "usage: "), (["library", "--check", "a", "b", "c"], "usage: "), (["folder", "--check"], "usage: "),
            (["folder", "--texts"], "needs a folder"),
            (["library", "a", "b", "--texts"], "--texts needs a folder"), (["folder", "--texts", "a", "b"], "usage: "),
            (["show", "--texts", "a", "b"], "show has no --texts"),
            (["folder", "--", "--json"], "usage: "), (["\x1b"], "\\x1b is no command"),
        ]:
            self.refused(self.run_pack(*arguments), *words, due=2)

    def test_what_is_not_there(self):
        """The built command is looked for only where texts are read, and its absence is told."""
        self.put("m.yang", "module m {}")
        good = self.put("library", XML, self.top)
        gone = "no command: not a program that can be run; NUVALETA is to be"
        for words in ["folder", self.dir, self.image, self.bundle], ["library", good, self.dir, self.image, self.bundle], ["folder", "--check",
                self.dir], ["--all", self.dir, self.image]:
            if words[0] == "--all":
                os.rename(good, os.path.join(self.dir, "r.xml"))
            self.refused(self.run_pack(*words), gone, due=2)
        with unittest.mock.patch.dict(os.environ), unittest.mock.patch.object(pack.judge, "PLACES", ("nowhere", "..")):
            del os.environ["NUVALETA"]
            self.refused(self.folder(), "the built command, which reads the texts, is not there: `./nuvaleta pack ..` in the clone builds it first", due=2)
        for stand_in in "exit 3", "echo '{}'", "echo 'x'; exit 1", "echo too old >&2; exit 2", "printf '{\"texts\":[]}'; kill $$":
            path = os.path.join(self.dir, "stand-in")
            self.put("stand-in", f"#!/bin/sh\n{stand_in}\n")
            os.chmod(path, 0o755)
            with unittest.mock.patch.dict(os.environ, NUVALETA=path):
                self.refused(self.folder(), "too old" if "old" in stand_in else "build", due=2)

    def test_files_and_folders(self):
        self.refused(self.run_pack("folder", self.dir + "x", self.image, self.bundle), "no such folder", due=2)
        self.refused(self.run_pack("folder", self.dir, self.image, self.bundle, "--texts", self.dir + "x"), "no such folder", due=2)
        self.refused(self.run_pack("folder", self.dir, self.image, self.image), "two files", due=2)
        gone = os.path.join(self.top, "gone")
        self.refused(self.run_pack("library", gone, self.dir, self.image, self.bundle), f"{gone}: No such file", due=2)
        self.refused(self.run_pack("library", self.put("library", XML, self.top), self.dir + "x", self.image, self.bundle), "no such folder", due=2)
        self.refused(self.run_pack("--all", self.dir + "x", self.image), "No such file", due=2)
        self.refused(self.run_pack("--all", self.dir, self.image), "no router; one is a file NAME.xml or NAME.json", due=2)
        self.put("m.yang.txt", "module m {}")
        self.refused(self.folder(), f"no .yang file under {self.dir}\n")
        self.put("n" * 129 + ".yang", "module m {}")
        self.refused(self.folder(), "n" * 129 + ".yang", "128")
        os.remove(os.path.join(self.dir, "n" * 129 + ".yang"))
        path = self.put("long.yang", b"module long {" + bytes(2_097_152))
        self.refused(self.folder(), path, "2,097,151")
        os.remove(path)
        for i in range(9):
            path = self.put(f"n{i}.yang", b"module n%d {" % i + bytes(2_000_000))
        self.refused(self.folder(), path, "16,777,216")
        os.symlink("nowhere", os.path.join(self.dir, "x.yang"))
        self.refused(self.folder(), "x.yang", due=2)


class Places(Case):
    def test_places(self):
        """Where an import or include stands in a text, for one that has no place of its own."""
        text = b"module m {\n my-import a; import a-b { }\n  import 'a' { }\tinclude\n a;\n}"
        for fault, due in [({"by": "import", "listed": "a"}, (3, 3)), ({"by": "include", "listed": "a"}, (3, 18)),
                           ({"by": "import", "listed": "a-b"}, (2, 15)),
                           ({"by": "import", "listed": "b"}, (None, None)), ({"by": "deviation", "listed": "a"}, (None, None)),
                           ({"by": "import", "listed": "a", "line": 7, "column": 8}, (7, 8))]:
            self.assertEqual(pack.judge.place(fault, text), due, fault)
        self.assertEqual(pack.judge.place({"by": "import", "listed": "a"}, None), (None, None))

    def test_places_in_comments_and_strings(self):
        """What stands in a comment or a string is no statement. A long text of beginnings that never end is gone through once."""
        import_ = {"by": "import", "listed": "a"}
        for lead in "// import a\n", "/* import a */\n", "x 'import a';\n", 'x "\\"import a";\n', "/*/ import a */\n":
            self.assertEqual(pack.judge.place(import_, f"m {{ {lead} import a {{".encode()), (2, 2), lead)
        self.assertEqual(pack.judge.place(import_, b"m {\n import // b\n /**/ a {"), (2, 2))
        for part in b"/*", b'"\\', b"'", b"//", b"import //", b"import /**/", b"import ":
            self.assertEqual(pack.judge.place(import_, b"x " + part * 100_000), (None, None), part)


class Program(Case):
    """What standard output and standard error lead to; from where it is called."""

    def setUp(self):
        super().setUp()
        self.good, self.bad = self.put("good", M_S_B, self.top), self.put("bad", M_S_B[:-1], self.top)

    def ran(self, streams, *words, program=os.path.join(HERE, "pack")):
        """Exit status, standard output, standard error, where the shell's redirections leave them."""
        ran = subprocess.run(["sh", "-c", f'exec "$@" {streams}', "sh", program, *words], capture_output=True, text=True, check=False, cwd=self.dir)
        return ran.returncode, ran.stdout, ran.stderr

    def broken(self, stream, *words):
        """The same where the reader of one of them is gone."""
        reader, writer = os.pipe()
        os.close(reader)
        streams = {"stdout": subprocess.PIPE, "stderr": subprocess.PIPE, stream: writer}
        ran = subprocess.run([os.path.join(HERE, "pack"), *words], text=True, check=False, **streams)
        os.close(writer)
        return ran.returncode, ran.stdout, ran.stderr

    def test_open(self):
        shown = "image of 15 bytes, 1 set\nset 1: 2 modules, 0 import-only names\n  module m\n    submodules: s\n  module b\n"
        link = os.path.join(self.top, "link")
        os.symlink(os.path.join(HERE, "pack"), link)
        for program in os.path.join(HERE, "pack"), link:
            self.assertEqual(self.ran("", "show", self.good, program=program), (0, shown, ""))
            self.assertEqual(self.ran("", "--help", program=program)[::2], (0, ""))
        self.assertEqual(self.ran("", "show", self.bad), (1, "", "nuvaleta pack: image wrong at 14\n"))
        self.assertEqual(self.ran("")[:2], (2, ""))

    def test_full_or_closed_output(self):
        for stream, why in (">/dev/full", "No space left on device"), (">&-", "Bad file descriptor"):
            told = f"nuvaleta pack: standard output: {why}\n"
            for words in ["show", self.good], ["show", "--json", self.bad], ["show-bundle", "--json", self.good], ["--help"]:
                self.assertEqual(self.ran(stream, *words), (2, "", told), words)
            self.assertEqual(self.ran(stream, "show", self.bad), (1, "", "nuvaleta pack: image wrong at 14\n"))

    def test_full_or_closed_error(self):
        for stream in "2>/dev/full", "2>&-":
            self.assertEqual(self.ran(stream, "show", self.bad), (1, "", ""))
            self.assertEqual(self.ran(stream, "show", self.good + "x"), (2, "", ""))
            self.assertEqual(self.ran(stream, "shew"), (2, "", ""))
            self.assertEqual(self.ran(f">/dev/full {stream}", "show", self.good), (2, "", ""))
            self.assertEqual(self.ran(f">&- {stream}", "show", self.good), (2, "", ""))

    def test_a_reader_that_is_gone(self):
        self.assertEqual(self.broken("stdout", "show", self.good), (0, None, ""))
        self.assertEqual(self.broken("stdout", "show", "--json", self.bad), (1, None, ""))
        self.assertEqual(self.broken("stdout", "--help"), (0, None, ""))
        self.assertEqual(self.broken("stderr", "show", self.bad), (1, "", None))
        self.assertEqual(self.broken("stderr", "shew"), (2, "", None))


if __name__ == "__main__":
    sys.exit(main(__name__))
