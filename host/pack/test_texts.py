#!/usr/bin/env python3
"""Tests of host/pack over the built command: texts that are not what is asked for, all that an order would refuse, folders, libraries, many routers."""
import json
import os
import random
import re
import shutil
import subprocess
import sys
import unittest.mock

from cases import HERE, LIBRARY, XML, Case, main, pack
import form
from form import Module, Set

GOOD = {  # every text of the library XML, as it is to be
    "m": "module m { namespace 'urn:m'; prefix m; include s; revision 2024-01-01; }",
    "s": "submodule s { belongs-to m { prefix m; } revision 2024-01-02; }",
    "b": "module b { namespace 'urn:b'; prefix b; import m { prefix m; } }",
    "d": "module d { namespace 'urn:d'; prefix d; import m { prefix m; } import i { prefix i; } }",
    "i": "module i { namespace 'urn:i'; prefix i; revision 2021-01-01; revision 2020-01-01; }",
    "j": "submodule j { belongs-to i { prefix i; } }",
    "k": "module k { namespace 'urn:k'; prefix k; }",
}
TWO = "i.yang: revisions 2020-01-01, 2021-01-01 of i are asked for, and a bundle has one text under a name: this one"
ENVELOPE = '<data xmlns="urn:ietf:params:xml:ns:yang:ietf-netconf-monitoring">module b { prefix b; }</data>'


class Told(Case):
    def good(self, **other):
        """All texts of the library as they are to be, but for some; None takes one away."""
        for word, text in {**GOOD, **other}.items():
            if text is not None:
                self.put(f"{word}.yang", text)

    def errors(self, said):
        return self.lines(said, "error")

    def lines(self, said, level):
        lead = f"nuvaleta pack: {level}: "
        return [line[len(lead):].replace(self.dir + "/", "") for line in said[2].splitlines() if line.startswith(lead)]

    def wrong(self, words, **other):
        """With these texts there is one error, which begins so; nothing is written but with --lenient, when it is a warning."""
        shutil.rmtree(self.dir)
        self.good(**other)
        said = self.library(XML)
        self.refused(said, "1 error: nothing is written; --lenient makes warnings of them")
        self.assertEqual([line[:len(words)] for line in self.errors(said)], [words])
        status, out, _ = said = self.library(XML, "--lenient")
        self.assertEqual((status, self.errors(said), out.count("\n")), (0, [], 2))
        self.assertEqual(self.read()[0], LIBRARY)
        self.assertEqual(1, sum(line.startswith(words) for line in self.lines(said, "warning")))
        os.remove(self.image)
        os.remove(self.bundle)

    def ordered(self, *words):
        """What `nuvaleta order` prints."""
        return subprocess.run([pack.judge.command(), "order", *words], capture_output=True, text=True, check=True).stdout


class Texts(Told):
    def test_good(self):
        self.good()
        status, out, err = said = self.library(XML)
        self.assertEqual((status, self.lines(said, "warning"), err.count("\n")), (0, [TWO], 1))
        self.assertEqual(out, f"{self.image}: 35 bytes, 1 set\n{self.bundle}: {os.path.getsize(self.bundle):,} bytes, 7 texts\n")
        self.assertEqual(self.read(), (LIBRARY, [(n, GOOD[n].encode()) for n in "msbdijk"]))

    def test_no_module(self):
        for text, words in [
            ("", "no module or submodule statement: it is empty"), (" \n\t\n", "no module or submodule statement: it is empty"),
            ("<!DOCTYPE html>\n<html>404", "no module or submodule statement: it looks like a page of HTML"),
            ("<HTML>module b {}", "no module or submodule statement: it looks like a page"),
            (ENVELOPE, "no module or submodule statement: it looks like XML"),
            ('<?xml version="1.0"?>\n<module name="b"/>', "no module or submodule statement: it looks like XML"),
            ('{"ietf-netconf-monitoring:data": "module b { prefix b; }"}', "no module or submodule statement: it looks like JSON"),
            ('"module b {}"', "no module or submodule statement: it looks like JSON"),
            ("404: Not Found", "no module or submodule statement; it begins with '404: Not Found'"),
            ("// module b {", "no module or submodule statement; it begins with "),
            ("/* module b { } */", "no module or submodule statement; it begins with "),
            ("container b { module b { } }", "no module or submodule statement; it begins with "),
            ("\n#24\nmodule b { prefix b; im\n#20\nport m { prefix m; } }\n##\n",
             "no module or submodule statement: it looks like a reply in NETCONF's chunks"),
            ("HTTP/1.1 200 OK\n\nmodule b { }", "no module or submodule statement; it begins with 'HTTP/1.1 200 OK'"),
            ("modules { module b { } }", "no module or submodule statement; it begins with 'modules {"),
            ("module b { }".encode("utf-16"), "no module or submodule statement: it looks like UTF-16"),
            ("<rpc-reply>\xe9 import", "no module or submodule statement: it looks like XML"),
        ]:
            self.wrong(f"b.yang: {words}", b=text)

    def test_another_name(self):
        self.wrong("b.yang: it calls itself c; the library asks for b", b="module c { prefix b; }")
        self.wrong("s.yang: it calls itself t; the library asks for s", s=GOOD["s"].replace("submodule s", "submodule t"))

    def test_another_revision(self):
        for text, inside in ("2023-01-01", "2023-01-01"), ("2023-01-01; revision 2024-02-02", "2023-01-01 or 2024-02-02"):
            self.wrong(f"m.yang: its revision is {inside}; the library asks for 2024-01-01", m=GOOD["m"].replace("2024-01-01", text))
        self.wrong("m.yang: its revision is (none); the library asks for 2024-01-01", m=GOOD["m"].replace("revision 2024-01-01;", ""))
        self.wrong("s.yang: its revision is 2024-01-01; the library asks for 2024-01-02", s=GOOD["s"].replace("01-02", "01-01"))
        for text in "2024-01-01; revision 2023-01-01", "2023-01-01; revision 2024-01-01":
            self.good(m=GOOD["m"].replace("2024-01-01", text))
            self.assertEqual(self.library(XML)[0], 0)

    def test_another_module(self):
        self.wrong("s.yang: it belongs to b; the library asks for a submodule of m", s=GOOD["s"].replace("belongs-to m", "belongs-to b"))
        self.wrong("s.yang: it has no belongs-to; the library asks for a submodule of m", s="module s { prefix s; revision 2024-01-02; }")
        self.wrong("b.yang: it belongs to m; the library asks for a module", b="submodule b { belongs-to m { prefix m; } }")

    def test_a_submodule_of_two(self):
        """One that two modules list belongs to one of them; that is told."""
        self.good()
        document = re.sub(r"<module><name>b</name>", r"\g<0><submodule><name>s</name></submodule>", XML)
        status, _, _ = said = self.library(document)
        self.assertEqual(status, 0)
        self.assertIn("s.yang: it belongs to m; the library asks for a submodule of b", self.lines(said, "warning"))

    def test_missing(self):
        self.wrong(f"b: no text in {self.dir}", b=None)
        self.wrong(f"m: no text of revision 2024-01-01 in {self.dir}", m=None)
        self.wrong(f"s: no text of revision 2024-01-02 in {self.dir}", s=None)
        self.wrong(f"j: no text in {self.dir}", j=None)
        self.wrong(f"i: no text of revision 2020-01-01 or 2021-01-01 in {self.dir}", i=None)
        self.wrong(f"m: no text of revision 2024-01-01 in {self.dir}; of other revisions there are m@2023-01-01.yang",
                   **{"m": None, "m@2023-01-01": GOOD["m"]})
        self.wrong(f"b: no text in {self.dir}; the library tells no revision, and there are b@2020-01-01.yang, b@2021-01-01.yang",
                   **{"b": None, "b@2020-01-01": GOOD["b"], "b@2021-01-01": GOOD["b"]})

    def test_revisions_of_files(self):
        """A file's own revision goes before the one without, and the only one is taken where the library tells none."""
        self.good(**{"m@2024-01-01": GOOD["m"] + "\n", "m@2023-01-01": "no", "k": None, "k@2022-02-02": GOOD["k"].replace("}", "revision 2022-02-02; }")})
        self.put("m.yang", "no")
        said = self.library(XML)
        self.assertEqual((said[0], self.lines(said, "warning")), (0, [TWO]))
        self.assertEqual(dict(self.read()[1])["m"], GOOD["m"].encode() + b"\n")

    def test_a_file_name_that_is_wrong(self):
        self.good(**{"b": None, "b@2022-02-02": GOOD["b"]})
        said = self.library(XML)
        self.assertEqual((said[0], self.lines(said, "warning")[1:]), (0, ["b@2022-02-02.yang: its revision is (none), and its file's name says 2022-02-02"]))
        os.remove(self.image)
        os.remove(self.bundle)
        self.wrong("m@2024-01-01.yang: its revision is 2023-01-01; the library asks for 2024-01-01",
                   **{"m": None, "m@2024-01-01": GOOD["m"].replace("2024", "2023")})

    def test_implemented_and_import_only(self):
        """The text of the implemented revision is taken, wherever it stands in the library, and none of another revision in its place."""
        rows = {"module": [{"name": "m", "revision": "2024-01-01"}]}, {"import-only-module": [{"name": "m", "revision": "2020-01-01"}]}
        for sets in rows, rows[::-1]:
            shutil.rmtree(self.dir)
            document = {"module-set": [{"name": str(at), **row} for at, row in enumerate(sets)]}
            old = self.put("m@2020-01-01.yang", "module m { prefix m; revision 2020-01-01; }")
            words = f"error: m: no text of revision 2024-01-01 in {self.dir}; of other revisions there are m@2020-01-01.yang"
            self.refused(self.library(document), words)
            shutil.copy(old, os.path.join(self.dir, "m.yang"))
            self.refused(self.library(document), "error: ", "m.yang: its revision is 2020-01-01; the library asks for 2024-01-01")
            new = self.put("m.yang", "module m { prefix m; revision 2024-01-01; }")
            said = self.library(document)
            self.assertEqual((said[0], [line[:18] for line in self.lines(said, "warning")]), (0, ["m.yang: revisions "]))
            with open(new, "rb") as file:
                self.assertEqual(self.read()[1], [("m", file.read())])
            os.remove(self.image)
            os.remove(self.bundle)

    def test_imports_of_another_revision(self):
        """Of two revisions one text is packed; what the other one alone imports is told."""
        texts = {f"i@{year}-01-01": f"module i {{ prefix i; import k {{ prefix k; }} IMPORT revision {year}-01-01; }}" for year in (2020, 2021)}
        for more, due in ("", []), ("import b { prefix b; } include s;", ["b, s"]):
            self.good(i=None, **{word: text.replace("IMPORT", more if "2021" in word else "") for word, text in texts.items()})
            status, _, err = said = self.library(XML)
            words = f"i@2021-01-01.yang: it is not packed, since {self.dir}/i@2020-01-01.yang is, and what it alone imports or includes gives no edge: "
            told = [line for line in self.lines(said, "warning") if "revisions 2020-01-01, 2021-01-01" not in line]
            self.assertEqual((status, told), (0, [words.replace(self.dir + "/", "") + names for names in due]))
            self.assertEqual("to do at other imports: " in err, bool(due))

    def test_what_cannot_be_read(self):
        """A text whose header is legal and which the metadata scan refuses is warned of; its imports are read."""
        self.good(b="module b { namespace urn:x/b; prefix b; }")
        said = self.library(XML)
        self.assertEqual((said[0], self.lines(said, "warning")[1][:67]), (0, "b.yang, line 1, column 27: its name and revision cannot be read: an"))

    def test_lists_of_import_only_modules(self):
        self.good()
        document = XML.replace("<name>k</name>", "<name>k</name><deviation>d</deviation><augmented-by xmlns='urn:x'>b</augmented-by>")
        said = self.library(document)
        self.assertEqual(said[0], 0)
        self.assertIn("set 1 (first), import-only module k: it is augmented by or deviated from by b, d; an image has no such lists of import-only modules, "
                      "and no edge comes of them", self.lines(said, "warning"))

    def test_a_deviation_that_is_not_read(self):
        self.good()
        said = self.library(XML.replace("<deviation>", "<deviation xmlns='urn:x'>"))
        words = f"{self.top}/library: yang-library, module-set first, module m: deviation is not read, as it is not of ietf-yang-library"
        self.assertEqual((said[0], self.lines(said, "warning")), (0, [words, TWO]))
        self.assertIn("to do at not read: write it under the name", said[2])


class Order(Told):
    """All that an order would refuse, at once."""

    def test_all_at_once(self):
        self.good(b=None, m="module m { prefix m;\n  include s;\n  include gone;\n\timport 'away' { prefix a; }\n revision 2024-01-01; }",
                  d="module d { prefix d;\n import m { } }", k=b"module k { prefix k; contact '\xe9'; }",
                  s=GOOD["s"].replace("revision", "import nowhere { prefix n; } revision"))
        said = self.library(XML)
        self.refused(said, "6 errors: nothing is written", "to do at 26: ", "to do at 27: ", "to do at 25: ")
        self.assertEqual(sorted(line.split(":")[0] for line in self.errors(said)), [
            "b", "d.yang, line 2, column 14", "k.yang, line 1, column 31", "m.yang, line 3, column 3", "m.yang, line 4, column 2",
            "s.yang, line 1, column 42"])
        for word in ["refused 25: ", "refused 26: ", "refused 27: ", "import is closed without prefix", "not UTF-8", 'imports "away"', 'includes "gone"',
                     'imports "nowhere"']:
            self.assertIn(word, said[2])

    def test_json(self):
        self.good(b=None, m="module m { prefix m;\n  include gone; revision 2024-01-01; }", d="module d { prefix d;\n import m { } }")
        library = self.put("library", XML, self.top)
        told = self.said(1, "library", "--json", library, self.dir, self.image, self.bundle)
        self.nothing_written()
        self.assertEqual({(e["kind"], e["text"], e["number"], e["line"], e["column"]) for e in told["errors"]},
                         {("missing", "b", 23, None, None), ("refused", "m", 27, 2, 3), ("refused", "d", 25, 2, 14)})
        self.assertEqual({e["file"] for e in told["errors"]}, {None, self.dir + "/m.yang", self.dir + "/d.yang"})
        self.assertTrue(all(e["words"] and ("advice" in e) for e in told["errors"]))
        self.assertEqual(told["refused"], {key: told["errors"][0][key] for key in ("number", "words", "file")})
        self.assertEqual([(w["kind"], w["text"]) for w in told["warnings"]], [("revisions", "i")])
        self.assertEqual((told["image"], told["bundle"]["texts"], told["notes"]), ({"bytes": 35, "sets": 1}, 6, []))
        told = self.said(0, "library", "--json", "--lenient", library, self.dir, self.image, self.bundle)
        self.assertEqual((told["errors"], len(told["warnings"]), told["image"]["file"], "refused" in told), ([], 4, self.image, False))
        self.read()

    def test_check(self):
        """--check writes nothing, whatever it finds and whichever words stand there."""
        library = self.put("library", XML, self.top)
        self.good()
        for words in [self.dir], [self.dir, self.image, self.bundle], ["--texts", self.dir], [self.image, self.bundle, "--texts", self.dir]:
            status, out, err = self.run_pack("library", "--check", library, *words)
            self.assertEqual((status, out, err.count("\n")), (0, "0 errors, 1 warning\n", 1))
            self.nothing_written()
        self.good(b=" ", m="module m { prefix m; }")
        status, out, err = said = self.run_pack("library", "--check", library, self.dir)
        self.assertEqual((status, out, [line.split(":")[0] for line in self.errors(said)]), (1, "2 errors, 1 warning\n", ["m.yang", "b.yang"]))
        self.assertEqual(self.run_pack("library", "--check", "--lenient", library, self.dir)[:2], (0, "0 errors, 3 warnings\n"))
        self.assertEqual(self.run_pack("folder", "--check", self.dir)[:2], (1, "1 error, 0 warnings\n"))
        told = self.said(1, "--check", "library", library, self.dir, "--json")
        self.assertEqual((len(told["errors"]), told["image"], list(told["bundle"])), (2, {"bytes": 35, "sets": 1}, ["bytes", "texts"]))
        self.assertEqual(self.said(0, "folder", "--check", "--lenient", "--json", self.dir)["errors"], [])
        self.nothing_written()

    def test_limits_of_a_graph(self):
        """What fits the form and no graph is told too."""
        for i in range(1_025):
            self.put(f"m{i}.yang", f"module m{i} {{ prefix m; }}")
        said = self.folder()
        self.refused(said, "refused 30: ", "1,024", "to do at 30: ")
        self.assertIn(f"nuvaleta pack: note: {self.dir}: 1,025 modules and 0 import-only modules are spread over 3 sets", said[2])
        for i in range(600, 1_025):
            os.remove(os.path.join(self.dir, f"m{i}.yang"))
        self.put("m3.yang", "module m3 { prefix m; import m599 { prefix p; } }")
        status, _, err = self.folder()
        self.assertEqual((status, err.count("\n"), err.count("note: ")), (0, 1, 1))
        self.assertEqual([len(one.modules) for one in self.read()[0]], [512, 88])
        ordered = self.ordered(self.image, self.bundle).split()
        names = sorted(f"m{i}" for i in range(600))
        at = names.index("m599")
        self.assertEqual(ordered, [n for n in names[:at] if n != "m3"] + ["m599"] + (["m3"] if names.index("m3") < at else []) + names[at + 1:])

    def test_more_names_than_a_list_takes(self):
        """A module that is named once more in another set, with the rest of its list, has all edges, as the error advises."""
        names = [f"m{i}" for i in range(66)]
        for name in names:
            self.put(f"{name}.yang", f"module {name} {{ prefix m; }}")
        for kind in "augmented-by", "deviation":
            rows = [{"name": name} for name in names]
            self.refused(self.library({"module-set": [{"module": [{**rows[0], kind: names[1:]}, *rows[1:]]}]}), "65 ", "at most 64",
                         "once more in another set")
            document = {"module-set": [{"module": [{**rows[0], kind: names[1:65]}, *rows[1:]]}, {"module": [{**rows[0], kind: names[65:]}]}]}
            self.assertEqual(self.library(document)[::2], (0, ""))
            ran = subprocess.run([pack.judge.command(), "graph", "--json", self.image, self.bundle], capture_output=True, check=True)
            self.assertEqual(sorted(json.loads(ran.stdout)["edges"]), [[0, i] for i in range(1, 66)])
            os.remove(self.image)
            os.remove(self.bundle)

    def test_more_submodules_than_a_list_takes(self):
        """They are all in the order if the module is named once more, with the rest of them, as the error advises."""
        rows = [{"name": f"s{i}"} for i in range(65)]
        self.put("m.yang", "module m { prefix m; " + "".join(f"include {row['name']}; " for row in rows) + "}")
        for row in rows:
            self.put(f"{row['name']}.yang", f"submodule {row['name']} {{ belongs-to m {{ prefix m; }} }}")
        self.refused(self.library({"module-set": [{"module": [{"name": "m", "submodule": rows}]}]}), "65 submodules", "take --complete")
        document = {"module-set": [{"module": [{"name": "m", "submodule": part}]} for part in (rows[:64], rows[64:])]}
        self.assertEqual(self.library(document, "--complete")[::2], (0, ""))
        self.assertEqual(sorted(self.ordered("--complete", self.image, self.bundle).split()), sorted(["m", *(row["name"] for row in rows)]))

    def test_a_module_in_two_sets(self):
        """A submodule that the second one alone lists is refused with 28, but not with --complete."""
        document = {"module-set": [{"module": [{"name": "m"}]}, {"module": [{"name": "m", "submodule": [{"name": "s"}]}]}]}
        self.put("m.yang", "module m { prefix m; include s; }")
        self.put("s.yang", "submodule s { belongs-to m { prefix m; } }")
        said = self.library(document)
        self.refused(said, "error: refused 28: module m (set 1, entry 1): ", "to do at 28: ")
        self.assertIn("draw the graph with --complete", said[2])
        self.assertEqual(self.library(document, "--complete")[::2], (0, ""))
        self.assertEqual(self.ordered("--complete", self.image, self.bundle), "s\nm\n")
        routers, out = os.path.join(self.top, "routers"), os.path.join(self.top, "out")
        self.put("r.json", json.dumps(document), routers)
        self.assertEqual([self.run_pack("--all", *option, routers, out, "--texts", self.dir)[0] for option in ([], ["--complete"])], [1, 0])
        self.assertEqual(self.ordered("--complete", "--all", out), "r\ts\nr\tm\n")

    def test_a_ring(self):
        self.put("a.yang", "module a { prefix a; import b { prefix b; } }")
        self.put("b.yang", "module b { prefix b; import a { prefix a; } }")
        self.refused(self.folder(), "refused 40: ", "in a ring: a before b before a\n")

    def test_imports_that_are_passed_over(self):
        self.put("a.yang", "module a { prefix a; }")
        self.put("b.yang", "module b { prefix contact;\n  import a { prefix a; }\n}")
        self.put("c.yang", "module c { prefix c;\n  import/**/ a { prefix a; }\n  augment /a:x { }\n}")
        said = self.folder()
        self.assertEqual((said[0], self.errors(said)), (0, []))
        self.assertEqual([line.split(":")[1] for line in said[2].splitlines() if " to do at " in line], [" to do at augments", " to do at passed over"])
        self.assertEqual([line.split(":")[0] for line in self.lines(said, "warning")],
                         ["b.yang, line 2, column 3", "c.yang, line 2, column 3", "c.yang, line 3, column 3"])
        told = self.said(0, "folder", "--json", self.dir, self.image, self.bundle)
        self.assertEqual([(w["kind"], w["text"], w["line"]) for w in told["warnings"]],
                         [("passed_over", "b", 2), ("passed_over", "c", 2), ("augments", "c", 3)])

    def test_a_text_that_is_cut_off(self):
        self.good(b=GOOD["b"][:GOOD["b"].index("import")])
        said = self.library(XML)
        self.assertEqual((said[0], [line[:55] for line in self.lines(said, "warning")[1:]]), (0, ["b.yang, line 1, column 41: it ends inside its module, a"]))
        self.assertIn("to do at cut off: get the text anew", said[2])

    def test_a_text_that_nothing_reads(self):
        self.good()
        self.put("j.yang", "submodule j { belongs-to i { prefix i; } import a { } }")
        said = self.library(XML)
        self.assertEqual((said[0], self.lines(said, "warning")[1:]),
                         (0, ["j.yang, line 1, column 54: a scan refuses it, though nothing reads it now: an import is closed without prefix"]))

    def test_accents(self):
        """In strings and comments they are packed; columns count characters. What is not UTF-8, and a byte order mark, is refused."""
        self.wrong("k.yang, line 1, column 19: refused 25: import-only module k (set 1, entry 5): the text of k: a byte above 127 outside of strings",
                   k="module k { /*\u00e9\u00e9*/ \u00e9 }")
        self.wrong("k.yang, line 1, column 1: refused 25: ", k="\ufeff" + GOOD["k"])
        self.wrong("k.yang, line 1, column 30: refused 26: ", k="module k { /*\u00e9\u00e9*/ prefix k;  import '\u00e9' { prefix e; } }")
        for text, words, kind in [
            (("\ufeff" + GOOD["j"]).encode(), "line 1, column 1: a scan refuses it, though nothing reads it now: it has a byte order mark", "byte order mark"),
            (b"/*\xe9*/" + GOOD["j"].encode(), "line 1, column 3: a scan refuses it, though nothing reads it now: the text is not UTF-8", "not utf8"),
        ]:
            self.good(j=text)
            said = self.library(XML)
            self.assertEqual((said[0], self.lines(said, "warning")[1:]), (0, [f"j.yang, {words}"]))
            self.assertIn(f"to do at {kind}: save the text ", said[2])
        text = GOOD["m"].replace("prefix m;", "prefix m; /* \u00e9 */ x '\u00e9';", 1)
        self.good(m=text, k="// \u00e9\nmodule k { prefix 'k'; contact '\u00e9'; }")
        said = self.library(XML)
        self.assertEqual((said[0], self.lines(said, "warning")), (0, [TWO]))
        self.assertEqual(dict(self.read()[1])["m"], text.encode())

    def test_a_submodule_that_nothing_includes(self):
        """Its imports give no edge, which is told; not where its module cannot be read, as that is told."""
        import_, words = "import b { prefix b; }", "s.yang: no text that is read includes it, so its own imports and includes give no edge: b"
        self.good(m=GOOD["m"].replace("include s;", ""), s=GOOD["s"].replace("revision", import_ + " revision"))
        said = self.library(XML)
        self.assertEqual((said[0], self.lines(said, "warning")), (0, [TWO, words]))
        self.assertIn("to do at not included: get the texts", said[2])
        self.assertEqual(self.lines(self.folder(), "warning"), [words])
        self.put("m.yang", GOOD["m"].replace("include s;", "import n { }"))
        self.assertNotIn(words, self.lines(self.library(XML), "warning"))

    def test_texts_that_include_each_other_many_times(self):
        self.put("m.yang", "module m { " + "include s1; " * 256 + "}")
        for i in range(1, 9):
            self.put(f"s{i}.yang", f"submodule s{i} {{ belongs-to m {{ prefix m; }} " + f"include s{i + 1}; " * (256 if i < 8 else 0) + "}")
        with unittest.mock.patch.object(pack.judge, "SECONDS", 20):
            self.assertEqual(self.folder()[0], 0)
        self.assertEqual(self.ordered(self.image, self.bundle).split(), [*(f"s{i}" for i in range(8, 0, -1)), "m"])

    def test_a_check_that_does_not_end(self):
        """By a command in the place of the built one whose check waits."""
        self.put("m.yang", "module m { }")
        slow = self.put("slow", f"#!/bin/sh\n[ \"$1\" != check ] || exec sleep 60\nexec '{pack.judge.command()}' \"$@\"\n", self.top)
        os.chmod(slow, 0o755)
        with unittest.mock.patch.object(pack.judge, "SECONDS", 2), unittest.mock.patch.dict(os.environ, NUVALETA=slow):
            said = self.folder()
        os.remove(slow)
        self.refused(said, "given up after 2 s: the command does not say whether there is an order")


class Drawn(Told):
    """Libraries that are drawn, with texts that are missing, wrong or damaged: an order is refused exactly where packing tells a refusal or a missing text."""

    def text(self, draw, word, names, parent):
        lines = [f"belongs-to {parent} {{ prefix x; }}"] if parent else [f"namespace 'urn:{word}'; prefix x;"]
        lines += [f"import {name} {{ prefix {name}; }}" for name in names if draw.random() < 0.15]
        lines += [f"include {name};" for name in names if name[0] == "s" and draw.random() < 0.3]
        text = f"{'submodule' if parent else 'module'} {word} {{\n " + "\n ".join(lines) + "\n}\n"
        if draw.random() < 0.06:
            at = draw.randrange(len(text))
            text = text[:at] + draw.choice(["", ";", "{", '"', "/*", "\xe9", " contact "]) + text[at + draw.randint(0, 3):]
        return text

    def draw(self, seed):
        """A library, and its texts."""
        draw = random.Random(seed)
        names = [f"m{i}" for i in range(draw.randint(1, 6))]
        listed = {name: [f"s{i}{name}" for i in range(draw.choice([0, 0, 1, 2]))] for name in names}
        known = sum(listed.values(), names) + ["gone", "sgone"] * (draw.random() < 0.2)
        rows = [{"name": name, "conformance-type": draw.choice(["implement", "implement", "import"]), "submodule": [{"name": s} for s in listed[name]],
                 "deviation": [{"name": draw.choice(known)}] * (draw.random() < 0.1)} for name in names]
        texts = {word: self.text(draw, word, known, parent) for name in names for word, parent in [(name, None)] + [(s, name) for s in listed[name]]}
        return {"modules-state": {"module": rows}}, {word: text for word, text in texts.items() if draw.random() < 0.97}

    def test_drawn(self, seeds=range(60)):
        command, told = pack.judge.command(), set()
        for seed in seeds:
            shutil.rmtree(self.dir)
            document, texts = self.draw(seed)
            for word, text in texts.items():
                self.put(f"{word}.yang", text)
            os.makedirs(self.dir, exist_ok=True)
            checked = json.loads(self.library(document, "--json", "--check")[1])
            self.assertEqual(self.library(document, "--lenient")[0], 0, seed)
            ran = subprocess.run([command, "order", "--json", self.image, self.bundle], capture_output=True, text=True, check=False)
            refused = json.loads(ran.stdout).get("refused", {}).get("number")
            numbers = [one["number"] for one in checked["errors"] if one["kind"] in ("missing", "refused", "no_module")]
            # A text that is no YANG is told as that, and a submodule that is missing though nothing includes it.
            due = refused in numbers or refused == 25 and None in numbers if refused else set(numbers) <= {None, 24}
            self.assertTrue(due, (seed, refused, checked["errors"]))
            told.add(refused)
        return told


class Folder(Told):
    def test_folder(self):
        texts = {
            "m@2024-01-01.yang": 'module m {\n  include s; revision 2024-01-01; description "submodule x { belongs-to y; }";\n}\n',
            "in/s.yang": "/* module x { } */ // submodule y {\nsubmodule \"s\" {\n  yang-version 1.1; /* belongs-to q; */\n  belongs-to 'm' { prefix p; }\n}",
            "in/deep/t.yang": "submodule t{belongs-to m{prefix p;}}",
            "n.yang": "module n{}",
        }
        for path, text in texts.items():
            self.put(path, text)
        self.put("other.txt", "not a module")
        status, out, err = self.folder()
        self.assertEqual((status, err), (0, ""))
        self.assertIn("1 set", out)
        self.assertIn("4 texts", out)
        sets, bundle = self.read()
        self.assertEqual(sets, [Set([Module("m", ["s", "t"]), Module("n")])])
        self.assertEqual(dict(bundle), {os.path.basename(p).split("@")[0].removesuffix(".yang"): t.encode() for p, t in texts.items()})
        self.assertEqual(sorted(os.listdir(self.top)), ["bundle", "image", "texts"])

    def test_links_and_endings(self):
        """A linked folder is looked through, one that leads in a circle once; the ending may have letters of any case."""
        self.put("a.yang", "module a { prefix a; }")
        self.put("B@2024-01-01.YANG", "module B { prefix b; import a { prefix a; } revision 2024-01-01; }")
        self.put("in/c.yang", "module c { prefix c; import a { prefix a; } }", os.path.join(self.top, "else"))
        for link, to in ("linked", os.path.join(self.top, "else")), ("circle", self.dir), ("again", os.path.join(self.top, "else", "in")):
            os.symlink(to, os.path.join(self.dir, link))
        status, _, err = self.folder()
        self.assertEqual((status, err), (0, ""))
        self.assertEqual([n for n, _ in self.read()[1]], ["B", "a", "c"])
        os.symlink(os.path.join(self.top, "gone"), os.path.join(self.dir, "d.Yang"))
        status, _, err = self.folder()
        self.assertEqual((status, err), (2, f"nuvaleta pack: {self.dir}/d.Yang: no file that can be read\n"))

    def test_two_files_of_one_name(self):
        paths = [self.put("m.yang", "module m {}"), self.put("in/m@2024-01-01.yang", "module m { }")]
        self.refused(self.folder(), *paths, "they differ: take one of them away")
        self.put("in/m@2024-01-01.yang", "module m {}")
        self.assertEqual(self.folder()[0], 0)
        self.assertEqual(self.read()[1], [("m", b"module m {}")])

    def test_wrong_texts(self):
        self.put("s.yang", "submodule s { belongs-to away { prefix p; } }")
        self.put("m.yang", "module other { }")
        self.put("u.yang", "module u { prefix_ é; }")
        self.put("w.yang", b"module w {" + b" " * 1_048_576)
        self.put("n@2024-01-01.yang", "module n { revision 2023-01-01; }")
        self.put("e.yang", "")
        said = self.folder()
        self.refused(said, "4 errors: nothing is written")
        due = ["e.yang: no module or submodule statement: it is empty", "m.yang: it calls itself other; its file is named m",
               "u.yang, line 1, column 20: refused 25: ", "w.yang: refused 25: "]
        self.assertEqual([line.startswith(words) for line, words in zip(self.errors(said), due)], [True] * 4)
        self.assertEqual(self.lines(said, "warning"), ["n@2024-01-01.yang: its revision is 2023-01-01, and its file's name says 2024-01-01",
                                                       "s.yang: it belongs to away, which is no module here; its text is packed, and no module lists it"])
        self.assertEqual(self.folder("--lenient")[0], 0)
        sets, bundle = self.read()
        self.assertEqual(sets, [Set([Module(n) for n in "emnuw"])])
        self.assertEqual([n for n, _ in bundle], ["e", "m", "n", "s", "u", "w"])

    def test_limits(self):
        for i in range(65):
            self.put(f"n{i}.yang", f"submodule n{i} {{ belongs-to mod {{ prefix p; }} }}")
        self.put("mod.yang", "module mod { }")
        self.refused(self.folder(), "module mod", "65 submodules", "64", "leave those out that nothing includes")

    def test_control_bytes(self):
        self.put("m\x1b\n.yang", "")
        self.refused(self.folder(), "m\\x1b\\n.yang")
        os.remove(os.path.join(self.dir, "m\x1b\n.yang"))
        self.put("in\x07/m.yang", "submodule 'm\x1b[2J' { belongs-to 'n\x00\x7f' { prefix p; } }")
        self.put(b"in\x07/n@\xff.yang".decode(errors="surrogateescape"), b"module n {}")
        self.bundle += "\r"
        status, out, err = self.folder("--lenient")
        self.assertEqual((status, len(out.splitlines()), len(err.splitlines())), (0, 2, 5))
        self.assertTrue(all(c.isprintable() or c == "\n" for c in out + err))
        for word in "in\\x07/m.yang: it calls itself m\\x1b[2J;", "belongs to n\\x00\\x7f,", "n@\\udcff.yang: its revision is (none)":
            self.assertIn(word, err)
        self.assertIn("bundle\\r: ", out)

    def test_several_folders(self):
        more, third = os.path.join(self.top, "more"), os.path.join(self.top, "third")
        self.good()
        os.renames(os.path.join(self.dir, "b.yang"), os.path.join(more, "b.yang"))
        os.renames(os.path.join(self.dir, "k.yang"), os.path.join(third, "x", "k.yang"))
        shutil.copy(os.path.join(self.dir, "m.yang"), third)
        library = self.put("library", XML, self.top)
        folders = ["--texts", more, "--texts", third]
        for words in ["library", library, self.dir, self.image, self.bundle, *folders], ["library", *folders, "--texts", self.dir, library, self.image,
                                                                                         self.bundle]:
            self.assertEqual(self.run_pack(*words)[0], 0)
            self.assertEqual(self.read(), (LIBRARY, [(n, GOOD[n].encode()) for n in "msbdijk"]))
        self.assertEqual(self.run_pack("folder", self.dir, *folders, self.image, self.bundle)[0], 0)
        self.assertEqual([n for n, _ in self.read()[1]], sorted(GOOD))
        os.remove(self.image)
        path = self.put("m.yang", GOOD["m"] + " ", third)
        for words in ["library", library, self.dir, self.image, self.bundle], ["folder", self.dir, self.image, self.bundle]:
            status, _, err = self.run_pack(*words, *folders)
            self.assertEqual((status, os.path.exists(self.image)), (1, False))
            self.assertIn(f"{self.dir}/m.yang and {path}: both are the text of m, and they differ", err)

    def test_what_is_not_there(self):
        self.put("m.yang", "module m {}")
        path = os.path.join(self.top, "no", "bundle")
        self.refused(self.run_pack("folder", self.dir, self.image, path), f"nuvaleta pack: {path}: No such file or directory\n", due=2)
        self.refused(self.run_pack("folder", self.dir, self.image, self.dir), f"{self.dir}: not a file", due=2)
        self.refused(self.run_pack("folder", "--json", self.dir, self.image, self.dir), "not a file", due=2)

    def test_what_is_read_is_not_written_over(self):
        text, library = self.put("m.yang", "module m { }"), self.put("library", json.dumps({"module-set": [{"module": [{"name": "m"}]}]}), self.top)
        os.symlink(library, os.path.join(self.dir, "link"))
        for words, kind in [(["folder", self.dir, self.image, text], "a text"), (["library", library, self.dir, text, self.bundle], "a text"),
                            (["library", library, self.dir, os.path.join(self.dir, "link"), self.bundle], "the library"),
                            (["library", library, self.dir, self.image, library], "the library")]:
            before = [open(path, "rb").read() for path in (text, library)]
            self.refused(self.run_pack(*words), f"{kind} is not written over: name another file", due=2)
            self.assertEqual([open(path, "rb").read() for path in (text, library)], before)

    def test_an_empty_library(self):
        for document in '{"module-set": []}', "<modules-state xmlns='urn:ietf:params:xml:ns:yang:ietf-yang-library'><module-set-id/></modules-state>":
            self.refused(self.library(document), "error: ", "library: a library without any module")
        status, out, _ = self.library('{"module-set": []}', "--lenient")
        self.assertEqual((status, out), (0, f"{self.image}: 1 byte, 0 sets\n{self.bundle}: 1 byte, 0 texts\n"))


class Real(Told):
    def real_modules(self):
        """The files that host/vectors/real.sh lists; none if its packages are not installed."""
        with open(os.path.join(HERE, "..", "vectors", "real.sh"), encoding="utf-8") as file:
            packages = re.search(r'/need" (.*)', file.read())[1].split()
        try:
            listed = subprocess.run(["dpkg", "-L", *packages], capture_output=True, text=True, check=True).stdout
        except (OSError, subprocess.CalledProcessError):
            self.skipTest("the packages of host/vectors/real.sh are not installed")
        return sorted({line for line in listed.splitlines() if line.endswith(".yang") and os.path.isfile(line)})

    def test_real_modules(self):
        first = {}
        for path in self.real_modules():
            first.setdefault(re.split(r"@|\.yang$", os.path.basename(path))[0], path)
        for path in first.values():
            shutil.copy(path, self.dir)
        self.assertEqual(self.folder()[::2], (0, ""))
        sets, bundle = self.read()
        self.assertEqual([n for n, _ in bundle], sorted(first))
        self.assertEqual(sorted(n for m in sets[0].modules for n in [m.name] + m.submodules), sorted(first))
        status, out, _ = self.run_pack("show", self.image)
        self.assertEqual((status, out.count("\n  module ")), (0, len(sets[0].modules)))
        status, out, _ = self.run_pack("show-bundle", self.bundle)
        self.assertEqual((status, out.count("\n")), (0, len(first) + 1))

    def test_yanglint(self):
        """What `yanglint -y -l` prints: in XML two roots one behind the other, in JSON one object with both libraries."""
        path = next((p for p in self.real_modules() if "/ietf-yang-library@" in p), None)
        if not path or not shutil.which("yanglint"):
            self.skipTest("no yanglint")
        images = []
        for kind in "xml", "json":
            ran = subprocess.run(["yanglint", "-y", "-l", "-f", kind, path], capture_output=True, check=True)
            both = ran.stdout
            one = re.sub(rb"(?s)<yang-library.*</yang-library>\n?", b"",
                         both) if kind == "xml" else json.dumps({"modules-state": json.loads(both)["ietf-yang-library:modules-state"]}).encode()
            for document in both, one:
                library = self.put("library", document, self.top)
                self.assertEqual(self.run_pack("library", library, os.path.dirname(path), self.image, self.bundle)[::2], (0, ""))
                sets = self.read()[0]
                images.append((sorted(m.name for m in sets[0].modules), sorted(m.name for m in sets[0].import_only)))
        self.assertEqual(images, images[:1] * 4)
        self.assertIn("ietf-yang-library", images[0][0])
        self.assertIn("ietf-yang-types", images[0][1])


class All(Told):
    """Many routers, each a library with its own folder of texts."""

    def setUp(self):
        super().setUp()
        self.routers, self.out = os.path.join(self.top, "routers"), os.path.join(self.top, "out")
        self.put("a.yang", "module a { prefix a; }")
        self.router("east", "a", b="module b { prefix b; import a { prefix a; } }")
        self.router("west", "a")

    def router(self, name, *modules, ending="json", **texts):
        document = {"modules-state": {"module": [{"name": n, "conformance-type": "implement"} for n in [*modules, *texts]]}}
        for word, text in texts.items():
            self.put(f"{name}/{word}.yang", text, self.routers)
        return self.put(f"{name}.{ending}", json.dumps(document), self.routers)

    def all(self, *options):
        return self.run_pack("--all", self.routers, self.out, "--texts", self.dir, *options)

    def made(self):
        return sorted(os.listdir(self.out)) if os.path.isdir(self.out) else []

    def test_all(self):
        self.put("notes.txt", "no library", self.routers)
        self.assertEqual(self.all(),
                         (0, "east: image of 13 bytes, 1 set; bundle of 74 bytes, 2 texts\nwest: image of 8 bytes, 1 set; bundle of 26 bytes, 1 text\n",
                                      "nuvaleta pack: 2 routers: 2 packed, 0 refused, 0 not readable\n"))
        self.assertEqual(self.made(), ["east.bundle", "east.image", "west.bundle", "west.image"])
        self.assertEqual(self.ordered("--all", self.out), "east\ta\neast\tb\nwest\ta\n")

    def test_more_than_are_ordered_at_once(self):
        with unittest.mock.patch.object(pack, "TOGETHER", 1):
            self.assertIn("nuvaleta pack: `nuvaleta order --all` takes at most 1 routers at once: put them into several folders\n", self.all()[2])
        self.assertNotIn("at once", self.all()[2])

    def test_some_are_refused(self):
        broken = self.put("broken.xml", "<a/>", self.routers)
        self.router("lost", "a", "gone")
        self.router("two", "a")
        self.router("two", "a", ending="xml")
        self.router("unclosed", "a", b="module b { import a { } }")
        status, out, err = self.all()
        self.assertEqual((status, out.count("\n")), (1, 2))
        self.assertEqual(self.made(), ["east.bundle", "east.image", "west.bundle", "west.image"])
        for begin, word in [("broken: error: ", f"{broken}: no yang-library"), ("broken: 1 error: nothing is written", ""),
                            ("lost: error: gone: no text in ", ""),
                            ("lost: 1 error: nothing is written; --lenient", ""), ("two: error: ", "two libraries of one router"),
                            ("unclosed: error: ", "b.yang, line 1, column 24: refused 25"), ("unclosed: to do at 25: ", "")]:
            self.assertTrue(any(line.startswith("nuvaleta pack: " + begin) and word in line for line in err.splitlines()), begin)
        self.assertTrue(err.endswith("nuvaleta pack: 6 routers: 2 packed, 4 refused, 0 not readable\n"))
        status, out, err = self.all("--lenient")
        self.assertEqual((status, len(self.made())), (1, 8))
        self.assertTrue(err.endswith("6 routers: 4 packed, 2 refused, 0 not readable\n"))

    def test_what_is_no_router(self):
        """An ending in capitals is one too, a library that leads nowhere is told, and so is a folder of texts without one."""
        os.rename(os.path.join(self.routers, "west.json"), os.path.join(self.routers, "west.JSON"))
        os.symlink("nowhere", os.path.join(self.routers, "gone.xml"))
        self.put("north/a.yang", "module a { prefix a; }", self.routers)
        self.put("common/c.yang", "module c { prefix c; }", self.routers)
        self.out = os.path.join(self.routers, "out")
        common = ["--texts", os.path.join(self.routers, "common")]
        status, out, err = self.all(*common)
        self.assertEqual((status, out.count("\n"), len(self.made())), (2, 2, 4))
        self.assertEqual(err, f"nuvaleta pack: gone: {self.routers}/gone.xml: No such file or directory\n"
                              "nuvaleta pack: north: a folder without a library, north.xml or north.json beside it: it is no router\n"
                              "nuvaleta pack: 3 routers: 2 packed, 0 refused, 1 not readable\n")
        status, out, _ = self.all("--json", *common)
        self.assertEqual((status, json.loads(out.splitlines()[-1])["summary"]["without_library"]), (2, ["north"]))

    def test_one_is_not_readable(self):
        os.mkdir(os.path.join(self.top, "out"))
        os.mkdir(os.path.join(self.out, "east.image"))
        status, out, err = self.all()
        self.assertEqual((status, out.count("\n")), (2, 1))
        self.assertIn(f"nuvaleta pack: east: {self.out}/east.image: not a file that can be written anew\n", err)
        self.assertTrue(err.endswith("2 routers: 1 packed, 0 refused, 1 not readable\n"))
        self.assertEqual(self.made(), ["east.image", "west.bundle", "west.image"])
        self.put("file", "", self.top)
        status, _, err = self.run_pack("--all", self.routers, os.path.join(self.top, "file"))
        self.assertEqual((status, "File exists" in err), (2, True))

    def test_what_was_there_stays(self):
        self.all()
        before = open(os.path.join(self.out, "east.image"), "rb").read()
        self.router("east", "a", "gone")
        self.assertEqual(self.all()[0], 1)
        self.assertEqual(open(os.path.join(self.out, "east.image"), "rb").read(), before)
        self.assertEqual(len(self.made()), 4)

    def test_check_and_json(self):
        self.router("lost", "gone")
        for words in [], [self.out]:
            status, _, err = self.run_pack("--check", "--all", self.routers, *words, "--texts", self.dir)
            self.assertEqual((status, self.made()), (1, []))
            self.assertTrue(err.endswith("3 routers: 2 without errors, 1 refused, 0 not readable\n"))
        status, out, err = self.all("--json")
        lines = [json.loads(line) for line in out.splitlines()]
        self.assertEqual((status, err, [line.get("router") for line in lines]), (1, "", ["east", "lost", "west", None]))
        self.assertEqual((lines[0]["image"]["file"], lines[1]["refused"]["number"], lines[1]["errors"][0]["kind"]),
                         (os.path.join(self.out, "east.image"), 23, "missing"))
        self.assertEqual(lines[3], {"summary": {"routers": 3, "packed": 2, "refused": 1, "not_readable": 0, "without_library": []}})

    def test_two_texts_that_differ(self):
        self.router("west", a="module a { prefix other; }")
        status, _, err = self.all()
        self.assertEqual((status, self.made()), (1, ["east.bundle", "east.image"]))
        self.assertIn("west: error: ", err)
        self.assertIn("they differ", err)


class Program(Case):
    """What standard output and standard error lead to changes no file; where the command is found."""

    def test_an_install(self):
        """Below a PREFIX, called by a link from elsewhere, without the clone."""
        away = os.path.join(self.top, "prefix", "libexec", "nuvaleta")
        shutil.copytree(HERE, away, ignore=lambda _, names: [n for n in names if n.startswith(("test", "cases", "README", "__"))])
        os.makedirs(os.path.join(self.top, "prefix", "bin"))
        os.symlink(pack.judge.command(), os.path.join(self.top, "prefix", "bin", "nuvaleta"))
        link = os.path.join(self.top, "link")
        os.symlink(os.path.join(away, "pack"), link)
        self.put("m.yang", "module m { }")
        alone = {name: value for name, value in os.environ.items() if name != "NUVALETA"}
        for words, due in [(["folder", "texts", "image", "bundle"], "image: 8 bytes, 1 set\nbundle: 16 bytes, 1 text\n"),
                           (["folder", "--check", "texts"], "0 errors, 0 warnings\n")]:
            ran = subprocess.run([link, *words], capture_output=True, text=True, check=False, cwd=self.top, env=alone)
            self.assertEqual((ran.returncode, ran.stdout, ran.stderr), (0, due, ""))
        self.assertEqual(subprocess.run([link, "--help"], capture_output=True, check=False).returncode, 0)
        os.remove(os.path.join(self.top, "prefix", "bin", "nuvaleta"))
        ran = subprocess.run([link, "folder", "--check", self.dir], capture_output=True, text=True, check=False, env=alone)
        self.assertEqual((ran.returncode, "the built command, which reads the texts, is not there" in ran.stderr), (2, True))

    def ran(self, streams):
        line = f'exec "$@" {streams}'
        words = [os.path.join(HERE, "pack"), "folder", self.dir, self.image, self.bundle]
        ran = subprocess.run(["sh", "-c", line, "sh", *words], capture_output=True, text=True, check=False)
        with open(self.image, "rb") as image, open(self.bundle, "rb") as bundle:
            self.assertEqual((form.read_image(image.read()), form.read_bundle(bundle.read())),
                             ([Set([Module("m")])], [("m", b"module m { prefix contact; import a; }")]))
        self.assertEqual(sorted(os.listdir(self.top)), ["bundle", "image", "texts"])
        os.remove(self.image)
        os.remove(self.bundle)
        return ran.returncode, ran.stdout, ran.stderr

    def test_streams(self):
        self.put("m.yang", "module m { prefix contact; import a; }")
        printed = f"{self.image}: 8 bytes, 1 set\n{self.bundle}: 42 bytes, 1 text\n"
        for stream, why in (">/dev/full", "No space left on device"), (">&-", "Bad file descriptor"):
            status, _, err = self.ran(stream)
            self.assertEqual((status, err.splitlines(True)[2:]), (2, [f"nuvaleta pack: standard output: {why}\n"]))
        for stream in "2>/dev/full", "2>&-":
            self.assertEqual(self.ran(stream), (0, printed, ""))
        self.assertEqual(self.ran("| :")[0], 0)


if __name__ == "__main__":
    sys.exit(main(__name__))
