"""What the tests of host/pack share: a library in every form, a folder to work in, and the way in which a test file is run."""
import contextlib
import importlib.machinery
import importlib.util
import io
import json
import os
import sys
import tempfile
import unittest

sys.dont_write_bytecode = True
HERE = os.path.dirname(os.path.abspath(__file__))
sys.path.insert(0, HERE)
import form  # noqa: E402
from form import ImportOnly, Module, Set  # noqa: E402

loader = importlib.machinery.SourceFileLoader("pack", os.path.join(HERE, "pack"))
pack = importlib.util.module_from_spec(importlib.util.spec_from_loader("pack", loader))
loader.exec_module(pack)

M_S_B = bytes.fromhex("01 02 01 6D 01 01 73 00 00 01 62 00 00 00 00")

XML = """<?xml version="1.0" encoding="UTF-8"?>
<yang-library xmlns="urn:ietf:params:xml:ns:yang:ietf-yang-library">
  <module-set><name>first</name>
    <module><name>m</name><revision>2024-01-01</revision><namespace>urn:m</namespace>
      <submodule><name>s</name><revision>2024-01-02</revision></submodule><feature>f</feature>
      <deviation>d</deviation>
      <augmented-by xmlns="urn:ietf:params:xml:ns:yang:ietf-yang-library-augmentedby"> b </augmented-by></module>
    <module><name>b</name><namespace>urn:b</namespace></module>
    <module><name>d</name><namespace>urn:d</namespace></module>
    <import-only-module><name>i</name><revision>2020-01-01</revision><namespace>urn:i</namespace><submodule><name>j</name></submodule></import-only-module>
    <import-only-module><name>k</name><revision></revision><namespace>urn:k</namespace></import-only-module>
    <import-only-module><name>i</name><revision>2021-01-01</revision><namespace>urn:i</namespace></import-only-module>
  </module-set>
  <schema><name>all</name><module-set>first</module-set></schema>
  <content-id>é</content-id>
</yang-library>
"""
STATE = """<modules-state xmlns="urn:ietf:params:xml:ns:yang:ietf-yang-library">
  <module-set-id>é</module-set-id>
  <module><name>i</name><revision>2020-01-01</revision><namespace>urn:i</namespace><conformance-type>import</conformance-type>
    <submodule><name>j</name><revision/></submodule></module>
  <module><name>m</name><revision>2024-01-01</revision><schema>http://x/m</schema><namespace>urn:m</namespace><feature>f</feature>
    <deviation><name>d</name><revision></revision></deviation><conformance-type>implement</conformance-type>
    <submodule><name>s</name><revision>2024-01-02</revision></submodule>
    <augmented-by xmlns="urn:x">b</augmented-by></module>
  <module><name>k</name><revision></revision><namespace>urn:k</namespace><conformance-type>import</conformance-type></module>
  <module><name>b</name><revision/><namespace>urn:b</namespace><conformance-type> implement </conformance-type></module>
  <module><name>i</name><revision>2021-01-01</revision><namespace>urn:i</namespace><conformance-type>import</conformance-type></module>
  <module><name>d</name><revision/><namespace>urn:d</namespace><conformance-type>implement</conformance-type></module>
</modules-state>
"""
BARE = {
    "module-set": [
        {"name": "first",
         "module": [
             {"name": "m", "revision": "2024-01-01", "namespace": "urn:m", "submodule": [{"name": "s", "revision": "2024-01-02"}], "feature": ["f"],
              "deviation": ["d"], "ietf-yang-library-augmentedby:augmented-by": ["b"]},
             {"name": "b", "namespace": "urn:b"}, {"name": "d", "namespace": "urn:d"}],
         "import-only-module": [
             {"name": "i", "revision": "2020-01-01", "namespace": "urn:i", "submodule": [{"name": "j"}]},
             {"name": "k", "revision": "", "namespace": "urn:k"}, {"name": "i", "revision": "2021-01-01", "namespace": "urn:i"}]}],
    "schema": [{"name": "all", "module-set": ["first"]}],
    "content-id": "1"}
BARE_STATE = {
    "module-set-id": "1",
    "module": [
        {"name": "m", "revision": "2024-01-01", "namespace": "urn:m", "conformance-type": "implement", "submodule": [{"name": "s", "revision": "2024-01-02"}],
         "deviation": [{"name": "d", "revision": ""}], "x:augmented-by": ["b"]},
        {"name": "i", "revision": "2020-01-01", "namespace": "urn:i", "conformance-type": "import", "submodule": [{"name": "j", "revision": ""}]},
        {"name": "b", "revision": "", "namespace": "urn:b", "conformance-type": "implement"},
        {"name": "k", "revision": "", "namespace": "urn:k", "conformance-type": "import"},
        {"name": "d", "revision": "", "namespace": "urn:d", "conformance-type": "implement"},
        {"name": "i", "revision": "2021-01-01", "namespace": "urn:i", "conformance-type": "import"}]}
LIBRARY = [Set([Module("m", ["s"], ["b"], ["d"]), Module("b"), Module("d")], [ImportOnly("i", [["j"], []]), ImportOnly("k", [[]])])]


class Case(unittest.TestCase):
    def setUp(self):
        held = tempfile.TemporaryDirectory(prefix="pack-")
        self.addCleanup(held.cleanup)
        self.top = held.name
        self.image, self.bundle, self.dir = (os.path.join(self.top, n) for n in ("image", "bundle", "texts"))
        os.mkdir(self.dir)

    def put(self, path, text, top=None):
        path = os.path.join(top or self.dir, path)
        os.makedirs(os.path.dirname(path), exist_ok=True)
        with open(path, "wb") as file:
            file.write(text if isinstance(text, bytes) else text.encode())
        return path

    def run_pack(self, *arguments):
        """Exit status, standard output, standard error."""
        out, err = io.StringIO(), io.StringIO()
        with contextlib.redirect_stdout(out), contextlib.redirect_stderr(err):
            status = pack.main(list(arguments))
        return status, out.getvalue(), err.getvalue()

    def folder(self, *options):
        return self.run_pack("folder", *options, self.dir, self.image, self.bundle)

    def library(self, document, *options):
        if isinstance(document, dict):
            document = json.dumps(document)
        return self.run_pack("library", *options, self.put("library", document, self.top), self.dir, self.image, self.bundle)

    def read(self):
        with open(self.image, "rb") as image, open(self.bundle, "rb") as bundle:
            return form.read_image(image.read()), form.read_bundle(bundle.read())

    def refused(self, said, *words, due=1):
        """It ends with this status, it says these words on standard error, and nothing is written."""
        status, out, err = said
        self.assertEqual((status, out), (due, ""), err)
        for word in words:
            self.assertIn(word, err)
        self.nothing_written()

    def nothing_written(self):
        self.assertEqual([n for n in os.listdir(self.top) if n not in ("texts", "library")], [])

    def said(self, due, *arguments):
        """The one JSON value on standard output."""
        status, out, err = self.run_pack(*arguments)
        self.assertEqual((status, err, out.count("\n")), (due, "", 1))
        return json.loads(out)


def main(module):
    said = io.StringIO()
    result = unittest.TextTestRunner(stream=said).run(unittest.defaultTestLoader.loadTestsFromModule(sys.modules[module]))
    failed = len(result.failures) + len(result.errors)
    if failed:
        print(said.getvalue())
    for _, reason in result.skipped:
        print(f"pack: SKIPPED, {reason}")
    print(f"pack: {os.path.basename(sys.argv[0])}: {result.testsRun} tests, {failed} failed")
    return failed != 0
