#!/usr/bin/env python3
"""Asks the oracle document 01's examples, a hang, an overflow and panics, each followed by a request that must be answered; and where its parser stood."""
import os
import subprocess
import sys

HERE = os.path.dirname(os.path.abspath(__file__))


def number(n):
    return bytes([n]) if n < 128 else bytes([n % 128 + 128]) + number(n // 128)


def name(s):
    return number(len(s)) + s.encode()


def bundle(texts):
    return number(len(texts)) + b"".join(name(n) + number(len(t)) + t.encode() for n, t in texts.items())


def word(b):
    return "=" + (b if isinstance(b, bytes) else b.encode()).hex()


def ok(*values):
    return " ".join(["ok"] + [v if isinstance(v, str) else "-" if v is None else str(v) for v in values])


def err(message, keyword, position):
    return f"err {word(message)} {keyword} {position}"


def graph(nodes, *edges):
    return b"".join(n.to_bytes(4, "little") for n in (nodes, *(n for edge in edges for n in edge)))


M_S_B = bytes.fromhex("01 02 01 6D 01 01 73 00 00 01 62 00 00 00 00")
TWO_SETS = bytes.fromhex("02 01 01 6D 00 00 00 00 01 01 6D 01 01 73 00 00 00")
ONLY = bytes.fromhex("01 00 01 01 69 02 01 01 73 00")
INPUT = "module m {\n  import base { prefix b; revision-date 2024-05-01; }\n  include m-types;\n}\n"
PAGE = "Imports (1):\n  - base (prefix: b) @ 2024-05-01\n\nIncludes (1):\n  - m-types\n"
GOOD = (("deps", word("include a;")), ok(0, 1, word("a"), None))

CASES = [
    (("deps", word("")), ok(0, 0)),
    (("meta", word("")), err("Module/submodule name not found", 0, 0)),
    (("meta", word("module import {}")), ok(word("import"), None, None, None, None)),
    (("deps", word("import a{}")), err("Missing required 'prefix' in import statement", 8, 10)),
    (("deps", word("module import {}")), err("Expected module name after 'import'", 8, 14)),
    (("deps", word('import "a"+"b')), err("Expected '{', found EOF", 8, 13)),
    (("deps", word("import a b")), err("Expected '{', found 'b' at position: 9", 8, 9)),
    # the keyword is the last that matched, and of an import without a prefix it may be another one
    (("deps", word("import a{revision-date 1;} ")), err("Missing required 'prefix' in import statement", 10, 26)),
    (("deps", word("import a{prefix p")), err("Expected ';', found EOF", 5, 17)),
    (("print", word("import a{revision-date 1}")), err("Expected ';', found '}' at position: 24", 10, 24)),
    (("deps", word("include a /**/ x")), err("Expected ';' or '{' after include statement", 9, 15)),
    (("meta", word("yang-version {")), err("Expected ';', found '{' at position: 13", 6, 13)),
    (("meta", word("container x")), err("Module/submodule name not found", 0, 9)),
    (("read", word("module m{prefix p;yang-version 1;prefix q;revision 1{}revision 2;list")),
     ok("1", word("m"), "5", word("p"), "7", word("1"), "7", word("2"))),
    (("read", word("module {")), "refused"),
    (("meta", word("submodule s{belongs-to m{prefix p;} import a{prefix b;}}")), ok(word("s"), None, word("b"), None, word("m"))),
    (("deps", word(INPUT)), ok(1, 1, word("base"), word("b"), word("2024-05-01"), word("m-types"), None)),
    (("print", word(INPUT)), ok(word(PAGE))),
    (("module", word(M_S_B), word("b")), ok(10)),
    (("submodule", word(M_S_B), word("s")), ok(6)),
    (("import-only", word(M_S_B), word("b")), "none"),
    (("import-only", word(ONLY), word("i")), ok(4, 2)),
    (("submodule", word(ONLY), word("s")), "none"),
    (("module", word(M_S_B[:-1]), word("b")), "image 14"),
    (("graph", word(M_S_B), word(bundle({"m": "include s;import b{prefix b;}", "s": "import b{prefix b;}", "b": ""}))),
     ok(3, 3, "3:m", "6:s", "10:b", "2-0", "1-0", "2-1", "sorted", "2", "1", "0")),
    (("graph", word(M_S_B), word(bundle({"m": "", "s": "", "b": "import b{prefix b;}"}))), ok(3, 1, "3:m", "6:s", "10:b", "2-2", "cycle", "2")),
    (("graph", word(M_S_B), word(bundle({"m": "", "s": "", "b": " include"}))), err("Expected submodule name after 'include'", 9, 8)),
    # no text was read, so none was refused
    (("graph", word(M_S_B), word(bundle({"s": "", "b": ""}))), "err " + word("No schema for module m")),
    (("graph", word(TWO_SETS), word(bundle({"m": "include s;", "s": ""}))), "err " + word("No submodule s found in graph")),
    (("graph", word(M_S_B), word(b"\x01")), "bundle 1"),
    (("sort", word(graph(0))), "sorted"),
    (("sort", word(graph(3, (0, 1)))), "sorted 2 0 1"),
    (("sort", word(graph(3, (1, 2), (2, 1)))), "cycle 2"),
    (("sort", word(b"")), "what"),
    (("deps", word("import a{")), "hang 8 9"),
    GOOD,
    (("deps", word("import a{prefix b;}include c{revision-date 1; ")), "hang 9 46"),
    GOOD,
    (("graph", word(M_S_B), word(bundle({"m": "import b{", "s": "", "b": ""}))), "hang 8 9"),
    GOOD,
    (("graph", word(M_S_B), word(bundle({"m": "include s;", "s": "include s;", "b": ""}))), "overflow"),
    GOOD,
    (("graph", word(M_S_B), word(bundle({"m": "include s;", "b": ""}))), "panic"),
    GOOD,
    # characters above 127: read in strings and comments; elsewhere letters and blanks of Unicode count, and bytes that are taken for them cause panics
    (("deps", word("import \"\u00e9\"{prefix '\u00fc';}")), ok(1, 0, word("\u00e9"), word("\u00fc"), None)),
    (("deps", word("//\u00e9")), ok(0, 0)),
    (("deps", word("/*\u00e9 ")), ok(0, 0)),
    (("deps", word("/*\u00e9*")), ok(0, 0)),
    (("deps", word('"\u00e9')), ok(0, 0)),
    (("deps", word("/*\u00e9")), "panic"),
    (("meta", word("/*\u00e9")), "panic"),
    (("deps", word("import a/*\u00e9")), "panic"),
    (("deps", word("import a{/*\u00e9")), "panic"),
    (("deps", word("x \u00e9")), "panic"),
    (("deps", word("import a\u00e9{prefix p;}")), ok(1, 0, word("a\u00e9"), word("p"), None)),
    (("meta", word("import a\u00e9{prefix p;}")), "panic"),
    (("deps", word("import a\u00a0{prefix p;}")), ok(1, 0, word("a"), word("p"), None)),
    GOOD,
    (("deps", word(b"\xff")), "utf8"),
    (("nothing", word("")), "what"),
    GOOD,
]

oracle = subprocess.Popen([HERE + "/build/oracle"], stdin=subprocess.PIPE, stdout=subprocess.PIPE, text=True)
wrong = 0
for request, expected in CASES:
    oracle.stdin.write(" ".join(request) + "\n")
    oracle.stdin.flush()
    answer = oracle.stdout.readline().rstrip("\n")
    if answer != expected:
        wrong += 1
        print(f"oracle: {' '.join(request)}\n  answers  {answer}\n  expected {expected}")
oracle.stdin.close()
oracle.wait()
print(f"oracle: {len(CASES)} requests, {wrong} answered otherwise than expected")
sys.exit(wrong != 0)
