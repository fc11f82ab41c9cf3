#!/usr/bin/env python3
"""The graphs of real modules beside libyang, which reads YANG by the book: the same edges. Once all of Debian's modules as a folder, and once the library that
yanglint prints of some of them, in XML and in JSON, with the texts of that folder."""
import json
import os
import subprocess
import sys
import tempfile

HERE = os.path.dirname(os.path.abspath(__file__))
NUVALETA = os.path.join(HERE, "..", "..", "nuvaleta")
# One of libyang's own tests, which has `ttype` where a keyword is due. It imports nothing.
REFUSED = {"module2"}
# Modules of yanglint's library; what they import comes along. ietf-ipv6-unicast-routing has a submodule.
SOME = ["ietf-interfaces", "ietf-ip", "ietf-ipv4-unicast-routing", "ietf-ipv6-unicast-routing", "ietf-netconf-acm", "ietf-system",
        "ietf-alarms", "ietf-hardware-state"]


def run(*words):
    return subprocess.run(words, check=True, capture_output=True, text=True).stdout


def gather(folder):
    """All real modules, each under its name; of several revisions the last one listed, but libyang's own before others, as its library names them."""
    for path in sorted(run(os.path.join(HERE, "..", "vectors", "real.sh")).split(), key=lambda path: "/libyang/" in path):
        name = os.path.basename(path)[:-len(".yang")].split("@")[0]
        link = os.path.join(folder, name + ".yang")
        if os.path.lexists(link):
            os.remove(link)
        os.symlink(path, link)


def by_libyang(work, folder):
    """The texts that libyang reads, and their edges."""
    program = os.path.join(work, "edges")
    flags = run("pkg-config", "--cflags", "--libs", "libyang").split()
    subprocess.run(["gcc", "-O1", "-Wall", "-Wextra", "-Werror", os.path.join(HERE, "edges.c"), "-o", program, *flags], check=True)
    texts, edges = set(), set()
    for line in run(program, folder).splitlines():
        kind, *words = line.split()
        if kind == "text":
            texts.add(words[0])
        elif kind == "edge":
            edges.add((words[0], words[1]))
    return texts, edges


def by_nuvaleta(work, *words):
    image, bundle = os.path.join(work, "image"), os.path.join(work, "bundle")
    run(NUVALETA, "pack", *words, image, bundle)
    graph = json.loads(run(NUVALETA, "graph", "--json", image, bundle))
    nodes = graph["nodes"]
    run(NUVALETA, "order", image, bundle)
    return set(nodes), {(nodes[a], nodes[b]) for a, b in graph["edges"]}


def same(what, texts, theirs, nodes, ours):
    """The edges to these nodes are the same, and libyang reads each of them, but for those that it refuses."""
    theirs = {(a, b) for a, b in theirs if b in nodes}
    lost = nodes - texts - REFUSED
    if lost or ours != theirs:
        sys.exit(f"libyang: {what}: not read by libyang {sorted(lost)}; only in our graph {sorted(ours - theirs)}; only in libyang's {sorted(theirs - ours)}")
    print(f"libyang: {what}: {len(nodes)} schemas, {len(ours)} edges, the same as libyang's")


def main():
    run(os.path.join(HERE, "..", "need"), "libyang2-dev", "libyang2-tools", "gcc", "pkg-config")
    with tempfile.TemporaryDirectory() as work:
        folder = os.path.join(work, "texts")
        os.mkdir(folder)
        gather(folder)
        texts, edges = by_libyang(work, folder)
        same("all real modules", texts, edges, *by_nuvaleta(work, "folder", folder))
        for form in "xml", "json":
            library = os.path.join(work, "library." + form)
            with open(library, "w", encoding="utf-8") as file:
                file.write(run("yanglint", "-y", "-l", "-f", form, "-p", folder, *(os.path.join(folder, name + ".yang") for name in SOME)))
            same(f"yanglint's library, {form}", texts, edges, *by_nuvaleta(work, "library", library, folder))


if __name__ == "__main__":
    main()
