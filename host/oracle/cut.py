#!/usr/bin/env python3
"""cut.py SOURCE OUTPUT: cuts out of yanglib.rs the types and functions that the graph and the finds need.

Each function, with its doc comment and its closing brace, is a contiguous piece of SOURCE, and is looked up there again after
OUTPUT is written. Of a type only this is dropped, since the crates behind it are not there: whole attributes named serde or
strum, of a derive list the names Serialize, Deserialize and strum_macros::Display, and the case of an error that holds a type of
schema_registry_client. Of register_schema one statement is taken, the one that sorts the graph, and looked up again like a function.
Nothing else is changed or added but the `use` lines, the `impl` heads around the functions and the function around that statement.
"""
import re
import sys

USES = """use crate::yangparser::{YangDependencies, extract_yang_dependencies};
use indexmap::IndexMap;
use std::collections::HashMap;
"""
# a type, and the functions of its impl block
WANTED = [
    ("struct YangLibrary", ["new", "find_module", "find_submodule", "find_import_module", "to_graph",
                            "add_import_only_module_to_graph", "add_deps_to_graph", "add_module_to_graph",
                            "check_module_exists", "construct_nodes"]),
    ("struct ModuleSet", ["new", "modules", "import_only_modules"]),
    ("struct Module", ["new", "name", "deviations", "submodules", "augmented_by"]),
    ("struct Submodule", ["new", "name"]),
    ("struct ImportOnlyModule", ["new", "name", "submodules"]),
    ("struct Schema", []),
    ("enum DatastoreName", []),
    ("struct Datastore", []),
    ("enum SchemaConstructionError", []),
]
# the statement that sorts: its first and its last line, and what stands around it
SORT = ("let topo_sorted = petgraph::algo::toposort(", "})?;")
SORT_HEAD = """
/// What register_schema does with its graph before it registers anything.
pub fn topo_sorted(graph: &petgraph::graph::DiGraph<&str, ()>) -> Result<Vec<petgraph::graph::NodeIndex>, SchemaConstructionError> {
"""
SORT_END = "        Ok(topo_sorted)\n}\n"


def block_end(lines, first):
    """The line behind the block that opens at or after line `first`: the closing brace has its opening line's indent."""
    head = first
    while not lines[head].rstrip().endswith("{"):
        head += 1
    indent = lines[first][: len(lines[first]) - len(lines[first].lstrip())]
    end = head + 1
    while lines[end].rstrip("\n") != indent + "}":
        end += 1
    return end + 1


def above(lines, first):
    """The first line of the doc comments and attributes that stand right above line `first`."""
    while re.match(r"\s*(///|#\[|\)\]|[a-z_]+ = .*,$|skip_serializing_if)", lines[first - 1]):
        first -= 1
    return first


def only(lines, pattern, low, high):
    hits = [i for i in range(low, high) if re.match(pattern, lines[i])]
    if len(hits) != 1:
        sys.exit(f"cut.py: {pattern} stands {len(hits)} times")
    return hits[0]


def without_foreign(text):
    text = re.sub(r"[ \t]*#\[(serde|strum)\((?:[^()]|\([^()]*\))*\)\]\n", "", text)
    text = re.sub(r"[ \t]*[A-Za-z]+\(schema_registry_client::.*\),\n", "", text)

    def derive(m):
        kept = [n.strip() for n in m.group(1).split(",") if n.strip() not in ("Serialize", "Deserialize", "strum_macros::Display")]
        return "#[derive(" + ", ".join(kept) + ")]"

    return re.sub(r"#\[derive\(([^)]*)\)\]", derive, text)


def main():
    source = open(sys.argv[1], encoding="utf-8").read()
    lines = source.splitlines(keepends=True)
    out, pieces = [USES], []
    for kind, names in WANTED:
        at = only(lines, rf"pub {kind} \{{", 0, len(lines))
        out.append("\n" + without_foreign("".join(lines[above(lines, at):block_end(lines, at)])))
        if not names:
            continue
        head = only(lines, rf"impl {kind.split()[1]} \{{", 0, len(lines))
        end = block_end(lines, head)
        out.append("\n" + lines[head])
        for name in names:
            fn = only(lines, rf"    (pub )?(const )?fn {name}[(<]", head, end)
            piece = "".join(lines[above(lines, fn):block_end(lines, fn)])
            pieces.append(piece)
            out.append(piece + "\n")
        out.append("}\n")
    first = only(lines, r"\s*" + re.escape(SORT[0]), 0, len(lines))
    last = next(i for i in range(first, len(lines)) if lines[i].strip() == SORT[1])
    statement = "".join(lines[first:last + 1])
    pieces.append(statement)
    out.append(SORT_HEAD + statement + SORT_END)
    with open(sys.argv[2], "w", encoding="utf-8") as f:
        f.write("".join(out))
    written = open(sys.argv[2], encoding="utf-8").read()
    for piece in pieces:
        if source.count(piece) < 1 or written.count(piece) < 1:
            sys.exit("cut.py: not a contiguous piece of the source:\n" + piece)
    print(f"cut.py: {len(pieces) - 1} functions and a statement, each a contiguous piece of the source")


main()
