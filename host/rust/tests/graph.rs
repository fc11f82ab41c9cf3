//! Graphs and refusals through the crate: names, and every refusal in words.

use nuvaleta::{graph, graph_complete, Edge, Graph, Line, Refusal, Why};
use std::iter::once;
use vectors::libraries::{self, module, of, only, small, words, Library, Set};
use vectors::rng::Rng;

fn set(modules: impl Iterator<Item = String>) -> Set {
    Set { modules: modules.map(|name| module(&name, "")).collect(), import_only: Vec::new() }
}

/// What is said of a refusal, whose last line is what can be done about it.
fn told(refused: Result<Graph, Refusal>) -> String {
    let refusal = refused.expect_err("a refusal");
    assert_eq!(refusal.to_string(), format!("{}\nTo do: {}", refusal.told(), refusal.advice()));
    assert!(!refusal.advice().is_empty());
    refusal.told()
}

fn said(library: &Library) -> String {
    told(graph(&library.image(), &library.bundle()))
}

// ---- document 01's examples

#[test]
fn first_example() {
    let image = b"\x01\x02\x01m\x01\x01s\x00\x00\x01b\x00\x00\x00\x00";
    let library = small("include s;import b{prefix b;}", "import b{prefix b;}");
    assert_eq!(library.image(), image);
    let bundle = library.bundle();
    let drawn = graph(image, &bundle).expect("a graph");
    assert_eq!(drawn.nodes, ["m", "s", "b"]);
    assert_eq!(drawn.edges, [[2, 0], [1, 0], [2, 1]].map(|[from, to]| Edge { from, to }));
    assert_eq!(drawn.to_string(), "Nodes (3):\n  - m\n  - s\n  - b\n\nEdges (3):\n  - b before m\n  - s before m\n  - b before s\n");
}

#[test]
fn second_example() {
    let library = of(&[(&[module("m", "")], &[]), (&[module("m", "s")], &[])], &[("m", "include s;"), ("s", "")]);
    let told = "a submodule is included which is no node, since its module was passed over: that module's name was a node already";
    assert_eq!(said(&library), format!("refused 28: module m (set 1, entry 1): {told}"));
}

#[test]
fn buffers_are_used_again() {
    let mut buffers = nuvaleta::Buffers::new();
    let (good, bad) = (small("include s;", ""), small("include z;", ""));
    for _ in 0..2 {
        assert_eq!(buffers.graph(&good.image(), &good.bundle()).expect("a graph").edges.len(), 1);
        assert_eq!(buffers.graph(&bad.image(), &bad.bundle()).expect_err("a refusal").number(), 27);
        assert_eq!(buffers.graph_complete(&good.image(), &good.bundle()).expect("a graph").edges.len(), 1);
        assert_eq!(buffers.graph_complete(&bad.image(), &bad.bundle()).expect_err("a refusal").number(), 27);
    }
}

// ---- complete nodes

/// Nodes and edges in a line, or a refusal's number and entry.
fn short(drawn: Result<Graph, Refusal>) -> String {
    let edge = |edge: &Edge| format!(", {}-{}", edge.from, edge.to);
    match drawn {
        Ok(graph) => graph.nodes.join(" ") + &graph.edges.iter().map(edge).collect::<String>(),
        Err(refusal @ Refusal::Walk { .. }) => format!("{} {}", refusal.number(), refusal.words().split(':').next().unwrap_or_default()),
        Err(refusal) => refusal.number().to_string(),
    }
}

/// Both graphs of a library, the one with complete nodes behind the other.
fn both(library: &Library) -> [String; 2] {
    let (image, bundle) = (library.image(), library.bundle());
    [graph(&image, &bundle), graph_complete(&image, &bundle)].map(short)
}

#[test]
fn a_submodule_in_the_second_set_alone() {
    let twice = |texts: &[(&str, &str)]| both(&of(&[(&[module("m", "")], &[]), (&[module("m", "s")], &[])], texts));
    let refused = "module m (set 1, entry 1)";
    assert_eq!(twice(&[("m", "include s;"), ("s", "")]), [format!("28 {refused}"), "m s, 1-0".to_string()]);
    assert_eq!(twice(&[("m", "include s;")]), [28, 24].map(|number| format!("{number} {refused}")));
    assert_eq!(twice(&[("m", "include s;"), ("s", "include s;")]), [28, 29].map(|number| format!("{number} {refused}")));
    assert_eq!(twice(&[("m", ""), ("s", "")]), ["m", "m s"]);
}

/// Where the nodes' names stand in the image.
fn places(drawn: Result<Graph, Refusal>, image: &[u8]) -> Vec<usize> {
    drawn.expect("a graph").nodes.iter().map(|name| name.as_ptr() as usize - image.as_ptr() as usize).collect()
}

/// Each name is a node where it first comes, its place in the image too.
#[test]
fn order_of_complete_nodes() {
    let sets: [(&[_], &[_]); 2] = [(&[module("m", ""), module("b", "")], &[]), (&[module("m", "s b m")], &[])];
    let library = of(&sets, &[("m", ""), ("b", "")]);
    assert_eq!(both(&library), ["m b", "m b s"]);
    let (image, bundle) = (library.image(), library.bundle());
    assert_eq!(places(graph_complete(&image, &bundle), &image), [3, 8, 18]);
}

/// A name below a listing that is passed over is a node where it comes behind that one.
#[test]
fn another_place_of_complete_nodes() {
    let library = of(&[(&[module("m", "")], &[]), (&[module("m", "s"), module("c", "s")], &[])], &[("m", ""), ("c", "")]);
    assert_eq!(both(&library), ["m c s", "m s c"]);
    let (image, bundle) = (library.image(), library.bundle());
    assert_eq!(places(graph(&image, &bundle), &image), [3, 17, 20]);
    assert_eq!(places(graph_complete(&image, &bundle), &image), [3, 13, 17]);
}

/// A name that is a node as a submodule, as a module or as an import-only module, and comes again as another of them.
#[test]
fn names_that_come_again() {
    let of_one = |modules: &[_], import_only: &[_]| both(&of(&[(modules, import_only)], &[("m", ""), ("s", "include t;"), ("t", ""), ("b", "")]));
    assert_eq!(of_one(&[module("m", "s"), module("s", "t")], &[]), ["28 module s (set 1, entry 2)", "m s t, 2-1"]);
    assert_eq!(of_one(&[module("m", "")], &[only("m", &["t"])]), ["m", "m t"]);
    assert_eq!(of_one(&[], &[only("b", &["s", "t"])]), ["b s", "b s t"]);
    assert_eq!(of_one(&[], &[only("b", &["", "s b", "t s"])]), ["b", "b s t"]);
}

/// A submodule of an import-only module is a node, and still no include finds it.
#[test]
fn includes_of_import_only_submodules() {
    let library = of(&[(&[module("m", "")], &[only("b", &["", "t"])])], &[("m", "include t;"), ("b", ""), ("t", "")]);
    assert_eq!(both(&library), ["27 module m (set 1, entry 1)"; 2]);
    let library = of(&[(&[module("m", "")], &[only("b", &["", "t"])])], &[("m", ""), ("b", "include t;"), ("t", "")]);
    assert_eq!(both(&library), ["27 import-only module b (set 1, entry 2)"; 2]);
}

/// 30 goes by the complete list.
#[test]
fn too_many_complete_nodes() {
    let some = |from: usize, count: usize| set((from..from + count).map(|i| format!("m{i}")));
    let mut library = Library { sets: vec![some(0, 512), some(512, 511), set(once("m7".to_string()))], ..Library::default() };
    library.texts = (0..1_023).map(|i| (format!("m{i}"), String::new())).collect();
    let counted = |drawn: Result<Graph, Refusal>| drawn.map_or_else(|refusal| refusal.number() as usize, |graph| graph.nodes.len());
    for (submodules, complete) in [("", 1_023), ("x", 1_024), ("x y", 30)] {
        library.sets[2].modules = vec![module("m7", submodules)];
        let (image, bundle) = (library.image(), library.bundle());
        assert_eq!([graph(&image, &bundle), graph_complete(&image, &bundle)].map(counted), [1_023, complete]);
    }
}

/// All names of a library in its order, each where it first comes.
fn names(library: &Library) -> Vec<&str> {
    let mut out: Vec<&str> = Vec::new();
    for set in &library.sets {
        let modules = set.modules.iter().flat_map(|m| once(&m.name).chain(&m.submodules));
        let import_only = set.import_only.iter().flat_map(|i| i.revisions.iter().flat_map(move |submodules| once(&i.name).chain(submodules)));
        modules.chain(import_only).for_each(|name| if !out.contains(&name.as_str()) { out.push(name) });
    }
    out
}

/// Over generated libraries: the nodes are all names, the edges by their names those of the other graph, and the refusals too, but for 28.
#[test]
fn complete_beside_the_other() {
    let by_names = |graph: &Graph| graph.to_string().split("\n\n").nth(1).map(str::to_string);
    let mut r = Rng::new(37);
    let mut seen = [0; 3];
    for _ in 0..6_000 {
        let library = libraries::library(&mut r);
        let (image, bundle) = (library.image(), library.bundle());
        match (graph(&image, &bundle), graph_complete(&image, &bundle)) {
            (Ok(first), Ok(all)) => {
                assert_eq!((&all.nodes, by_names(&all)), (&names(&library), by_names(&first)));
                seen[usize::from(first.nodes.len() < all.nodes.len())] += 1;
            }
            (Err(first), all) if first.number() == 28 => {
                assert!(all.map_or_else(|refusal| refusal.number() != 28, |all| all.nodes == names(&library)));
                seen[2] += 1;
            }
            (first, all) => assert_eq!(first, all),
        }
    }
    assert!(seen.iter().all(|n| *n > 20), "{seen:?}");
}

// ---- refusals before the walk

#[test]
fn forms() {
    let library = small("", "");
    let (image, bundle) = (library.image(), library.bundle());
    let said = |image: &[u8], bundle: &[u8]| told(graph(image, bundle));
    assert_eq!(said(&image[..9], &bundle), "refused 20: the image breaks its form at byte 9");
    assert_eq!(said(b"", b""), "refused 20: the image breaks its form at byte 0\nexpected an image, found nothing");
    assert_eq!(said(&vec![0; 65_537], &bundle), "refused 20: the image has more than 65,536 bytes");
    assert_eq!(said(&image, b"\x02\x01m\0\x01m\0"), "refused 21: the bundle breaks its form at byte 4");
    assert_eq!(said(&image, &vec![0; 16_777_217]), "refused 21: the bundle has more than 16,777,216 bytes");
    assert_eq!(Refusal::LentTooShort.told(), "refused 22: a table or scratch is too short");
}

#[test]
fn too_many_nodes() {
    let some = |from: usize, count: usize| set((from..from + count).map(|i| format!("m{i}")));
    let library = Library { sets: vec![some(0, 512), some(512, 512), some(1_024, 1)], ..Library::default() };
    assert_eq!(said(&library), "refused 30: more than 1,024 nodes");
}

// ---- refusals in the walk of an entry

#[test]
fn missing_texts() {
    let mut no_entry = small("", "");
    no_entry.texts.remove("b");
    assert_eq!(said(&no_entry), "refused 23: module b (set 1, entry 2): the bundle has no text under its name");
    let mut no_include = small("include s;", "");
    no_include.texts.remove("s");
    assert_eq!(said(&no_include), "refused 24: module m (set 1, entry 1): the text of m includes \"s\", of which the bundle has no text");
}

#[test]
fn entries_over_sets() {
    let two = |name: &str| only(name, &["", ""]);
    let sets: [(&[_], &[_]); 2] = [(&[module("a", "")], &[two("c")]), (&[module("a", "")], &[two("d"), two("e")])];
    let library = of(&sets, &[("a", ""), ("c", ""), ("d", "")]);
    assert_eq!(said(&library), "refused 23: import-only module e (set 2, entry 5): the bundle has no text under its name");
}

#[test]
fn unknown_names() {
    let known = "which is neither a module nor an import-only module";
    let told = |name: &str| format!("refused 26: module m (set 1, entry 1): the text of s imports {name}, {known}");
    assert_eq!(said(&small("include s;", "import s{prefix p;}")), told("\"s\""));
    assert_eq!(said(&small("include s;", "import ''{prefix p;}")), told("\"\""));
    assert_eq!(said(&small("include s;", "import ' '{prefix p;}")), told("\" \""));
    let mut listed = small("", "");
    listed.sets[0].modules[1].deviations = words("m s");
    assert_eq!(said(&listed), format!("refused 26: module b (set 1, entry 2): its list of deviations has s, {known}"));
    listed.sets[0].modules[1].augmenting = words("b zz");
    assert_eq!(said(&listed), format!("refused 26: module b (set 1, entry 2): its list of augmenting modules has zz, {known}"));
    let told = |name: &str| format!("refused 27: module m (set 1, entry 1): the text of m includes {name}, which is no submodule of a module");
    assert_eq!(said(&small("include s;include b;", "")), told("\"b\""));
    assert_eq!(said(&small("include '\u{1b}[2J\n\"';", "")), told("\"\\u{1b}[2J\\n\\\"\""));
    let [most, over] = [128, 129].map(|n| format!("include {};", "n".repeat(n)));
    let said_of_it = format!("\"{}\"", "n".repeat(128));
    assert_eq!(said(&small(&most, "")), told(&said_of_it));
    assert_eq!(said(&small(&over, "")), told(&format!("{said_of_it}..")));
}

#[test]
fn too_deep() {
    let told = "refused 29: module m (set 1, entry 1): includes go deeper than eight texts, or in a circle";
    assert_eq!(said(&small("include s;", "include s;")), told);
}

#[test]
fn too_many_edges() {
    let names: Vec<String> = (0..1_000).map(|i| format!("m{i:03}")).collect();
    let sets = names.chunks(500).map(|half| set(half.iter().cloned())).collect();
    let imports = |i: usize| (0..9).map(|k| format!("import {} {{prefix p;}}", names[(i + k) % 1_000])).collect::<String>();
    let library = Library { sets, texts: names.iter().cloned().zip((0..1_000).map(imports)).collect() };
    assert_eq!(said(&library), "refused 31: module m910 (set 2, entry 911): more than 8,192 edges");
}

// ---- a scan that refused, and the line

/// What is said of the text, the line and the mark below it, without their indent. What was expected and found is left out: tests/scan.rs has it.
fn refused_at(m: &str, s: &str) -> Vec<String> {
    let said = said(&small(m, s));
    let told = said.strip_prefix("refused 25: module m (set 1, entry 1): the text of ").expect("refusal 25");
    told.split('\n').filter(|line| !line.starts_with("expected ")).map(|line| line.strip_prefix("    ").unwrap_or(line).to_string()).collect()
}

#[test]
fn lines() {
    let text = "submodule s {\n  belongs-to m { prefix m; }\n\timport b\t{\n  }\n}\n";
    let told = ["s, line 4, column 4: an import is closed without prefix (scan refusal 7, byte 58)", "  }", "   ^"];
    assert_eq!(refused_at("import b{prefix p;}\ninclude s;", text), told);
    let told = ["m, line 1, column 10: another byte than the one required after import and its value (scan refusal 5, byte 9)", "import b x", "         ^"];
    assert_eq!(refused_at("import b x", ""), told);
    let told = ["m, line 1, column 7: no value after import (scan refusal 4, byte 6)", "import", "      ^"];
    assert_eq!(refused_at("import", ""), told);
    let told = ["m, line 4, column 1: the text ends before the byte required after include and its value (scan refusal 6, byte 12)", "", "^"];
    assert_eq!(refused_at("\n\ninclude s\n", ""), told);
    let told = ["m, line 1, column 11: the text ends inside the block of an include (scan refusal 8, byte 10)", "include s{", "          ^"];
    assert_eq!(refused_at("include s{", ""), told);
    let told = ["m, line 1, column 17: no value after prefix (scan refusal 4, byte 16)", "import a{prefix ;", "                ^"];
    assert_eq!(refused_at("import a{prefix ;", ""), told);
}

#[test]
fn long_lines() {
    let many = "import b{prefix p;}".repeat(256);
    let text = format!("{many}import b");
    let mark = format!("{}^", " ".repeat(56));
    assert_eq!(refused_at("include s;", &text), ["s, line 1, column 4871: a 257th import (scan refusal 10, byte 4870)", &text[many.len() - 50..], &mark]);
    assert_eq!(refused_at(&" ".repeat(1_048_577), ""), ["m: more than 1,048,576 bytes (scan refusal 1)"]);
}

#[test]
fn high_bytes() {
    let bundle = b"\x03\x01m\x0ainclude s;\x01s\x06a\r\n\tb\xff\x01b\0";
    let wrong = told(graph(&small("", "").image(), bundle));
    let due = "the text of s, line 2, column 3: the text is not UTF-8 (scan refusal 12, byte 5)\n     b?\n      ^\nexpected UTF-8, found byte 0xff";
    assert!(wrong.ends_with(due), "{wrong}");
    let high = refused_at("include s;", "//\u{e9}\n'\u{e9}\u{20ac}' \u{fc}");
    let due = "s, line 2, column 6: a byte above 127 outside of strings and comments (scan refusal 3, byte 13)";
    assert_eq!(high, [due, "'\u{e9}\u{20ac}' \u{fc}", "     ^"]);
}

/// Names with accents are read, and no library has them.
#[test]
fn accents() {
    let image = small("", "").image();
    for (text, number, words) in [
        ("import \"\u{e9}\"{prefix p;}", 26, "the text of m imports \"\u{e9}\", which is neither a module nor an import-only module"),
        ("include '\u{e9}';", 27, "the text of m includes \"\u{e9}\", which is no submodule of a module"),
    ] {
        let refusal = graph(&image, &small(text, "").bundle()).expect_err("a refusal");
        assert_eq!(refusal.number(), number);
        assert!(refusal.words().ends_with(words), "{}", refusal.words());
    }
    assert_eq!(graph(&image, &small("//\u{e9}\nimport b{prefix '\u{e9}';}", "").bundle()).expect("a graph").edges.len(), 1);
}

/// A column is a character, or a byte that is part of none, and what cannot be printed takes one too.
#[test]
fn columns() {
    let at = |text: &[u8], place| {
        let line = Line::at(text, place);
        (line.number, line.column, line.part, line.at)
    };
    let text = "\u{e9}\u{20ac}a\n\u{a0}e\u{301}\u{1f600}x".as_bytes();
    for (place, column) in [(0, 1), (1, 1), (2, 2), (4, 2), (5, 3), (6, 4)] {
        assert_eq!(at(text, place), (1, column, "\u{e9}\u{20ac}a".to_string(), column - 1), "{place}");
    }
    for (place, column) in [(7, 1), (8, 1), (9, 2), (10, 3), (12, 4), (15, 4), (16, 5), (17, 6), (99, 6)] {
        assert_eq!(at(text, place), (2, column, "?e?\u{1f600}x".to_string(), column - 1), "{place}");
    }
    for (place, column) in [(1, 2), (2, 3), (3, 4), (5, 5)] {
        assert_eq!(at(b"a\xff\xe2\xc3\xa9b", place), (1, column, "a??\u{e9}b".to_string(), column - 1), "{place}");
    }
    let long = "\u{e9}".repeat(200);
    assert_eq!(at(long.as_bytes(), 200), (1, 101, "\u{e9}".repeat(72), 56));
}

/// Whether the cause of a refusal by names and texts was found, and which of the four it is; nothing of another one.
fn found(why: &Why) -> Option<(bool, usize)> {
    match why {
        Why::NoIncludedText(listed) => Some((listed.is_some(), 0)),
        Why::Scan { spot, .. } => Some((spot.is_some(), 1)),
        Why::UnknownModule(listed) => Some((listed.is_some(), 2)),
        Why::UnknownSubmodule(listed) => Some((listed.is_some(), 3)),
        _ => None,
    }
}

/// Whatever a generated library is refused for by its names and texts, with complete nodes or without, the walk that looks for it ends at the same refusal.
#[test]
fn the_cause_is_found() {
    let mut r = Rng::new(31);
    let mut seen = [[0; 4]; 2];
    for i in 0..6_000 {
        let library = if i % 2 == 0 { libraries::library(&mut r) } else { libraries::repeated(&mut r) };
        let (image, bundle) = (library.image(), library.bundle());
        for (seen, drawn) in seen.iter_mut().zip([graph(&image, &bundle), graph_complete(&image, &bundle)]) {
            let why = match drawn {
                Err(Refusal::Walk { why, .. }) => why,
                _ => continue,
            };
            if let Some((found, which)) = found(&why) {
                assert!(found, "{why}: image {image:02X?}, bundle {:?}", String::from_utf8_lossy(&bundle));
                seen[which] += 1;
            }
        }
    }
    assert!(seen.iter().flatten().all(|n| *n > 20), "{seen:?}");
}

/// A cause behind an include that is refused with 28 without complete nodes.
#[test]
fn a_cause_behind_28() {
    let library = of(&[(&[module("m", "")], &[]), (&[module("m", "s")], &[])], &[("m", "include s;"), ("s", "import x{prefix x;}")]);
    let (image, bundle) = (library.image(), library.bundle());
    assert_eq!(graph(&image, &bundle).expect_err("a refusal").number(), 28);
    let refusal = graph_complete(&image, &bundle).expect_err("a refusal");
    assert_eq!(refusal.number(), 26);
    assert!(refusal.words().contains("the text of s"), "{}", refusal.words());
}
