//! Graphs around the limits that the Rust does not have, in both modes, with document 01's and request 2026-02's answers: the eight words, nodes and edges
//! where it is built.

use crate::Run;
use crate::port::{GRAPH_WORDS, lent_graph};
use std::collections::HashMap;
use vectors::form;
use vectors::graphs::Mode;
use vectors::libraries::{ImportOnly, Library, Module, Set, module, of, only, small, words};

// ---- what is expected

pub struct Expected {
    pub answer: [u32; 8],
    /// The nodes' names.
    nodes: Vec<String>,
    edges: Vec<[u32; 2]>,
}

pub fn refused(number: u32, entry: u32) -> Expected {
    Expected { answer: [number, entry, 0, 0, 0, 0, 0, 0], nodes: Vec::new(), edges: Vec::new() }
}

/// Refusal 20 or 21, at a place.
fn broken(number: u32, place: u32) -> Expected {
    Expected { answer: [number, 0, 0, 0, 0, place, 0, 0], ..refused(number, 0) }
}

/// Refusal 25 with the scan's number, keyword and position.
pub fn scan(entry: u32, told: [u32; 3]) -> Expected {
    Expected { answer: [25, entry, told[0], told[1], told[2], 0, 0, 0], ..refused(25, entry) }
}

pub fn built(nodes: &[String], edges: Vec<[u32; 2]>) -> Expected {
    Expected { answer: [0, 0, 0, 0, 0, 0, nodes.len() as u32, edges.len() as u32], nodes: nodes.to_vec(), edges }
}

/// Place and length of each of these names, where it first stands (no case here has a node that stands in a module that is passed over before).
fn node_words(image: &[u8], nodes: &[String]) -> Vec<u32> {
    let sets = form::read_image(image).unwrap_or_default();
    let all: HashMap<&str, u32> = form::candidates(&sets).iter().rev().map(|n| (n.text, n.place as u32)).collect();
    nodes.iter().flat_map(|n| [all[n.as_str()], n.len() as u32]).collect()
}

/// The store's length, and those of the tables.
pub type Lengths = (usize, [usize; 5]);

fn ask_in(mode: Mode, run: &mut Run, what: &str, image: &[u8], bundle: &[u8], (store, words): Lengths, expected: &Expected) {
    let mut g = lent_graph(store, words);
    let number = g.redraw(mode, image, bundle);
    let same = number == expected.answer[0]
        && g.answer == expected.answer
        && g.is_clean()
        && g.nodes.starts_with(&node_words(image, &expected.nodes))
        && g.edges.starts_with(expected.edges.as_flattened());
    run.count(same, || format!("{what}, {mode:?}: {:?}, expected {:?}", g.answer, expected.answer));
}

/// Both modes must answer the same.
pub fn ask(run: &mut Run, what: &str, image: &[u8], bundle: &[u8], lengths: Lengths, expected: &Expected) {
    for mode in Mode::BOTH {
        ask_in(mode, run, what, image, bundle, lengths, expected);
    }
}

/// What a bundle needs, and some words more.
pub fn enough(bundle: &[u8], more: usize) -> Lengths {
    (form::longest_text(bundle) + more, GRAPH_WORDS.map(|n| n + more))
}

/// What is expected in the present mode, and in the new one.
pub fn apart(run: &mut Run, what: &str, library: &Library, expected: [&Expected; 2]) {
    let (image, bundle) = (library.image(), library.bundle());
    for (mode, expected) in Mode::BOTH.into_iter().zip(expected) {
        for more in [0, 3] {
            ask_in(mode, run, what, &image, &bundle, enough(&bundle, more), expected);
        }
    }
}

/// The same is expected in both modes.
pub fn library(run: &mut Run, what: &str, library: &Library, expected: &Expected) {
    apart(run, what, library, [expected; 2]);
}

// ---- libraries

pub fn import(name: &str) -> String {
    format!("import {name}{{prefix p;}}")
}

pub fn include(name: &str) -> String {
    format!("include {name};")
}

/// The first graph of document 01.
fn example() -> (Library, Expected) {
    let m = format!("{}{}", include("s"), import("b"));
    (small(&m, &import("b")), built(&words("m s b"), vec![[2, 0], [1, 0], [2, 1]]))
}

pub fn run(run: &mut Run) {
    lengths(run);
    forms(run);
    nodes(run);
    edges(run);
    full(run);
    depth(run);
    missing(run);
    scans(run);
    entries(run);
}

/// 22 for each buffer that is one short, behind 20 and 21.
fn lengths(run: &mut Run) {
    let (library, good) = example();
    let (image, bundle) = (library.image(), library.bundle());
    let longest = library.texts["m"].len();
    ask(run, "just enough lent", &image, &bundle, (longest, GRAPH_WORDS), &good);
    ask(run, "the store one short", &image, &bundle, (longest - 1, GRAPH_WORDS), &refused(22, 0));
    for (i, what) in ["nodes", "edges", "imports", "includes", "levels"].iter().enumerate() {
        let mut words = GRAPH_WORDS;
        words[i] -= 1;
        ask(run, &format!("{what} one short"), &image, &bundle, (longest, words), &refused(22, 0));
    }
    let nothing = (0, [0; 5]);
    ask(run, "nothing lent", &image, &bundle, nothing, &refused(22, 0));
    ask(run, "nothing lent to an empty library", b"\0", b"\0", nothing, &refused(22, 0));
    ask(run, "nothing lent, the bundle broken", &image, b"\x01", nothing, &broken(21, 1));
    ask(run, "nothing lent, both broken", b"\x01", b"\x01", nothing, &broken(20, 1));
    // 1,025 nodes, and the longest text is one that nobody reads
    let mut many = of(&[], &[("draft", "  ")]);
    many.sets = vec![set_of(0, 512), set_of(512, 512), set_of(1_024, 1)];
    ask(run, "too many nodes, the store one short", &many.image(), &many.bundle(), (1, GRAPH_WORDS), &refused(22, 0));
    ask(run, "too many nodes", &many.image(), &many.bundle(), (2, GRAPH_WORDS), &refused(30, 0));
}

/// 20 and 21 with their places.
fn forms(run: &mut Run) {
    let (library, _) = example();
    let (image, bundle) = (library.image(), library.bundle());
    let mut both = |what: &str, image: &[u8], bundle: &[u8], expected: Expected| ask(run, what, image, bundle, enough(bundle, 0), &expected);
    both("both empty", b"", b"", broken(20, 0));
    both("no bundle", &image, b"", broken(21, 0));
    both("no image", b"", &bundle, broken(20, 0));
    both("no sets, no texts", b"\0", b"\0", built(&[], Vec::new()));
    both("an image cut short", &image[..9], &bundle, broken(20, 9));
    both("a name cut short", &image[..10], &bundle, broken(20, 9));
    both("a byte too many", &[&image[..], b"x"].concat(), &bundle, broken(20, image.len() as u32));
    both("a module twice", b"\x01\x02\x01m\0\0\0\x01m\0\0\0\0", &bundle, broken(20, 7));
    both("a text cut short", &image, b"\x02\x01m\x01x\x01b\x02x", broken(21, 7));
    both("a text twice", &image, b"\x02\x01m\0\x01m\0", broken(21, 4));
    both("a byte behind the bundle", &image, &[&bundle[..], b"\0"].concat(), broken(21, bundle.len() as u32));
    both("an image over its length", &vec![0; 65_537], &bundle, broken(20, 0));
    both("a bundle over its length", &image, &vec![0; 16_777_217], broken(21, 0));
    both("both broken", b"\x11", b"\x80", broken(20, 0));
}

pub fn name(i: usize) -> String {
    format!("m{i:04}")
}

fn set_of(from: usize, count: usize) -> Set {
    Set { modules: (from..from + count).map(|i| module(&name(i), "")).collect(), import_only: Vec::new() }
}

/// So many modules over two sets, each with the text that is made for it.
pub fn flat(modules: usize, text: impl Fn(usize) -> String) -> Library {
    let half = modules / 2;
    Library { sets: vec![set_of(0, half), set_of(half, modules - half)], texts: (0..modules).map(|i| (name(i), text(i))).collect() }
}

/// 1,024 nodes are built, the 1,025th is 30, whichever it is.
fn nodes(run: &mut Run) {
    let all: Vec<String> = (0..1_024).map(name).collect();
    let most = flat(1_024, |_| String::new());
    library(run, "1,024 nodes", &most, &built(&all, Vec::new()));
    let with = |set: Set| Library { sets: [&most.sets[..], &[set]].concat(), ..most.clone() };
    library(run, "names that come again are no nodes", &with(set_of(300, 512)), &built(&all, Vec::new()));
    library(run, "a 1,025th module", &with(set_of(1_024, 1)), &refused(30, 0));
    let alone = |one: ImportOnly| Set { modules: Vec::new(), import_only: vec![one] };
    library(run, "a 1,025th import-only module", &with(alone(only("x", &[""]))), &refused(30, 0));
    let again = with(alone(only("m0007", &["x", "y"])));
    apart(run, "an import-only module that is a node", &again, [&built(&all, Vec::new()), &refused(30, 0)]);
    let mut sub = flat(1_023, |_| String::new());
    let end = |sub: &mut Library, names: &str| sub.sets[1].modules[511].submodules = words(names);
    end(&mut sub, "s");
    library(run, "1,024 nodes, the last a submodule", &sub, &built(&[&all[..1_023], &words("s")].concat(), Vec::new()));
    end(&mut sub, "s t");
    library(run, "a 1,025th submodule", &sub, &refused(30, 0));
    sub.texts.clear();
    library(run, "a 1,025th submodule, no texts", &sub, &refused(30, 0));
}

/// The imports of the next so many modules.
fn next(i: usize, count: usize, modules: usize) -> String {
    (1..=count).map(|k| import(&name((i + k) % modules))).collect()
}

/// The edges of such imports.
fn next_edges(i: usize, count: usize, modules: usize) -> impl Iterator<Item = [u32; 2]> {
    (1..=count).map(move |k| [((i + k) % modules) as u32, i as u32])
}

/// 8,192 edges are built, the 8,193rd is 31, and an edge that is there is none.
fn edges(run: &mut Run) {
    let all: Vec<String> = (0..1_024).map(name).collect();
    let most = || flat(1_024, |i| next(i, 8, 1_024));
    let told: Vec<[u32; 2]> = (0..1_024).flat_map(|i| next_edges(i, 8, 1_024)).collect();
    library(run, "8,192 edges", &most(), &built(&all, told.clone()));
    let with = |i: usize, more: &str| {
        let mut out = most();
        out.texts.get_mut(&name(i)).expect("a text").push_str(more);
        out
    };
    library(run, "an edge that is there", &with(1_023, &import("m0000")), &built(&all, told));
    library(run, "an 8,193rd edge by an import", &with(1_023, &import("m0300")), &refused(31, 1_024));
    library(run, "one edge more at the beginning", &with(0, &import("m0300")), &refused(31, 1_024));
    let mut augmented = most();
    augmented.sets[1].modules[511].augmenting = words("m0300");
    library(run, "an 8,193rd edge by an augmenting module", &augmented, &refused(31, 1_024));
    augmented.sets[1].modules[511].augmenting = words("zz");
    library(run, "no room, an augmenting module that is none", &augmented, &refused(26, 1_024));
    let mut itself = most();
    itself.sets[0].modules[5].deviations = words("m0005");
    library(run, "one edge more by a self-edge", &itself, &refused(31, 1_024));
    let mut deviated = most();
    deviated.sets[1].modules[511].deviations = words("m0005");
    library(run, "an 8,193rd edge by a deviation", &deviated, &refused(31, 1_024));
    deviated.sets[1].modules[511].deviations = words("zz");
    library(run, "no room, a deviation that is no module", &deviated, &refused(26, 1_024));
}

/// 1,000 modules with so many edges before the last one, which has the submodules s and t and this text.
pub fn almost(edges: usize, text: &str, s: Option<&str>) -> Library {
    let more = edges - 8 * 999;
    let mut out = flat(1_000, |i| if i == 999 { text.to_string() } else { next(i, 8 + usize::from(i < more), 1_000) });
    out.sets[1].modules[499].submodules = words("s t");
    out.texts.extend(s.map(|s| ("s".to_string(), s.to_string())));
    out
}

/// The edges of the same before the last one's.
pub fn almost_edges(edges: usize) -> Vec<[u32; 2]> {
    let more = edges - 8 * 999;
    (0..999).flat_map(|i| next_edges(i, 8 + usize::from(i < more), 1_000)).collect()
}

/// Which refusal comes first where the edges are used up: 26, 31 for an import; 27, 28, 31, 29, 24, 25 for an include.
fn full(run: &mut Run) {
    let mut last = |what: &str, edges: usize, text: String, s: Option<&str>, expected: Expected| library(run, what, &almost(edges, &text, s), &expected);
    last("no room, an import that is no module", 8_192, import("zz"), None, refused(26, 1_000));
    last("no room, an import", 8_192, import("m0300"), None, refused(31, 1_000));
    last("no room, an include that is no submodule", 8_192, include("zz"), None, refused(27, 1_000));
    last("no room, an include without a text", 8_192, include("s"), None, refused(31, 1_000));
    last("no room, an include that is refused", 8_192, include("s"), Some("import"), refused(31, 1_000));
    last("room for one, an include without a text", 8_191, include("s"), None, refused(24, 1_000));
    last("room for one, an include that is refused", 8_191, include("s"), Some("import"), scan(1_000, [4, 8, 6]));
    last("room for one, a second include", 8_191, include("s") + &include("t"), Some(""), refused(31, 1_000));
    last("room for one, an include of itself", 8_191, include("s"), Some(&include("s")), refused(31, 1_000));
    last("room for two, an include of itself", 8_190, include("s"), Some(&include("s")), refused(29, 1_000));
    last("room for one, the scan before the import", 8_191, include("s"), Some("import zz{prefix p;}import"), scan(1_000, [4, 8, 26]));
    let mut elsewhere = almost(8_192, &include("x"), None);
    elsewhere.sets.push(Set { modules: vec![module("m0000", "x")], import_only: Vec::new() });
    apart(run, "no room, an include that is no node", &elsewhere, [&refused(28, 1_000), &refused(31, 1_000)]);
}

/// m includes s1, which includes s2, and so on; the last text ends with `last`.
fn chain(length: usize, last: &str) -> Library {
    let text = |i: usize| if i < length { include(&format!("s{}", i + 1)) } else { last.to_string() };
    let mut out = of(&[(&[module("a", ""), module("m", "s1 s2 s3 s4 s5 s6 s7 s8 s9")], &[])], &[("a", "")]);
    out.texts.insert("m".to_string(), text(0));
    out.texts.extend((1..=length).map(|i| (format!("s{i}"), text(i))));
    out
}

/// A text at depth 8 is read, none at depth 9.
fn depth(run: &mut Run) {
    let all = words("a m s1 s2 s3 s4 s5 s6 s7 s8 s9");
    let mut told: Vec<[u32; 2]> = (1..9).map(|i| [i + 1, i]).collect();
    library(run, "eight includes deep", &chain(8, ""), &built(&all, told.clone()));
    told.push([0, 9]);
    library(run, "an import at depth 8", &chain(8, &import("a")), &built(&all, told));
    library(run, "nine includes deep", &chain(9, ""), &refused(29, 2));
    library(run, "nine deep, and the ninth has no text", &chain(8, &include("s9")), &refused(29, 2));
    library(run, "a circle", &chain(8, &include("s1")), &refused(29, 2));
    library(run, "no submodule at depth 8", &chain(8, &include("zz")), &refused(27, 2));
    library(run, "refused at depth 8", &chain(8, "include \x7f"), &scan(2, [4, 9, 8]));
    library(run, "no text at depth 8", &chain(7, &include("s8")), &refused(24, 2));
}

/// 23, 24, 26, 27, 28.
fn missing(run: &mut Run) {
    let without = |gone: &str, m: &str, s: &str| {
        let mut out = small(m, s);
        out.texts.remove(gone);
        out
    };
    library(run, "no text for an entry", &without("b", "", ""), &refused(23, 2));
    library(run, "no text for an include", &without("s", "include s;", ""), &refused(24, 1));
    library(run, "no text for what is not included", &without("s", "", ""), &built(&words("m s b"), Vec::new()));
    library(run, "an import that is no module", &small(&import("s"), ""), &refused(26, 1));
    library(run, "an import that is no module, in an include", &small("include s;", &import("m-")), &refused(26, 1));
    library(run, "an include that is a module alone", &small("include b;", ""), &refused(27, 1));
    let two = of(&[(&[module("m", "")], &[]), (&[module("m", "s")], &[])], &[("m", "include s;"), ("s", "")]);
    apart(run, "an include that is no node", &two, [&refused(28, 1), &built(&words("m s"), vec![[1, 0]])]);
    let only = of(&[(&[module("m", "")], &[only("i", &["s"])])], &[("m", "include s;"), ("i", ""), ("s", "")]);
    library(run, "an include that only an import-only module has", &only, &refused(27, 1));
    let mut listed = small("include s;", "");
    listed.sets[0].modules[1].deviations = words("m s");
    library(run, "a submodule as a deviation", &listed, &refused(26, 2));
}

/// 25 and what it carries, in an entry and in an include.
fn scans(run: &mut Run) {
    let short: [(&str, [u32; 3]); 5] =
        [("import a{}", [7, 8, 10]), ("a\x7f  import", [4, 8, 10]), ("include b{", [8, 9, 10]), ("import a{prefix p", [6, 5, 17]), ("import a b", [5, 8, 9])];
    for (text, told) in short {
        library(run, "an entry refused", &small(text, ""), &scan(1, told));
        library(run, "an include refused", &small("import b{prefix p;}include s;", text), &scan(1, told));
    }
    let many = import("b").repeat(256);
    library(run, "256 imports", &small("include s;", &many), &built(&words("m s b"), vec![[1, 0], [2, 1]]));
    let at = many.len() as u32 + 6;
    library(run, "a 257th import", &small("include s;", &format!("{many}import")), &scan(1, [10, 8, at]));
    let image = small("", "").image();
    let wrong = b"\x03\x01m\x0ainclude s;\x01s\x02a\xff\x01b\0";
    ask(run, "no UTF-8", &image, wrong, enough(wrong, 0), &scan(1, [12, 0, 1]));
    let most = format!("{}{}", include("s"), " ".repeat(1_048_566));
    library(run, "the longest text", &small(&most, ""), &built(&words("m s b"), vec![[1, 0]]));
    library(run, "one byte more", &small(&format!("{most} "), ""), &scan(1, [1, 0, 0]));
    library(run, "one byte more in an include", &small("include s;", &format!("{most} ")), &scan(1, [1, 0, 0]));
    library(run, "one byte more that nobody reads", &small("", &format!("{most} ")), &built(&words("m s b"), Vec::new()));
}

/// Entries are counted on over the sets, an import-only name once.
fn entries(run: &mut Run) {
    let sets: [(&[Module], &[ImportOnly]); 2] = [
        (&[module("a", ""), module("b", "")], &[only("c", &["", "s", "t"]), only("a", &[""])]),
        (&[module("a", "u"), module("d", "")], &[only("e", &["v"])]),
    ];
    let texts = [("a", ""), ("b", ""), ("c", ""), ("d", ""), ("e", "import c{prefix p;}")];
    let all = of(&sets, &texts);
    // s and t stand in later revisions of c, u below an a that comes again: they are passed over, or nodes
    apart(run, "two sets", &all, [&built(&words("a b c d e v"), vec![[2, 4]]), &built(&words("a b c s t u d e v"), vec![[2, 7]])]);
    for (entry, gone) in [(1, "a"), (2, "b"), (3, "c"), (6, "d"), (7, "e")] {
        let mut less = all.clone();
        less.texts.remove(gone);
        library(run, "an entry without a text", &less, &refused(23, entry));
    }
    let mut again = all;
    again.sets[1].modules[0].augmenting = words("b zz");
    library(run, "a module that comes again, with another list", &again, &refused(26, 5));
}
