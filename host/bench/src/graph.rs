//! The graph of an image and a bundle, from their bytes on: the port beside to_graph of the original yanglib.rs, behind the oracle's reading of the
//! same bytes into its types.

use crate::port::{self, Graphed};
use crate::table::{counted, grouped};
use crate::timing::Row;
use crate::yanglib::YangLibrary;
use crate::{form, house};
use petgraph::graph::DiGraph;
use std::collections::BTreeMap;
use std::hint::black_box;
use std::ops::Range;
use vectors::graphs::Mode;
use vectors::libraries::{ImportOnly, Library, Module, Set};
use vectors::routers;

/// An image and a bundle, and what they are.
pub struct Input {
    pub what: String,
    pub image: Vec<u8>,
    pub bundle: Vec<u8>,
}

impl Input {
    pub fn of(what: String, library: &Library) -> Input {
        Input { what, image: library.image(), bundle: library.bundle() }
    }

    /// Modules of these files.
    fn real(image: &str, bundle: &str) -> Input {
        let [image, bundle] = [image, bundle].map(|file| std::fs::read(file).expect("a file"));
        let texts = form::read_bundle(&bundle).expect("a bundle").len();
        Input { what: format!("{texts} real modules"), image, bundle }
    }

    fn made(modules: usize, each: usize, sets: usize) -> Input {
        let spread = if sets == 1 { "one set".to_string() } else { format!("{sets} sets") };
        let what = format!("{} modules, {each} imports each, {spread}", grouped(modules));
        Input::of(what, &routers::made(modules, each, sets, modules as u64))
    }

    pub fn bytes(&self) -> usize {
        self.image.len() + self.bundle.len()
    }
}

pub fn inputs(image: &str, bundle: &str) -> [Input; 3] {
    [Input::made(500, 6, 1), Input::made(1_000, 8, 16), Input::real(image, bundle)]
}

pub const SIZES: [usize; 4] = [125, 250, 500, 1_000];

pub fn growing() -> [Input; 4] {
    SIZES.map(|modules| Input::made(modules, 6, 2))
}

pub const ROUTERS: [usize; 4] = [100, 200, 400, 800];

/// Routers have submodules, import-only modules, augmentations and deviations too.
pub fn growing_routers() -> [Input; 4] {
    ROUTERS.map(|modules| Input::of(format!("a router of {modules} modules"), &routers::router(modules, modules as u64)))
}

/// So many modules with empty texts in four sets, each with a list of others that deviate from it, by numbers.
fn listed(what: &str, modules: usize, others: impl Fn(usize) -> Vec<usize>) -> Input {
    let name = |i: usize| format!("m{i:04}");
    let mut library = Library { sets: vec![Set::default(); 4], ..Library::default() };
    for i in 0..modules {
        let deviations = others(i).into_iter().map(name).collect();
        library.sets[i * 4 / modules].modules.push(Module { name: name(i), deviations, ..Module::default() });
        library.texts.insert(name(i), String::new());
    }
    Input::of(what.to_string(), &library)
}

/// 15 sets with the same two import-only modules, each with eight revisions of 64 submodules, all of them out of 1,000 names: about as many repeated names as
/// an image has room for.
fn again() -> Input {
    let name = |i: usize| format!("{:03}", i % 1_000);
    let revision = |k: usize| (64 * k..64 * k + 64).map(name).collect();
    let only = |k: usize| ImportOnly { name: format!("m{}", k % 2), revisions: (8 * k..8 * k + 8).map(revision).collect() };
    let sets = (0..15).map(|k| Set { import_only: vec![only(2 * k), only(2 * k + 1)], ..Set::default() }).collect();
    let texts = [0, 1].map(|k| (format!("m{k}"), String::new())).into();
    Input::of("15,360 submodules that come again".to_string(), &Library { sets, texts })
}

/// Many edges to a few nodes, many from a few, and edges that all come into 64 of the 8,192 chains in which the port looks for an edge (crates/graph_edges);
/// and names that come again.
pub fn adverse() -> [Input; 4] {
    let filed_together = |i: usize| (0..64).map(|k| (128 * k + 8_192 * 20 - 131 * i) % 8_192).filter(|to| *to < 1_024 && *to != i).collect();
    [
        listed("1,000 edges to each of 8", 1_008, |i| if i < 8 { vec![] } else { (0..8).collect() }),
        listed("64 edges from each of 125", 1_000, |i| if i < 125 { (i + 1..i + 65).collect() } else { vec![] }),
        listed("edges in 64 chains of 8,192", 1_024, filed_together),
        again(),
    ]
}

// ---- texts that are included again

/// The tree of request 2026-10.
pub fn shared() -> Input {
    Input::of("60 modules that include the same 15 submodules".to_string(), &routers::sharing(60, 15, 6, 60))
}

/// Each text is included 256 times by the one before it: the Rust, which walks it each time, has 256^8 walks before it, longer than anyone waits.
pub fn nine() -> Input {
    let names: Vec<String> = (0..9).map(|i| format!("s{i}")).collect();
    let module = Module { name: names[0].clone(), submodules: names[1..].to_vec(), ..Module::default() };
    let mut library = Library { sets: vec![Set { modules: vec![module], ..Set::default() }], ..Library::default() };
    library.texts.extend(names.windows(2).map(|pair| (pair[0].clone(), format!("include {};", pair[1]).repeat(256))));
    library.texts.insert(names[8].clone(), String::new());
    Input::of("nine texts that include the next one 256 times".to_string(), &library)
}

/// Whether the archive scans each text once. One from before does not ask for the words in which that is remembered, and is not to be given nine texts.
pub fn remembers() -> bool {
    let mut words = port::GRAPH_WORDS;
    words[4] -= 1;
    port::lent_graph(0, words).redraw(Mode::Present, b"\0", b"\0") == 22
}

// ---- the costliest

/// One set of modules with these names and texts.
fn modules(what: &str, all: Vec<(String, String)>) -> Input {
    let named = |names: &[(String, String)]| names.iter().map(|(name, _)| Module { name: name.clone(), ..Module::default() }).collect();
    let sets = all.chunks(512).map(|names| Set { modules: named(names), ..Set::default() }).collect();
    Input::of(what.to_string(), &Library { sets, texts: all.into_iter().collect() })
}

/// As much as a bundle holds of what takes longest to scan.
pub fn letters() -> Input {
    modules("16 texts of one-letter words, as long as a bundle may be", (0..16).map(|i| (format!("m{i:02}"), "a ".repeat(524_280))).collect())
}

/// The bucket in which the port looks for a name (crates/library_index).
fn bucket(name: &str) -> usize {
    name.bytes().fold(0, |sum, byte| (sum * 131 + usize::from(byte)) % 2_048)
}

/// So many names of 54 bytes, alike but for the last five, all in one bucket.
fn alike(count: usize) -> Vec<String> {
    let letters: Vec<char> = ('0'..='9').chain('a'..='z').chain('A'..='Z').collect();
    let longer = |name: String| letters.iter().map(move |letter| format!("{name}{letter}"));
    let begun = longer("p".repeat(49)).flat_map(&longer);
    begun.filter_map(|name| longer(name).flat_map(&longer).flat_map(&longer).find(|name| bucket(name) == 0)).take(count).collect()
}

/// 1,024 modules with names in one bucket, each of which imports the eight that are found last, as often as a bundle has room for. Names cannot be longer: an
/// image has no room for them.
pub fn one_bucket() -> Input {
    let names = alike(1_024);
    let text: String = names.iter().take(8).cycle().take(226).map(|name| format!("import {name}{{prefix p;}}")).collect();
    modules("231,424 imports of names in one of 2,048 buckets", names.into_iter().map(|name| (name, text.clone())).collect())
}

/// 1,024 names, each alone in its bucket.
fn apart() -> Vec<String> {
    let mut taken = [false; 2_048];
    let alone = |name: &String| !std::mem::replace(&mut taken[bucket(name)], true);
    (0..10_000).map(|i| format!("{i:04}")).filter(alone).take(1_024).collect()
}

/// Edges deep in the chains in which the port looks for an edge (crates/graph_edges), looked for as often as texts can. The edge from x to u stands in chain
/// 131 x + u of 8,192, those that were laid first at its end. 127 modules x, those with 131 x in the first eighth of the chains, lay edges in the same 64
/// chains by lists, up to 127 in each; 134 are the most that a chain can have. Then come the texts of the others, each with 256 imports and 256 includes of
/// the first one that laid an edge to it: so these are submodules too. Their own texts are empty, since the Rust reads them with each include.
pub fn deep_edges() -> Input {
    let names = apart();
    let named = |numbers: Range<usize>| numbers.map(|i| names[i].clone()).collect::<Vec<String>>();
    // nodes have the numbers of their names: 16 modules with the others as submodules come first
    let first = (0..16).map(|k| Module { name: names[64 * k].clone(), submodules: named(64 * k + 1..64 * k + 64), ..Module::default() });
    let (mut laying, others): (Vec<usize>, Vec<usize>) = (0..1_024).filter(|i| i % 64 != 0).partition(|x| 131 * x % 8_192 < 1_024);
    // each eighth of them along the chains comes first, so that one of these lays an edge to each node
    laying.sort_by_key(|x| 131 * x % 8_192);
    let laying: Vec<usize> = (0..8).flat_map(|k| laying.iter().copied().skip(k).step_by(8)).collect();
    let to = |x: usize| (992..1_056).filter_map(move |chain| usize::checked_sub(chain, 131 * x % 8_192)).filter(|u| *u < 1_024);
    let list = |x: &usize| Module { name: names[*x].clone(), deviations: to(*x).map(|u| names[u].clone()).collect(), ..Module::default() };
    let plain = |u: &usize| Module { name: names[*u].clone(), ..Module::default() };
    let mut modules = vec![first.collect(), laying.iter().map(list).collect()];
    modules.extend(others.chunks(512).map(|some| some.iter().map(plain).collect()));
    let mut texts: BTreeMap<String, String> = names.iter().map(|name| (name.clone(), String::new())).collect();
    for u in &others {
        let x = laying.iter().find(|x| to(**x).any(|other| other == *u)).map(|x| &names[*x]).expect("an edge");
        texts.insert(names[*u].clone(), format!("import {x}{{prefix p;}}").repeat(256) + &format!("include {x};").repeat(256));
    }
    let sets = modules.into_iter().map(|modules| Set { modules, ..Set::default() }).collect();
    let what = format!("{} imports and includes whose edges stand deep in 64 of 8,192 chains", grouped(512 * others.len()));
    Input::of(what, &Library { sets, texts })
}

// ---- rows

/// What the Rust makes of the bytes before it draws.
pub fn read(input: &Input) -> (YangLibrary, house::Schemas) {
    let library = house::read_library(black_box(&input.image), &mut |_, _| {}).expect("an image");
    (library, house::read_schemas(black_box(&input.bundle)).expect("a bundle").expect("UTF-8"))
}

pub fn edges_of(graph: &DiGraph<&str, ()>) -> Vec<[u32; 2]> {
    graph.raw_edges().iter().map(|edge| [edge.source().index() as u32, edge.target().index() as u32]).collect()
}

/// What the port drew, into tables that are made here. Both sides must have the same nodes and edges.
pub fn agreed(input: &Input) -> Graphed {
    let drawn = port::graph(Mode::Present, &input.image, &input.bundle, form::longest_text(&input.bundle), 0);
    assert_eq!(drawn.answer[0], 0, "{}: refused", input.what);
    let (library, schemas) = read(input);
    let graph = library.to_graph(&schemas).expect("a graph");
    let name = |row: &[u32]| std::str::from_utf8(&input.image[row[0] as usize..][..row[1] as usize]).expect("a name");
    assert!(graph.node_weights().copied().eq(drawn.nodes.chunks(2).take(drawn.answer[6] as usize).map(name)), "{}: two lists of nodes", input.what);
    assert_eq!(edges_of(&graph).as_flattened(), &drawn.edges[..2 * drawn.answer[7] as usize], "{}: two lists of edges", input.what);
    drawn
}

/// One run of the port over tables that were made once.
fn redrawn(mode: Mode, input: &Input, mut lent: Graphed) -> impl FnMut() {
    move || _ = black_box(lent.redraw(mode, black_box(&input.image), black_box(&input.bundle)))
}

pub fn whole(input: &Input) -> Row<'_> {
    let rust = || {
        let (library, schemas) = read(input);
        black_box(library.to_graph(&schemas).expect("a graph"));
    };
    let lent = agreed(input);
    let [.., nodes, edges] = lent.answer.map(|word| word as usize);
    Row::new(counted(&input.what, nodes, edges), input.bytes(), rust, redrawn(Mode::Present, input, lent))
}

/// The port alone, where the Rust takes too long for a table, or longer than anyone waits.
pub fn alone(input: &Input) -> Row<'_> {
    let lent = port::graph(Mode::Present, &input.image, &input.bundle, form::longest_text(&input.bundle), 0);
    let [number, .., nodes, edges] = lent.answer.map(|word| word as usize);
    assert_eq!(number, 0, "{}: refused", input.what);
    Row::alone(counted(&input.what, nodes, edges), input.bytes(), redrawn(Mode::Present, input, lent))
}

/// The same with complete nodes, which the Rust does not have.
pub fn complete(input: &Input) -> Row<'_> {
    let lent = port::graph(Mode::Complete, &input.image, &input.bundle, form::longest_text(&input.bundle), 0);
    let [number, .., nodes, edges] = lent.answer.map(|word| word as usize);
    assert_eq!(number, 0, "{}: refused", input.what);
    Row::alone(counted(&input.what, nodes, edges), input.bytes(), redrawn(Mode::Complete, input, lent))
}

/// The Rust's to_graph without the reading before it; the port as ever, reading and all.
pub fn drawing(input: &Input) -> Row<'_> {
    let (library, schemas) = read(input);
    let rust = move || _ = black_box(library.to_graph(black_box(&schemas)).expect("a graph"));
    Row::new(&input.what, input.bytes(), rust, redrawn(Mode::Present, input, agreed(input)))
}

/// Where no node table is lent, the call ends behind the reading, with refusal 22.
pub fn reading(input: &Input) -> Row<'_> {
    let mut lent = agreed(input);
    lent.nodes.clear();
    let port = move || assert_eq!(lent.redraw(Mode::Present, black_box(&input.image), black_box(&input.bundle)), 22);
    Row::alone(format!("`nuvaleta_graph` up to the drawing, {}", input.what), input.bytes(), port)
}
