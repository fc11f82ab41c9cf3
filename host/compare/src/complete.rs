//! The graphs of both modes of generated libraries, in most of which names come again, beside a plain reading of document 01 and of request 2026-02
//! (`../../vectors/src/graphs.rs`). The texts are scanned by the port itself; the other comparisons hold its scans against the original.

use crate::Run;
use crate::graph::{drawn, shown};
use crate::orders::short;
use crate::port::{self, Graphed};
use std::collections::HashSet;
use vectors::answers::Refusal;
use vectors::form;
use vectors::graphs::{self, Drawn, Links, Mode};
use vectors::libraries;
use vectors::rng::Rng;

fn scan(text: &[u8]) -> Result<Links, Refusal> {
    let mut lent = port::enough(text, 0);
    if lent.dependencies(false, text) == 0 {
        return Ok(Links::of(&lent.import_rows(), &lent.include_rows()));
    }
    let [number, keyword, position, ..] = lent.answer;
    Err(Refusal { number, keyword, position })
}

/// What is due in each mode.
fn due<'a>(image: &'a [u8], bundle: &[u8]) -> [Drawn<'a>; 2] {
    match (form::read_image(image), form::read_bundle(bundle)) {
        (Err(place), _) => Mode::BOTH.map(|_| graphs::broken(20, place)),
        (_, Err(place)) => Mode::BOTH.map(|_| graphs::broken(21, place)),
        (Ok(sets), Ok(texts)) => {
            let texts = texts.iter().map(|t| (t.name.text, scan(t.bytes))).collect();
            Mode::BOTH.map(|mode| graphs::draw(&sets, &texts, mode))
        }
    }
}

fn agrees(due: &Drawn, g: &Graphed) -> bool {
    g.answer == due.answer() && g.is_clean() && g.nodes.starts_with(&due.node_words()) && g.edges.starts_with(due.edges.as_flattened())
}

// ---- the two modes beside each other

fn names<'a>(image: &'a [u8], g: &Graphed) -> Vec<&'a [u8]> {
    let rows = g.nodes.chunks(2).take(g.answer[6] as usize);
    rows.map(|row| &image[row[0] as usize..][..row[1] as usize]).collect()
}

/// The edges as names.
fn named<'a>(image: &'a [u8], g: &Graphed) -> Vec<[&'a [u8]; 2]> {
    let names = names(image, g);
    g.edges.chunks(2).take(g.answer[7] as usize).map(|row| [row[0], row[1]].map(|v| names[v as usize])).collect()
}

/// Whether a name of an image that is read comes again; that of an import-only module does with each revision but the first.
fn repeats(image: &[u8]) -> bool {
    let mut seen = HashSet::new();
    let sets = form::read_image(image).unwrap_or_default();
    graphs::groups(&sets).any(|(name, below)| [name].iter().chain(below).any(|n| !seen.insert(n.text)))
}

/// What holds of the two graphs whatever they are. 28 never comes in the new mode. Where no name comes again, both calls leave the very same words. But for
/// 28 in the present mode and 30 in the new one both give the same refusal, or the same edges by names, and the new nodes have all names that the present
/// ones have.
fn related(image: &[u8], again: bool, present: &Graphed, complete: &Graphed) -> bool {
    let apart = present.answer[0] == 28 || complete.answer[0] == 30;
    let more: HashSet<&[u8]> = names(image, complete).into_iter().collect();
    complete.answer[0] != 28
        && (again || present == complete)
        && (apart || present.answer[..6] == complete.answer[..6])
        && (apart || named(image, present) == named(image, complete))
        && (apart || names(image, present).iter().all(|name| more.contains(name)))
}

/// In how many libraries that are read a name comes again, and how often the modes differ: 28 in the present one, 30 in the new one alone, both built.
#[derive(Default)]
struct Tally {
    repeated: usize,
    no_node: usize,
    too_many: usize,
    other_nodes: usize,
}

impl Tally {
    fn count(&mut self, again: bool, [present, complete]: &[Drawn; 2]) {
        self.repeated += usize::from(again);
        match [present.number, complete.number] {
            [28, _] => self.no_node += 1,
            [0, 0] => self.other_nodes += usize::from(present != complete),
            [_, 30] => self.too_many += usize::from(present != complete),
            _ => {}
        }
    }
}

fn told(mode: Mode, input: &str, due: &Drawn, g: &Graphed) -> String {
    let (nodes, edges) = (&g.nodes[..2 * g.answer[6] as usize], &g.edges[..2 * g.answer[7] as usize]);
    let due = format!("{:?} {} {}", due.answer(), short(&due.node_words()), short(due.edges.as_flattened()));
    format!("{mode:?}: {input}\n  due      {due}\n  the port {:?} {} {}", g.answer, short(nodes), short(edges))
}

/// Both modes of one library, with so many words more than there must be.
fn one(run: &mut Run, tally: &mut Tally, image: &[u8], bundle: &[u8], more: usize) {
    let (due, again) = (due(image, bundle), repeats(image));
    let [present, complete] = Mode::BOTH.map(|mode| drawn(mode, image, bundle, more));
    let [one, other] = [agrees(&due[0], &present), agrees(&due[1], &complete)];
    run.count(one, || told(Mode::Present, &shown(image, bundle), &due[0], &present));
    run.count(other && (!one || related(image, again, &present, &complete)), || told(Mode::Complete, &shown(image, bundle), &due[1], &complete));
    tally.count(again, &due);
}

/// Mostly few names, which come again; of four one in which fewer do, and one with texts that include each other; of 200 one with hundreds of names, and one
/// with a chain of includes.
fn any(r: &mut Rng) -> libraries::Library {
    match r.below(200) {
        0 => libraries::crowded(r),
        1 => libraries::deep(r),
        2..=50 => libraries::library(r),
        51..=100 => libraries::nested(r, 12),
        _ => libraries::repeated(r),
    }
}

/// The telling inputs, and generated libraries, of ten one damaged.
pub fn graphs(run: &mut Run, seed: u64, count: u64) {
    let mut tally = Tally::default();
    for library in libraries::telling().into_iter().chain(libraries::included()) {
        one(run, &mut tally, &library.image(), &library.bundle(), 0);
    }
    let mut r = Rng::new(seed);
    for i in 0..count {
        let library = any(&mut r);
        let (mut image, mut bundle) = (library.image(), library.bundle());
        match r.below(20) {
            0 => image = libraries::damaged(&mut r, &image),
            1 => bundle = libraries::damaged(&mut r, &bundle),
            _ => {}
        }
        one(run, &mut tally, &image, &bundle, i as usize % 3);
    }
    let Tally { repeated, no_node, too_many, other_nodes } = tally;
    println!("compare: a name comes again in {repeated} of the libraries, and the modes differ on {}:", no_node + too_many + other_nodes);
    println!("compare: {no_node} are 28 in the present one, {too_many} are 30 in the new one alone, {other_nodes} are built with other nodes");
}
