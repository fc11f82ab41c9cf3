//! A plain reading of document 01's graph, in the present mode and in that of request 2026-02. It shares no code with the port; what the scans of the texts
//! answer it is told.

use crate::answers::{NO_SCAN, Refusal};
use crate::form::{Name, Set};
use std::collections::{HashMap, HashSet};

pub const NODES_MOST: usize = 1_024;
pub const EDGES_MOST: usize = 8_192;
/// No text is read here.
const TOO_DEEP: usize = 9;

/// What becomes of a module whose name is already a node.
#[derive(Clone, Copy, Debug, PartialEq)]
pub enum Mode {
    /// It is passed over with its submodules, as the original does.
    Present,
    /// Its submodules are still gone through (request 2026-02).
    Complete,
}

impl Mode {
    pub const BOTH: [Mode; 2] = [Mode::Present, Mode::Complete];
}

/// The names that a text imports and includes, as they are read.
#[derive(Clone, Debug, Default)]
pub struct Links {
    pub imports: Vec<String>,
    pub includes: Vec<String>,
}

impl Links {
    /// From a scan's rows: each begins with the name.
    pub fn of<const M: usize, const N: usize>(imports: &[[Option<Vec<u8>>; M]], includes: &[[Option<Vec<u8>>; N]]) -> Links {
        let name = |value: &Option<Vec<u8>>| String::from_utf8(value.clone().expect("a name")).expect("bytes below 128");
        Links { imports: imports.iter().map(|row| name(&row[0])).collect(), includes: includes.iter().map(|row| name(&row[0])).collect() }
    }
}

/// What the scan of each text of a bundle says.
pub type Texts<'a> = HashMap<&'a str, Result<Links, Refusal>>;

/// A graph; or a refusal, without nodes and edges.
#[derive(Debug, PartialEq)]
pub struct Drawn<'a> {
    pub number: u32,
    pub entry: u32,
    pub scan: Refusal,
    pub place: u32,
    pub nodes: Vec<Name<'a>>,
    pub edges: Vec<[u32; 2]>,
}

impl Drawn<'_> {
    /// The eight words of the answer.
    pub fn answer(&self) -> [u32; 8] {
        let Refusal { number, keyword, position } = self.scan;
        [self.number, self.entry, number, keyword, position, self.place, self.nodes.len() as u32, self.edges.len() as u32]
    }

    /// Place and length of each node's name.
    pub fn node_words(&self) -> Vec<u32> {
        self.nodes.iter().flat_map(|n| [n.place as u32, n.text.len() as u32]).collect()
    }
}

// ---- nodes

/// "Per set, each module and then its submodules, then each import-only revision and its submodules": a name with what stands below it.
pub fn groups<'a, 's>(sets: &'s [Set<'a>]) -> impl Iterator<Item = (Name<'a>, &'s [Name<'a>])> {
    sets.iter().flat_map(|set| {
        let modules = set.modules.iter().map(|m| (m.name, &m.submodules[..]));
        let revisions = set.import_only.iter().flat_map(|m| m.revisions.iter().map(move |r| (m.name, &r[..])));
        modules.chain(revisions)
    })
}

/// "A name already a node adds nothing. A module or import-only revision whose name is already a node is passed over with its submodules"; in the new mode
/// "its submodules are still gone through, import-only revisions too".
fn nodes<'a>(sets: &[Set<'a>], mode: Mode) -> Vec<Name<'a>> {
    let (mut out, mut seen) = (Vec::new(), HashSet::new());
    for (name, below) in groups(sets) {
        if mode == Mode::Complete || !seen.contains(name.text) {
            let all = [name].into_iter().chain(below.iter().copied());
            out.extend(all.filter(|n| seen.insert(n.text)));
        }
    }
    out
}

// ---- the walk

/// A refusal's number, and the scan's answer at 25.
struct Stop(u32, Refusal);

fn stop<T>(number: u32) -> Result<T, Stop> {
    Err(Stop(number, NO_SCAN))
}

struct Walk<'w> {
    texts: &'w Texts<'w>,
    /// The nodes' numbers.
    numbers: HashMap<&'w str, u32>,
    /// "A module or import-only name."
    importable: HashSet<&'w str>,
    /// "A submodule of some module"; "import-only modules' submodules don't count".
    includable: HashSet<&'w str>,
    edges: Vec<[u32; 2]>,
    there: HashSet<[u32; 2]>,
}

impl<'w> Walk<'w> {
    fn new(sets: &'w [Set], nodes: &[Name<'w>], texts: &'w Texts<'w>) -> Walk<'w> {
        let modules = || sets.iter().flat_map(|s| &s.modules);
        let only = sets.iter().flat_map(|s| &s.import_only);
        Walk {
            texts,
            numbers: nodes.iter().zip(0..).map(|(n, i)| (n.text, i)).collect(),
            importable: modules().map(|m| m.name.text).chain(only.map(|m| m.name.text)).collect(),
            includable: modules().flat_map(|m| &m.submodules).map(|n| n.text).collect(),
            edges: Vec::new(),
            there: HashSet::new(),
        }
    }

    /// "An edge present is not added again."
    fn edge(&mut self, from: &str, to: &str) -> Result<(), Stop> {
        let edge = [self.numbers[from], self.numbers[to]];
        if self.there.insert(edge) {
            self.edges.push(edge);
        }
        if self.edges.len() > EDGES_MOST { stop(31) } else { Ok(()) }
    }

    /// An import, an augmenting module or a deviation.
    fn known(&self, name: &str) -> Result<(), Stop> {
        if self.importable.contains(name) { Ok(()) } else { stop(26) }
    }

    /// An include's text is at `depth`.
    fn include(&mut self, name: &str, of: &str, depth: usize) -> Result<(), Stop> {
        if !self.includable.contains(name) {
            return stop(27);
        }
        if !self.numbers.contains_key(name) {
            return stop(28);
        }
        self.edge(name, of)?;
        if depth == TOO_DEEP { stop(29) } else { self.text(name, depth, 24) }
    }

    /// "A text is scanned, then each import u of v gives edge u to v, then each include u does and u's text is walked before the next include."
    fn text(&mut self, name: &str, depth: usize, missing: u32) -> Result<(), Stop> {
        let texts = self.texts;
        let links = match texts.get(name) {
            None => return stop(missing),
            Some(Err(scan)) => return Err(Stop(25, *scan)),
            Some(Ok(links)) => links,
        };
        for import in &links.imports {
            self.known(import)?;
            self.edge(import, name)?;
        }
        links.includes.iter().try_for_each(|include| self.include(include, name, depth + 1))
    }

    /// "After its text, a module gives edges to its augmenting modules, then deviations."
    fn entry(&mut self, name: &str, lists: [&[Name]; 2]) -> Result<(), Stop> {
        self.text(name, 0, 23)?;
        for other in lists.concat() {
            self.known(other.text)?;
            self.edge(name, other.text)?;
        }
        Ok(())
    }
}

/// "Per set, modules, then import-only names, numbered from 1 as entries."
fn entries<'a, 's>(sets: &'s [Set<'a>]) -> impl Iterator<Item = (&'a str, [&'s [Name<'a>]; 2])> {
    sets.iter().flat_map(|set| {
        let modules = set.modules.iter().map(|m| (m.name.text, [&m.augmenting[..], &m.deviations]));
        modules.chain(set.import_only.iter().map(|m| (m.name.text, [&[][..]; 2])))
    })
}

fn refused<'a>(entry: u32, Stop(number, scan): Stop) -> Drawn<'a> {
    Drawn { number, entry, scan, place: 0, nodes: Vec::new(), edges: Vec::new() }
}

/// Refusal 20 or 21: the form is broken here.
pub fn broken<'a>(number: u32, place: usize) -> Drawn<'a> {
    Drawn { place: place as u32, ..refused(0, Stop(number, NO_SCAN)) }
}

/// The graph of an image that was read and of texts that were scanned.
pub fn draw<'a>(sets: &[Set<'a>], texts: &Texts, mode: Mode) -> Drawn<'a> {
    let nodes = nodes(sets, mode);
    if nodes.len() > NODES_MOST {
        return refused(0, Stop(30, NO_SCAN));
    }
    let mut walk = Walk::new(sets, &nodes, texts);
    for ((name, lists), entry) in entries(sets).zip(1..) {
        if let Err(stop) = walk.entry(name, lists) {
            return refused(entry, stop);
        }
    }
    let edges = walk.edges;
    Drawn { number: 0, entry: 0, scan: NO_SCAN, place: 0, nodes, edges }
}
