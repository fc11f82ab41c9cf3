//! The graph of an image and a bundle, and the buffers that it is lent.

use crate::raw::{EDGE_ROW, EDGE_WORDS, GRAPH_STORE, IMPORT_WORDS, INCLUDE_WORDS, LEVEL_WORDS, NODE_ROW, NODE_WORDS};
use crate::{refusal, sys, Refusal};
use std::fmt::{self, Display, Formatter};

/// Nodes by name, and edges by the numbers of two nodes, each in order of adding. A program may also make one of its own names and edges, to have it
/// ordered; then a number that is no node is refused with 43.
#[derive(Clone, Debug, PartialEq, Eq)]
pub struct Graph<'a> {
    /// The names, each once. A node's number is its place here.
    pub nodes: Vec<&'a str>,
    /// Which must be registered before which.
    pub edges: Vec<Edge>,
}

/// `from` must be registered before `to`; both are numbers of nodes.
#[derive(Clone, Copy, Debug, PartialEq, Eq)]
pub struct Edge {
    /// The earlier one.
    pub from: usize,
    /// The later one.
    pub to: usize,
}

/// What a graph is lent, to be used for any number of graphs.
#[derive(Clone, Debug)]
pub struct Buffers {
    pub(crate) nodes: Vec<u32>,
    pub(crate) edges: Vec<u32>,
    pub(crate) store: Vec<u8>,
    pub(crate) imports: Vec<u32>,
    pub(crate) includes: Vec<u32>,
    pub(crate) levels: Vec<u32>,
}

impl Default for Buffers {
    fn default() -> Self {
        Buffers::new()
    }
}

impl Buffers {
    /// About 100 KB; a graph makes it grow by up to 2 MiB for the longest text.
    pub fn new() -> Buffers {
        let [nodes, edges, imports, includes, levels] = [NODE_WORDS, EDGE_WORDS, IMPORT_WORDS, INCLUDE_WORDS, LEVEL_WORDS].map(|n| vec![0; n]);
        Buffers { nodes, edges, store: Vec::new(), imports, includes, levels }
    }

    /// The graph of an image and a bundle, or why it is refused.
    pub fn graph<'a>(&mut self, image: &'a [u8], bundle: &[u8]) -> Result<Graph<'a>, Refusal> {
        self.draw(false, image, bundle)
    }

    /// The same with complete nodes: [`graph_complete`] says when that is needed.
    pub fn graph_complete<'a>(&mut self, image: &'a [u8], bundle: &[u8]) -> Result<Graph<'a>, Refusal> {
        self.draw(true, image, bundle)
    }

    pub(crate) fn draw<'a>(&mut self, complete: bool, image: &'a [u8], bundle: &[u8]) -> Result<Graph<'a>, Refusal> {
        // no text is longer than the bundle that holds it
        self.store.resize(bundle.len().min(GRAPH_STORE), 0);
        let answer = sys::graph(complete, image, bundle, self);
        if answer[0] != 0 {
            return Err(refusal::told(answer, image, bundle, self));
        }
        let name = |row: &[u32]| std::str::from_utf8(&image[row[0] as usize..][..row[1] as usize]).expect("names are ASCII");
        let edge = |row: &[u32]| Edge { from: row[0] as usize, to: row[1] as usize };
        Ok(Graph {
            nodes: self.nodes.chunks(NODE_ROW).take(answer[6] as usize).map(name).collect(),
            edges: self.edges.chunks(EDGE_ROW).take(answer[7] as usize).map(edge).collect(),
        })
    }
}

/// The graph of an image and a bundle, or why it is refused, with buffers of its own.
///
/// Each text of the bundle is scanned at most once, however often it is included. Beyond that there is a look-up for each import and include, and for each
/// name of the image. A router's library takes milliseconds; names that were chosen so that the look-ups take long make it some seconds.
pub fn graph<'a>(image: &'a [u8], bundle: &[u8]) -> Result<Graph<'a>, Refusal> {
    Buffers::new().graph(image, bundle)
}

/// The same with complete nodes, for a library that lists a module more than once, with other submodules each time.
///
/// The nodes of [`graph`] are the original's: where a module's name is a node already, its submodules are passed over. If a router lists a module in two
/// sets and a submodule in the second alone, an include of that submodule is refused (28). Here it is a node, and so are the submodules of every revision
/// of an import-only module. Each name is one node, in the place where it first comes. 28 does not come, and 30 counts these nodes too; all else is as in
/// [`graph`]. Where each name stands once and each import-only module has one revision, so are the nodes.
///
/// ```
/// let image = b"\x02\x01\x01m\0\0\0\0\x01\x01m\x01\x01s\0\0\0"; // m in two sets, and with the submodule s in the second
/// let bundle = b"\x02\x01m\x0ainclude s;\x01s\0";
/// assert_eq!(nuvaleta::graph(image, bundle).unwrap_err().number(), 28);
/// let graph = nuvaleta::graph_complete(image, bundle)?;
/// assert_eq!(graph.nodes, ["m", "s"]);
/// assert_eq!(graph.order()?.names, ["s", "m"]);
/// # Ok::<(), nuvaleta::Refusal>(())
/// ```
pub fn graph_complete<'a>(image: &'a [u8], bundle: &[u8]) -> Result<Graph<'a>, Refusal> {
    Buffers::new().graph_complete(image, bundle)
}

/// All nodes, then all edges by names, one a line.
impl Display for Graph<'_> {
    fn fmt(&self, f: &mut Formatter<'_>) -> fmt::Result {
        let name = |node: usize| self.nodes.get(node).copied().unwrap_or("?");
        writeln!(f, "Nodes ({}):", self.nodes.len())?;
        for node in &self.nodes {
            writeln!(f, "  - {node}")?;
        }
        writeln!(f, "\nEdges ({}):", self.edges.len())?;
        self.edges.iter().try_for_each(|edge| writeln!(f, "  - {} before {}", name(edge.from), name(edge.to)))
    }
}
