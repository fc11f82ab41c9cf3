//! The graphs of generated and of real libraries, beside the Rust's: nodes, edges in order, which refusal.

use crate::port::{self, Graphed};
use crate::{Run, orders};
use vectors::answers::{self, FIVE_OR_SIX, Graph, Refusal};
use vectors::graphs::Mode;
use vectors::rng::Rng;
use vectors::orders::Given;
use vectors::{form, libraries};

/// What was lent and held something else, with so many words more than there must be.
pub fn drawn(mode: Mode, image: &[u8], bundle: &[u8], more: usize) -> Graphed {
    port::graph(mode, image, bundle, form::longest_text(bundle) + more, more)
}

fn refused(number: u32, scan: &Refusal, g: &Graphed) -> bool {
    let same = g.answer[2] == scan.number || (scan.number == FIVE_OR_SIX && (g.answer[2] == 5 || g.answer[2] == 6));
    let entry = g.answer[1] != 0;
    g.answer[0] == number && entry && same && g.answer[3..] == [scan.keyword, scan.position, 0, 0, 0]
}

/// A node's place is the Rust's, and its length that of a name that stands there.
fn names(image: &[u8], places: &[u32], g: &Graphed) -> bool {
    let sets = form::read_image(image).expect("an image");
    let all = form::candidates(&sets);
    let length = |place: u32| all.iter().find(|n| n.place == place as usize).map(|n| n.text.len() as u32);
    places.iter().zip(g.nodes.chunks(2)).all(|(place, row)| row[0] == *place && Some(row[1]) == length(*place))
}

fn agrees(image: &[u8], rust: &Graph, g: &Graphed) -> bool {
    if !g.is_clean() {
        return false;
    }
    match rust {
        Graph::Built(nodes, edges, order) => {
            g.answer == [0, 0, 0, 0, 0, 0, nodes.len() as u32, edges.len() as u32]
                && names(image, nodes, g)
                && g.edges.starts_with(edges.as_flattened())
                && orders::sorted(&Given { nodes: nodes.len(), edges: edges.clone() }, order)
        }
        Graph::Refused(number, scan) => refused(*number, scan, g),
        Graph::Silent(_) => false,
    }
}

/// Compares the port with the Rust, and answers what the port drew.
fn one(run: &mut Run, image: &[u8], bundle: &[u8], more: usize) -> Graphed {
    let rust = answers::graph(run.oracle(), image, bundle);
    let port = drawn(Mode::Present, image, bundle, more);
    run.count(agrees(image, &rust, &port), || format!("{}\n  the Rust {rust:?}\n  the port {:?}", shown(image, bundle), port.answer));
    port
}

/// As much of an image and a bundle as a line should have.
pub fn shown(image: &[u8], bundle: &[u8]) -> String {
    let [image, bundle] = [image, bundle].map(|bytes| &bytes[..bytes.len().min(2_000)]);
    format!("image {image:02X?}\n  bundle {:?}", String::from_utf8_lossy(bundle))
}

/// As many nested submodules as there can be at all without going deeper than eight includes: deeper ones the original builds.
const NESTED_MOST: usize = 8;

/// Every other library has texts that include each other.
pub fn graphs(run: &mut Run, seed: u64, count: u64) {
    let mut r = Rng::new(seed);
    for i in 0..count {
        let library = if i % 2 == 0 { libraries::library(&mut r) } else { libraries::nested(&mut r, NESTED_MOST) };
        one(run, &library.image(), &library.bundle(), i as usize % 3);
    }
}

/// An image and a bundle from files, and the order of their graph; says what the graph is. One that is refused or has no edges counts as different too:
/// it was to be compared.
pub fn of(run: &mut Run, image: &str, bundle: &str) {
    let read = |file: &str| std::fs::read(file).unwrap_or_else(|e| panic!("{file}: {e}"));
    let drawn = one(run, &read(image), &read(bundle), 0);
    let [number, entry, .., nodes, edges] = drawn.answer;
    println!("compare: {image}: {nodes} nodes, {edges} edges");
    if number != 0 || edges == 0 {
        run.different = 1; // of one input
        println!("compare: {image}: no graph to compare: refusal {number}, entry {entry}");
        return;
    }
    orders::drawn(run, image, drawn);
}
