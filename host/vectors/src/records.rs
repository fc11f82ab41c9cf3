//! Recorded answers as a program without a heap can read them.
//!
//! A file is fields, one behind the other. A field is its length, two bytes, low byte first, and its bytes; length 65535 stands for a
//! value that is missing, and no bytes follow. A word in a field is four bytes, low byte first.

use crate::answers::{Dependencies, Graph, NO_SCAN, Refusal, Scan};
use crate::graphs::Drawn;

pub fn field(out: &mut Vec<u8>, bytes: &[u8]) {
    assert!(bytes.len() < 65_535);
    out.extend_from_slice(&(bytes.len() as u16).to_le_bytes());
    out.extend_from_slice(bytes);
}

fn value(out: &mut Vec<u8>, v: &Option<Vec<u8>>) {
    match v {
        Some(bytes) => field(out, bytes),
        None => out.extend_from_slice(&u16::MAX.to_le_bytes()),
    }
}

fn words(out: &mut Vec<u8>, all: &[u32]) {
    let bytes: Vec<u8> = all.iter().flat_map(|w| w.to_le_bytes()).collect();
    field(out, &bytes);
}

/// Text; number, keyword, position, imports, includes; if the number is 0 the values, row by row, and the printed page.
/// Nothing for a text of which the Rust says neither.
pub fn dependencies(text: &[u8], answer: &Scan<Dependencies>) -> Vec<u8> {
    let mut out = Vec::new();
    field(&mut out, text);
    match answer {
        Scan::Silent(_) => return Vec::new(),
        Scan::Refused(r) => words(&mut out, &[r.number, r.keyword, r.position, 0, 0]),
        Scan::Good(d) => {
            words(&mut out, &[0, 0, 0, d.imports.len() as u32, d.includes.len() as u32]);
            d.imports.iter().flatten().for_each(|v| value(&mut out, v));
            d.includes.iter().flatten().for_each(|v| value(&mut out, v));
            field(&mut out, &d.page);
        }
    }
    out
}

/// Text; number, keyword, position; if the number is 0 the five values.
pub fn metadata(text: &[u8], answer: &Scan<Vec<Option<Vec<u8>>>>) -> Vec<u8> {
    let mut out = Vec::new();
    field(&mut out, text);
    match answer {
        Scan::Silent(_) => return Vec::new(),
        Scan::Refused(r) => words(&mut out, &[r.number, r.keyword, r.position]),
        Scan::Good(values) => {
            words(&mut out, &[0, 0, 0]);
            values.iter().for_each(|v| value(&mut out, v));
        }
    }
    out
}

/// Image; name; places of the module, the submodule and the import-only module, and the last one's revisions.
pub fn finds(image: &[u8], name: &[u8], answer: &[u32; 4]) -> Vec<u8> {
    let mut out = Vec::new();
    field(&mut out, image);
    field(&mut out, name);
    words(&mut out, answer);
    out
}

/// Image; bundle; number, and the scan's number, keyword and position; the places of the nodes' names; the edges, from and to.
fn graph_told(image: &[u8], bundle: &[u8], number: u32, scan: &Refusal, nodes: &[u32], edges: &[[u32; 2]]) -> Vec<u8> {
    let mut out = Vec::new();
    field(&mut out, image);
    field(&mut out, bundle);
    words(&mut out, &[number, scan.number, scan.keyword, scan.position]);
    words(&mut out, nodes);
    words(&mut out, &edges.concat());
    out
}

pub fn graph(image: &[u8], bundle: &[u8], answer: &Graph) -> Vec<u8> {
    match answer {
        Graph::Silent(_) => Vec::new(),
        Graph::Refused(number, scan) => graph_told(image, bundle, *number, scan, &[], &[]),
        Graph::Built(nodes, edges, _) => graph_told(image, bundle, 0, &NO_SCAN, nodes, edges),
    }
}

/// The same of the plain reading's graph.
pub fn drawn(image: &[u8], bundle: &[u8], graph: &Drawn) -> Vec<u8> {
    let places: Vec<u32> = graph.nodes.iter().map(|n| n.place as u32).collect();
    graph_told(image, bundle, graph.number, &graph.scan, &places, &graph.edges)
}

/// Text; number, keyword, position; if the number is 0 the one value that the text was made around: of metadata's five the one at `which`.
pub fn one_value(text: &[u8], answer: &Scan<Vec<Option<Vec<u8>>>>, which: usize) -> Vec<u8> {
    let one = match answer {
        Scan::Good(values) => Scan::Good(vec![values[which].clone()]),
        Scan::Refused(r) => Scan::Refused(*r),
        Scan::Silent(_) => return Vec::new(),
    };
    metadata(text, &one)
}

/// A graph: nodes, edges, words of the node table, words of the edge table, these words. Then its order: words of the order table, number, how many nodes,
/// what is in the table. Then the check of a list: its words, number, place, the list.
pub fn order(counts: [u32; 3], edges: &[u32], table: &[u32], answer: [u32; 2], list: &[u32], checked: [u32; 2]) -> Vec<u8> {
    let mut out = Vec::new();
    let [nodes, count, node_words] = counts;
    words(&mut out, &[&[nodes, count, node_words, edges.len() as u32], edges].concat());
    words(&mut out, &[&[table.len() as u32, answer[0], answer[1]], table].concat());
    words(&mut out, &[&[list.len() as u32, checked[0], checked[1]], list].concat());
    out
}
