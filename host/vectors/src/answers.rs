//! What the Rust's words say in document 01's numbers.

use crate::oracle::{Oracle, value};
use crate::orders::Given;

/// What a find tells that finds nothing.
pub const NOT_FOUND: u32 = u32::MAX;
/// After an include's value the Rust has one error for refusals 5 and 6.
pub const FIVE_OR_SIX: u32 = 56;

#[derive(Clone, Copy, Debug, PartialEq)]
pub struct Refusal {
    pub number: u32,
    pub keyword: u32,
    pub position: u32,
}

impl Refusal {
    /// The number that is due for it: of 5 and 6 it is 6 at the text's end.
    pub fn due(&self, text: &[u8]) -> Refusal {
        let number = match self.number {
            FIVE_OR_SIX if self.position as usize == text.len() => 6,
            FIVE_OR_SIX => 5,
            number => number,
        };
        Refusal { number, ..*self }
    }
}

/// A scan's answer: what was read, a refusal, or a line that says neither.
#[derive(Debug, PartialEq)]
pub enum Scan<T> {
    Good(T),
    Refused(Refusal),
    Silent(String),
}

impl<T> Scan<T> {
    pub fn refusal(&self) -> Option<Refusal> {
        match self {
            Scan::Refused(refusal) => Some(*refusal),
            _ => None,
        }
    }
}

pub type Value = Option<Vec<u8>>;

#[derive(Debug, PartialEq)]
pub struct Dependencies {
    pub imports: Vec<[Value; 3]>,
    pub includes: Vec<[Value; 2]>,
    pub page: Vec<u8>,
}

/// Number and keyword of the messages that tell both.
const MESSAGES: [(&str, u32, u32); 12] = [
    ("Expected module name after 'import'", 4, 8),
    ("Expected submodule name after 'include'", 4, 9),
    ("Expected prefix value", 4, 5),
    ("Expected revision-date value", 4, 10),
    ("Expected module name", 4, 1),
    ("Expected submodule name", 4, 2),
    ("Expected parent module name", 4, 3),
    ("Expected namespace value", 4, 4),
    ("Expected revision date", 4, 7),
    ("Expected ';' or '{' after include statement", FIVE_OR_SIX, 9),
    ("Missing required 'prefix' in import statement", 7, 8),
    ("Module/submodule name not found", 9, 0),
];

/// The refusal behind a message of the scans. The oracle adds the keyword that the parser matched last and its position. Where a message tells one of them
/// too, both must say the same.
fn refusal(message: &str, matched: u32, position: u32) -> Option<Refusal> {
    if let Some((_, number, keyword)) = MESSAGES.iter().find(|(text, ..)| message == *text) {
        let same = matched == *keyword || *number == 7 || *number == 9; // other keywords may stand in an import's block or a text
        return same.then_some(Refusal { number: *number, keyword: *keyword, position });
    }
    let rest = message.strip_prefix("Expected '{', found ").or(message.strip_prefix("Expected ';', found "))?;
    if rest == "EOF" {
        return Some(Refusal { number: 6, keyword: matched, position });
    }
    let (_, told) = rest.rsplit_once(" at position: ")?;
    (told.parse() == Ok(position)).then_some(Refusal { number: 5, keyword: matched, position })
}

fn number(word: &str) -> u32 {
    word.parse().expect("a number")
}

/// An unclosed import or include block is the only thing at which a scan never returns.
fn unclosed(keyword: &str, position: &str) -> Refusal {
    Refusal { number: 8, keyword: number(keyword), position: number(position) }
}

fn message(word: &str) -> String {
    String::from_utf8(value(word).expect("a message")).expect("a message")
}

fn scan<T>(line: String, good: impl FnOnce(&[&str]) -> T) -> Scan<T> {
    let words: Vec<&str> = line.split(' ').collect();
    match words.as_slice() {
        ["ok", rest @ ..] => Scan::Good(good(rest)),
        ["hang", keyword, position] => Scan::Refused(unclosed(keyword, position)),
        ["err", text, keyword, position] => {
            let text = message(text);
            refusal(&text, number(keyword), number(position)).map_or(Scan::Silent(line), Scan::Refused)
        }
        _ => Scan::Silent(line),
    }
}

pub fn dependencies(oracle: &mut Oracle, text: &[u8]) -> Scan<Dependencies> {
    let mut answer = scan(oracle.ask("deps", &[text]), |words| {
        let (imports, includes) = words[2..].split_at(3 * number(words[0]) as usize);
        assert_eq!(includes.len(), 2 * number(words[1]) as usize);
        Dependencies {
            imports: imports.chunks(3).map(|c| [value(c[0]), value(c[1]), value(c[2])]).collect(),
            includes: includes.chunks(2).map(|c| [value(c[0]), value(c[1])]).collect(),
            page: Vec::new(),
        }
    });
    if let Scan::Good(d) = &mut answer {
        let line = oracle.ask("print", &[text]);
        d.page = value(line.strip_prefix("ok ").expect("a page")).expect("a page");
    }
    answer
}

/// Name, namespace, prefix, first revision, parent.
pub fn metadata(oracle: &mut Oracle, text: &[u8]) -> Scan<Vec<Value>> {
    scan(oracle.ask("meta", &[text]), |words| words.iter().map(|w| value(w)).collect())
}

/// Keyword and value of all that the metadata scan of a good text reads, in order.
pub fn metadata_read(oracle: &mut Oracle, text: &[u8]) -> Vec<(u32, Vec<u8>)> {
    let line = oracle.ask("read", &[text]);
    let words: Vec<&str> = line.split(' ').collect();
    assert_eq!(words[0], "ok", "{line}");
    words[1..].chunks(2).map(|c| (number(c[0]), value(c[1]).expect("a value"))).collect()
}

/// Module, submodule, import-only module of a name, and the last one's revisions.
pub fn finds(oracle: &mut Oracle, image: &[u8], name: &[u8]) -> [u32; 4] {
    let mut out = [NOT_FOUND; 4];
    for (i, kind) in ["module", "submodule", "import-only"].iter().enumerate() {
        let line = oracle.ask(kind, &[image, name]);
        let words: Vec<&str> = line.split(' ').collect();
        for (k, word) in words[1..].iter().enumerate() {
            assert_eq!(words[0], "ok", "{line}");
            out[i + k] = number(word);
        }
    }
    out
}

#[derive(Debug, PartialEq)]
pub enum Graph {
    /// The places of the nodes' names, the edges, and what register_schema's sort makes of them.
    Built(Vec<u32>, Vec<[u32; 2]>, Sorted),
    /// The graph's refusal, and the scan's at 25.
    Refused(u32, Refusal),
    Silent(String),
}

/// What stands beside every refusal of a graph but 25.
pub const NO_SCAN: Refusal = Refusal { number: 0, keyword: 0, position: 0 };

fn graph_refusal(message: &str) -> Option<u32> {
    match message {
        m if m.starts_with("No schema for ") => Some(23),
        m if m.starts_with("No module ") && m.ends_with(" found in YANG Library") => Some(26),
        m if m.starts_with("No submodule ") && m.ends_with(" found in YANG Library") => Some(27),
        m if m.starts_with("No submodule ") && m.ends_with(" found in graph") => Some(28),
        _ => None,
    }
}

pub fn graph(oracle: &mut Oracle, image: &[u8], bundle: &[u8]) -> Graph {
    let line = oracle.ask("graph", &[image, bundle]);
    let words: Vec<&str> = line.split(' ').collect();
    match words.as_slice() {
        ["ok", nodes, edges, rest @ ..] => {
            let (nodes, rest) = rest.split_at(number(nodes) as usize);
            let (edges, order) = rest.split_at(number(edges) as usize);
            let place = |w: &&str| number(w.split_once(':').expect("a node").0);
            let edge = |w: &&str| w.split_once('-').map(|(a, b)| [number(a), number(b)]).expect("an edge");
            Graph::Built(nodes.iter().map(place).collect(), edges.iter().map(edge).collect(), sorted(order))
        }
        ["panic"] => Graph::Refused(24, NO_SCAN),
        ["overflow"] => Graph::Refused(29, NO_SCAN),
        ["hang", keyword, position] => Graph::Refused(25, unclosed(keyword, position)),
        ["err", text] => graph_refusal(&message(text)).map_or(Graph::Silent(line.clone()), |n| Graph::Refused(n, NO_SCAN)),
        ["err", text, keyword, position] => {
            let scan = refusal(&message(text), number(keyword), number(position));
            scan.map_or(Graph::Silent(line.clone()), |r| Graph::Refused(25, r))
        }
        _ => Graph::Silent(line.clone()),
    }
}

/// The original's order of a graph, which is any one that breaks no edge; or a node that waits for itself.
#[derive(Debug, PartialEq)]
pub enum Sorted {
    Order(Vec<u32>),
    Cycle(u32),
    Silent(String),
}

fn sorted(words: &[&str]) -> Sorted {
    match words {
        ["sorted", order @ ..] => Sorted::Order(order.iter().map(|w| number(w)).collect()),
        ["cycle", node] => Sorted::Cycle(number(node)),
        _ => Sorted::Silent(words.join(" ")),
    }
}

/// What register_schema's sort makes of a graph.
pub fn sort(oracle: &mut Oracle, given: &Given) -> Sorted {
    let numbers = [given.nodes as u32].into_iter().chain(given.edges.iter().flatten().copied());
    let line = oracle.ask("sort", &[&numbers.flat_map(u32::to_le_bytes).collect::<Vec<u8>>()]);
    sorted(&line.split(' ').collect::<Vec<&str>>())
}
