//! The port's calls, with buffers of any length that held something else.

use nuvaleta::raw::*;
pub use nuvaleta::raw::{IMPORT_WORDS, INCLUDE_WORDS, PAGE_MORE};
use vectors::graphs::Mode;

#[derive(Clone, Debug, PartialEq)]
pub struct Scanned {
    /// Number, keyword, position, import rows, include rows, stored bytes, page's length.
    pub answer: [u32; 7],
    pub store: Vec<u8>,
    pub imports: Vec<u32>,
    pub includes: Vec<u32>,
    pub page: Vec<u8>,
}

pub type LookUp = unsafe extern "C" fn(*const u8, usize, *const u8, usize, *mut u32) -> u32;

/// The finds, in the order of document 01, and the text under a name.
pub const FINDS: [LookUp; 3] = [nuvaleta_find_module, nuvaleta_find_submodule, nuvaleta_find_import_module];
pub const TEXT: LookUp = nuvaleta_text;

/// Number, place of the fault, found, and two words of the hit; the call's result must be the number.
pub fn look_up(call: LookUp, form: &[u8], name: &[u8]) -> [u32; 5] {
    let mut answer = [0xa5a5_a5a5; 5];
    let number = unsafe { call(form.as_ptr(), form.len(), name.as_ptr(), name.len(), answer.as_mut_ptr()) };
    assert_eq!(number, answer[0], "the call's result");
    answer
}

#[derive(Clone, Debug, PartialEq)]
pub struct Described {
    /// Number, keyword, position, stored bytes.
    pub answer: [u32; 4],
    pub store: Vec<u8>,
    /// Present, start, length of name, namespace, prefix, first revision, parent and newest revision.
    pub record: [u32; RECORD_WORDS],
}

/// A store of the length given, filled with something that is not zero.
pub fn lent_store(store: usize) -> Described {
    Described { answer: [0xa5a5_a5a5; 4], store: vec![0xa5; store], record: [0xa5a5_a5a5; RECORD_WORDS] }
}

impl Described {
    /// `whole`: in the whole-text mode.
    pub fn metadata(&mut self, whole: bool, text: &[u8]) -> u32 {
        self.metadata_within(whole, text, self.store.len())
    }

    /// The same with only the first bytes of the store lent.
    pub fn metadata_within(&mut self, whole: bool, text: &[u8], store: usize) -> u32 {
        assert!(store <= self.store.len());
        let call = if whole { nuvaleta_metadata_whole } else { nuvaleta_metadata };
        unsafe { call(text.as_ptr(), text.len(), self.store.as_mut_ptr(), store, self.record.as_mut_ptr(), self.answer.as_mut_ptr()) }
    }
}

/// Buffers of the lengths given, filled with something that is not zero.
pub fn lent(store: usize, imports: usize, includes: usize, page: usize) -> Scanned {
    Scanned {
        answer: [0xa5a5_a5a5; 7],
        store: vec![0xa5; store],
        imports: vec![0xa5a5_a5a5; imports],
        includes: vec![0xa5a5_a5a5; includes],
        page: vec![0xa5; page],
    }
}

/// What a scan needs for a text, and some more.
pub fn enough(text: &[u8], more: usize) -> Scanned {
    lent(text.len() + more, IMPORT_WORDS + more, INCLUDE_WORDS + more, text.len() + PAGE_MORE + more)
}

impl Scanned {
    /// Answers the call's result; the page stays as it is. `whole`: in the whole-text mode.
    pub fn dependencies(&mut self, whole: bool, text: &[u8]) -> u32 {
        self.dependencies_within(whole, text, self.store.len())
    }

    /// The same with only the first bytes of the store lent.
    pub fn dependencies_within(&mut self, whole: bool, text: &[u8], store: usize) -> u32 {
        assert!(store <= self.store.len());
        let call = if whole { nuvaleta_dependencies_whole } else { nuvaleta_dependencies };
        unsafe {
            call(
                text.as_ptr(), text.len(), self.store.as_mut_ptr(), store, self.imports.as_mut_ptr(), self.imports.len(),
                self.includes.as_mut_ptr(), self.includes.len(), self.answer.as_mut_ptr(),
            )
        }
    }

    pub fn printed(&mut self, whole: bool, text: &[u8]) -> u32 {
        let call = if whole { nuvaleta_printed_whole } else { nuvaleta_printed };
        unsafe {
            call(
                text.as_ptr(), text.len(), self.store.as_mut_ptr(), self.store.len(), self.imports.as_mut_ptr(), self.imports.len(),
                self.includes.as_mut_ptr(), self.includes.len(), self.page.as_mut_ptr(), self.page.len(), self.answer.as_mut_ptr(),
            )
        }
    }

    /// The value that two words tell.
    fn value(&self, words: &[u32]) -> Option<Vec<u8>> {
        Some(self.store[words[0] as usize..][..words[1] as usize].to_vec())
    }

    /// The value that a mark and two words tell.
    fn marked(&self, words: &[u32]) -> Option<Vec<u8>> {
        match words[0] {
            0 => {
                assert_eq!(words[1..3], [0, 0], "a missing value");
                None
            }
            mark => {
                assert_eq!(mark, 1, "a mark");
                self.value(&words[1..])
            }
        }
    }

    pub fn import_rows(&self) -> Vec<[Option<Vec<u8>>; 3]> {
        let rows = self.imports[..7 * self.answer[3] as usize].chunks(7);
        rows.map(|w| [self.value(w), self.value(&w[2..]), self.marked(&w[4..])]).collect()
    }

    pub fn include_rows(&self) -> Vec<[Option<Vec<u8>>; 2]> {
        let rows = self.includes[..5 * self.answer[4] as usize].chunks(5);
        rows.map(|w| [self.value(w), self.marked(&w[2..])]).collect()
    }

    /// All beyond what is used is zero.
    pub fn is_clean(&self) -> bool {
        let [_, _, _, imports, includes, used, length] = self.answer.map(|w| w as usize);
        self.store[used..].iter().all(|b| *b == 0)
            && self.imports[7 * imports..].iter().all(|w| *w == 0)
            && self.includes[5 * includes..].iter().all(|w| *w == 0)
            && self.page[length..].iter().all(|b| *b == 0)
    }
}

/// A graph's answer, tables and scratch.
#[derive(Debug, PartialEq)]
pub struct Graphed {
    /// Number, entry, the scan's number, keyword and position, place, nodes, edges.
    pub answer: [u32; 8],
    pub nodes: Vec<u32>,
    pub edges: Vec<u32>,
    pub store: Vec<u8>,
    pub imports: Vec<u32>,
    pub includes: Vec<u32>,
    pub levels: Vec<u32>,
}

/// How long a graph's tables must be: nodes, edges, imports, includes, levels.
pub const GRAPH_WORDS: [usize; 5] = [NODE_WORDS, EDGE_WORDS, IMPORT_WORDS, INCLUDE_WORDS, LEVEL_WORDS];

/// A store and tables of these lengths, all of which held something else.
pub fn lent_graph(store: usize, words: [usize; 5]) -> Graphed {
    let [nodes, edges, imports, includes, levels] = words.map(|n| vec![0xa5a5_a5a5; n]);
    Graphed { answer: [0xa5a5_a5a5; 8], nodes, edges, store: vec![0xa5; store], imports, includes, levels }
}

/// The graph, with a store of this length and tables that are so much longer than they must be.
pub fn graph(mode: Mode, image: &[u8], bundle: &[u8], store: usize, more: usize) -> Graphed {
    let mut g = lent_graph(store, GRAPH_WORDS.map(|n| n + more));
    let number = g.redraw(mode, image, bundle);
    assert_eq!(number, g.answer[0], "the call's result");
    g
}

impl Graphed {
    /// The graph of these into the same tables.
    pub fn redraw(&mut self, mode: Mode, image: &[u8], bundle: &[u8]) -> u32 {
        let call = match mode {
            Mode::Present => nuvaleta_graph,
            Mode::Complete => nuvaleta_graph_complete,
        };
        unsafe {
            call(
                image.as_ptr(), image.len(), bundle.as_ptr(), bundle.len(), self.nodes.as_mut_ptr(), self.nodes.len(), self.edges.as_mut_ptr(),
                self.edges.len(), self.store.as_mut_ptr(), self.store.len(), self.imports.as_mut_ptr(), self.imports.len(),
                self.includes.as_mut_ptr(), self.includes.len(), self.levels.as_mut_ptr(), self.levels.len(), self.answer.as_mut_ptr(),
            )
        }
    }

    /// All behind what is used is zero, and all scratch.
    pub fn is_clean(&self) -> bool {
        let zero = |words: &[u32]| words.iter().all(|w| *w == 0);
        zero(&self.nodes[2 * self.answer[6] as usize..])
            && zero(&self.edges[2 * self.answer[7] as usize..])
            && self.store.iter().all(|b| *b == 0)
            && zero(&self.imports)
            && zero(&self.includes)
            && zero(&self.levels)
    }
}

/// A graph's tables as they are lent, and the counts that are told beside them, which may be anything.
#[derive(Clone, Debug)]
pub struct Tables {
    pub nodes: Vec<u32>,
    pub node_count: usize,
    pub edges: Vec<u32>,
    pub edge_count: usize,
}

impl Tables {
    /// Number, length; the call's result must be the number.
    pub fn order(&self, order: &mut [u32]) -> [u32; 2] {
        let mut answer = [0xa5a5_a5a5; 2];
        let number = unsafe {
            nuvaleta_order(
                self.nodes.as_ptr(), self.nodes.len(), self.node_count, self.edges.as_ptr(), self.edges.len(), self.edge_count, order.as_mut_ptr(),
                order.len(), answer.as_mut_ptr(),
            )
        };
        assert_eq!(number, answer[0], "the call's result");
        answer
    }

    /// Number, place of a list; the call's result must be the number.
    pub fn check(&self, list: &[u32]) -> [u32; 2] {
        let mut answer = [0xa5a5_a5a5; 2];
        let number = unsafe {
            nuvaleta_order_check(
                self.nodes.as_ptr(), self.nodes.len(), self.node_count, self.edges.as_ptr(), self.edges.len(), self.edge_count, list.as_ptr(),
                list.len(), answer.as_mut_ptr(),
            )
        };
        assert_eq!(number, answer[0], "the call's result");
        answer
    }
}
