//! The calls behind functions that only lend slices: the one file with `unsafe` code. Each answers the words of the header's `answer`.

use crate::raw::{self, RECORD_WORDS};
use crate::Buffers;

/// Number, keyword, position, import rows, include rows, stored bytes.
pub fn dependencies(text: &[u8], store: &mut [u8], imports: &mut [u32], includes: &mut [u32]) -> [u32; raw::DEPENDENCIES_ANSWER] {
    let mut answer = [0; raw::DEPENDENCIES_ANSWER];
    // SAFETY: each pointer stands beside the length of its slice, and none is null, of an empty one neither. What is written is borrowed as `&mut`
    // until the call returns and overlaps with nothing. `answer` has as many words as the header gives it.
    unsafe {
        raw::nuvaleta_dependencies(
            text.as_ptr(), text.len(), store.as_mut_ptr(), store.len(), imports.as_mut_ptr(), imports.len(), includes.as_mut_ptr(), includes.len(),
            answer.as_mut_ptr(),
        );
    }
    answer
}

/// The same, then the page's length. `whole`: of a text that may not break off.
pub fn printed(
    whole: bool, text: &[u8], store: &mut [u8], imports: &mut [u32], includes: &mut [u32], page: &mut [u8],
) -> [u32; raw::PRINTED_ANSWER] {
    let call = if whole { raw::nuvaleta_printed_whole } else { raw::nuvaleta_printed };
    let mut answer = [0; raw::PRINTED_ANSWER];
    // SAFETY: as above; the header gives both calls the same form.
    unsafe {
        call(
            text.as_ptr(), text.len(), store.as_mut_ptr(), store.len(), imports.as_mut_ptr(), imports.len(), includes.as_mut_ptr(), includes.len(),
            page.as_mut_ptr(), page.len(), answer.as_mut_ptr(),
        );
    }
    answer
}

/// Number, keyword, position, stored bytes. `whole`: of a text that may not break off.
pub fn metadata(whole: bool, text: &[u8], store: &mut [u8], record: &mut [u32; RECORD_WORDS]) -> [u32; raw::METADATA_ANSWER] {
    let call = if whole { raw::nuvaleta_metadata_whole } else { raw::nuvaleta_metadata };
    let mut answer = [0; raw::METADATA_ANSWER];
    // SAFETY: as above; `record` too has as many words as the header gives it.
    unsafe {
        call(text.as_ptr(), text.len(), store.as_mut_ptr(), store.len(), record.as_mut_ptr(), answer.as_mut_ptr());
    }
    answer
}

/// What is looked up by a name.
#[derive(Clone, Copy)]
pub enum LookUp {
    Module,
    Submodule,
    ImportModule,
    Text,
}

/// Number, place of the fault, found, and two words of the hit: place and revisions, or a text's start and length.
pub fn look_up(what: LookUp, form: &[u8], name: &[u8]) -> [u32; raw::FIND_ANSWER] {
    let call = match what {
        LookUp::Module => raw::nuvaleta_find_module,
        LookUp::Submodule => raw::nuvaleta_find_submodule,
        LookUp::ImportModule => raw::nuvaleta_find_import_module,
        LookUp::Text => raw::nuvaleta_text,
    };
    let mut answer = [0; raw::FIND_ANSWER];
    // SAFETY: as above; the header gives these four calls the same form, and as many words to `answer`.
    unsafe {
        call(form.as_ptr(), form.len(), name.as_ptr(), name.len(), answer.as_mut_ptr());
    }
    answer
}

/// Number, entry, the scan's number, keyword and position, place, nodes, edges. With or without complete nodes.
pub fn graph(complete: bool, image: &[u8], bundle: &[u8], b: &mut Buffers) -> [u32; raw::GRAPH_ANSWER] {
    let call = if complete { raw::nuvaleta_graph_complete } else { raw::nuvaleta_graph };
    let mut answer = [0; raw::GRAPH_ANSWER];
    // SAFETY: as above; the header gives both calls the same form.
    unsafe {
        call(
            image.as_ptr(), image.len(), bundle.as_ptr(), bundle.len(), b.nodes.as_mut_ptr(), b.nodes.len(), b.edges.as_mut_ptr(), b.edges.len(),
            b.store.as_mut_ptr(), b.store.len(), b.imports.as_mut_ptr(), b.imports.len(), b.includes.as_mut_ptr(), b.includes.len(),
            b.levels.as_mut_ptr(), b.levels.len(), answer.as_mut_ptr(),
        );
    }
    answer
}

/// Number, length; of a graph that fills both tables.
pub fn order(nodes: &[u32], edges: &[u32], order: &mut [u32]) -> [u32; raw::ORDER_ANSWER] {
    let mut answer = [0; raw::ORDER_ANSWER];
    // SAFETY: as above. A count that is wrong would be refused.
    unsafe {
        raw::nuvaleta_order(
            nodes.as_ptr(), nodes.len(), nodes.len() / raw::NODE_ROW, edges.as_ptr(), edges.len(), edges.len() / raw::EDGE_ROW,
            order.as_mut_ptr(), order.len(), answer.as_mut_ptr(),
        );
    }
    answer
}

/// Number, place; of a list for such a graph.
pub fn order_check(nodes: &[u32], edges: &[u32], list: &[u32]) -> [u32; raw::CHECK_ANSWER] {
    let mut answer = [0; raw::CHECK_ANSWER];
    // SAFETY: as above.
    unsafe {
        raw::nuvaleta_order_check(
            nodes.as_ptr(), nodes.len(), nodes.len() / raw::NODE_ROW, edges.as_ptr(), edges.len(), edges.len() / raw::EDGE_ROW,
            list.as_ptr(), list.len(), answer.as_mut_ptr(),
        );
    }
    answer
}

/// Whether standard output (1) or standard error (2) is a terminal. (Rust 1.63 has no call for it.)
pub fn is_terminal(stream: i32) -> bool {
    extern "C" {
        fn isatty(stream: i32) -> i32;
    }
    // SAFETY: any number may be asked.
    unsafe { isatty(stream) == 1 }
}
