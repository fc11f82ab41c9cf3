//! include/nuvaleta.h, said in Rust: its lengths and its fourteen calls, as they are.
//!
//! **The calls are `unsafe`, the one unsafe part of this crate's interface**, for programs that lend buffers of their own. The header says what each
//! takes, writes and answers, and what a caller owes: lengths that are those of the slices, an `answer` and a `record` that are not null and as long as
//! they must be, nothing that is written overlapping with anything else of the call.

/// Bytes of stack that are enough for a thread that makes any of the calls and little else.
pub const STACK_MOST: usize = 425_984;

/// The longest text that is scanned, in bytes.
pub const TEXT_MOST: usize = 1_048_576;
/// Words of the import table that a scan is lent.
pub const IMPORT_WORDS: usize = 1_792;
/// Words of the include table.
pub const INCLUDE_WORDS: usize = 1_280;
/// So many bytes more than the text has the page of the printed form.
pub const PAGE_MORE: usize = 6_944;
/// Bytes of a page that is long enough for every text.
pub const PAGE_MOST: usize = TEXT_MOST + PAGE_MORE;
/// Words of a row of the import table.
pub const IMPORT_ROW: usize = 7;
/// Words of a row of the include table.
pub const INCLUDE_ROW: usize = 5;
/// Words of `answer` of [`nuvaleta_dependencies`] and [`nuvaleta_dependencies_whole`].
pub const DEPENDENCIES_ANSWER: usize = 6;
/// Words of `answer` of [`nuvaleta_printed`] and [`nuvaleta_printed_whole`].
pub const PRINTED_ANSWER: usize = 7;
/// Words of `answer` of [`nuvaleta_metadata`] and [`nuvaleta_metadata_whole`].
pub const METADATA_ANSWER: usize = 4;
/// Words of a metadata record: a row for each of six values.
pub const RECORD_WORDS: usize = 18;
/// Words of such a row: present, start and length.
pub const VALUE_ROW: usize = 3;

/// The longest image, in bytes.
pub const IMAGE_MOST: usize = 65_536;
/// The longest bundle, in bytes.
pub const BUNDLE_MOST: usize = 16_777_216;
/// The greatest number in an image or a bundle.
pub const NUMBER_MOST: usize = 2_097_151;
/// The longest name in an image or a bundle, in bytes.
pub const NAME_MOST: usize = 128;
/// The most sets of an image.
pub const SETS_MOST: usize = 16;
/// The most modules of a set, and the most import-only modules.
pub const MODULES_MOST: usize = 512;
/// The most names of a list.
pub const LIST_MOST: usize = 64;
/// The most revisions of an import-only module.
pub const REVISIONS_MOST: usize = 8;
/// The most texts of a bundle.
pub const TEXTS_MOST: usize = 2_048;
/// Words of `answer` of [`nuvaleta_find_module`], [`nuvaleta_find_submodule`] and [`nuvaleta_find_import_module`].
pub const FIND_ANSWER: usize = 5;
/// Words of `answer` of [`nuvaleta_text`].
pub const TEXT_ANSWER: usize = 5;

/// The most nodes of a graph.
pub const NODES_MOST: usize = 1_024;
/// The most edges of a graph.
pub const EDGES_MOST: usize = 8_192;
/// Words of the node table that a graph is lent.
pub const NODE_WORDS: usize = 2_048;
/// Words of the edge table.
pub const EDGE_WORDS: usize = 16_384;
/// Words of scratch for the walk: two for each node, and nine levels of 256.
pub const LEVEL_WORDS: usize = 4_352;
/// Bytes of store that are enough for every bundle.
pub const GRAPH_STORE: usize = NUMBER_MOST;
/// Words of a row of the node table.
pub const NODE_ROW: usize = 2;
/// Words of a row of the edge table.
pub const EDGE_ROW: usize = 2;
/// Words of `answer` of [`nuvaleta_graph`] and [`nuvaleta_graph_complete`].
pub const GRAPH_ANSWER: usize = 8;

/// Words of an order table that is long enough for every graph.
pub const ORDER_WORDS: usize = NODES_MOST;
/// Words of `answer` of [`nuvaleta_order`].
pub const ORDER_ANSWER: usize = 2;
/// Words of `answer` of [`nuvaleta_order_check`].
pub const CHECK_ANSWER: usize = 2;

#[link(name = "nuvaleta", kind = "static")]
extern "C" {
    /// The imports and includes of a text. `answer`: number, keyword, position, import rows, include rows, stored bytes.
    pub fn nuvaleta_dependencies(
        text: *const u8, text_len: usize, store: *mut u8, store_len: usize, imports: *mut u32, imports_len: usize, includes: *mut u32,
        includes_len: usize, answer: *mut u32,
    ) -> u32;
    /// The same, with their printed form. `answer` has one word more, the page's length in bytes.
    pub fn nuvaleta_printed(
        text: *const u8, text_len: usize, store: *mut u8, store_len: usize, imports: *mut u32, imports_len: usize, includes: *mut u32,
        includes_len: usize, page: *mut u8, page_len: usize, answer: *mut u32,
    ) -> u32;
    /// The metadata of a text. `record` has [`RECORD_WORDS`]. `answer`: number, keyword, position, stored bytes.
    pub fn nuvaleta_metadata(text: *const u8, text_len: usize, store: *mut u8, store_len: usize, record: *mut u32, answer: *mut u32) -> u32;
    /// [`nuvaleta_dependencies`] of a text of which nothing that is read may break off.
    pub fn nuvaleta_dependencies_whole(
        text: *const u8, text_len: usize, store: *mut u8, store_len: usize, imports: *mut u32, imports_len: usize, includes: *mut u32,
        includes_len: usize, answer: *mut u32,
    ) -> u32;
    /// [`nuvaleta_printed`], likewise.
    pub fn nuvaleta_printed_whole(
        text: *const u8, text_len: usize, store: *mut u8, store_len: usize, imports: *mut u32, imports_len: usize, includes: *mut u32,
        includes_len: usize, page: *mut u8, page_len: usize, answer: *mut u32,
    ) -> u32;
    /// [`nuvaleta_metadata`], likewise.
    pub fn nuvaleta_metadata_whole(text: *const u8, text_len: usize, store: *mut u8, store_len: usize, record: *mut u32, answer: *mut u32) -> u32;
    /// A module of an image by its name. `answer`: number, place of the fault, found, place of the hit, its revisions.
    pub fn nuvaleta_find_module(image: *const u8, image_len: usize, name: *const u8, name_len: usize, answer: *mut u32) -> u32;
    /// A submodule of a module, likewise.
    pub fn nuvaleta_find_submodule(image: *const u8, image_len: usize, name: *const u8, name_len: usize, answer: *mut u32) -> u32;
    /// An import-only module, likewise.
    pub fn nuvaleta_find_import_module(image: *const u8, image_len: usize, name: *const u8, name_len: usize, answer: *mut u32) -> u32;
    /// The text under a name. `answer`: number, place of the fault, found, start, length.
    pub fn nuvaleta_text(bundle: *const u8, bundle_len: usize, name: *const u8, name_len: usize, answer: *mut u32) -> u32;
    /// The graph of an image and a bundle. `answer`: number, entry, the scan's number, keyword and position, place of the fault, nodes, edges.
    pub fn nuvaleta_graph(
        image: *const u8, image_len: usize, bundle: *const u8, bundle_len: usize, nodes: *mut u32, nodes_len: usize, edges: *mut u32,
        edges_len: usize, store: *mut u8, store_len: usize, imports: *mut u32, imports_len: usize, includes: *mut u32, includes_len: usize,
        levels: *mut u32, levels_len: usize, answer: *mut u32,
    ) -> u32;
    /// The same with complete nodes: where a name comes again, its submodules are nodes too.
    pub fn nuvaleta_graph_complete(
        image: *const u8, image_len: usize, bundle: *const u8, bundle_len: usize, nodes: *mut u32, nodes_len: usize, edges: *mut u32,
        edges_len: usize, store: *mut u8, store_len: usize, imports: *mut u32, imports_len: usize, includes: *mut u32, includes_len: usize,
        levels: *mut u32, levels_len: usize, answer: *mut u32,
    ) -> u32;
    /// The order of registration of a graph, or a ring. `answer`: number, length.
    pub fn nuvaleta_order(
        nodes: *const u32, nodes_len: usize, node_count: usize, edges: *const u32, edges_len: usize, edge_count: usize, order: *mut u32,
        order_len: usize, answer: *mut u32,
    ) -> u32;
    /// Whether a list is an order of registration. `answer`: number, place.
    pub fn nuvaleta_order_check(
        nodes: *const u32, nodes_len: usize, node_count: usize, edges: *const u32, edges_len: usize, edge_count: usize, list: *const u32,
        list_len: usize, answer: *mut u32,
    ) -> u32;
}
