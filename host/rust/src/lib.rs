//! Which YANG schema must be registered before which. A library image says which modules, submodules and augmentations a router has, a bundle holds
//! their texts, both in the form that the header describes, include/nuvaleta.h; `nuvaleta pack` makes them. This crate draws their graph and orders it,
//! and scans single texts.
//!
//! The work is done by the proved code of crates/nuvaleta. What is here owns the buffers that it is lent, gives the answers names, and says a refusal
//! in words. No function panics, whatever the input. A graph, and so [`check`], uses less than [`raw::STACK_MOST`] (416 KiB) of the
//! calling thread's stack, every other call less than 40 KiB. All but [`raw`], which is the header as it is, is without `unsafe`.
//!
//! ```
//! // A module m with the submodule s, and b, which both of them import.
//! let image = b"\x01\x02\x01m\x01\x01s\x00\x00\x01b\x00\x00\x00\x00";
//! let bundle = b"\x03\x01m\x1dinclude s;import b{prefix b;}\x01s\x13import b{prefix b;}\x01b\x00";
//! let graph = nuvaleta::graph(image, bundle)?;
//! assert_eq!(graph.order()?.names, ["b", "s", "m"]);
//! # Ok::<(), nuvaleta::Refusal>(())
//! ```
//!
//! A refusal is an error that says what, where and in which text:
//!
//! ```
//! let image = b"\x01\x01\x01m\x00\x00\x00\x00";
//! let refusal = nuvaleta::graph(image, b"\x01\x01m\x0aimport b{}").unwrap_err();
//! assert_eq!(refusal.number(), 25);
//! let told = "module m (set 1, entry 1): the text of m, line 1, column 11: an import is closed without prefix (scan refusal 7, byte 10)";
//! assert_eq!(refusal.words(), told);
//! ```

#![deny(unsafe_code, missing_docs)]

mod check;
mod clash;
mod find;
#[path = "../../vectors/src/form.rs"]
#[allow(dead_code)] // a plain reader of the form, for the names and texts behind a refusal
mod form;
mod graph;
mod looks;
mod meaning;
mod order;
mod plain;
pub mod raw;
mod refusal;
mod scan;
mod scan_refusal;
#[allow(unsafe_code)]
mod sys;
mod walk;
mod warning;
mod words;

pub use check::{check, check_complete, texts, About, Checked};
pub use clash::Clash;
pub use find::{find_import_module, find_module, find_submodule, text, ImportModule};
pub use graph::{graph, graph_complete, Buffers, Edge, Graph};
pub use looks::Looks;
pub use meaning::Meaning;
pub use order::Order;
pub use raw::{BUNDLE_MOST, IMAGE_MOST, TEXT_MOST};
pub use refusal::{By, Entry, Fault, Listed, Refusal, Spot, Why};
pub use scan::{dependencies, dependencies_whole, metadata, metadata_whole, Dependencies, Import, Include, Metadata};
pub use scan_refusal::{Keyword, Line, ScanFault, ScanRefusal};
pub use warning::{Warning, WarningKind};
#[doc(hidden)] // for the command, which has no unsafe code
pub use sys::is_terminal;
