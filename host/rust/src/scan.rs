//! The two scans of a text: what it imports and includes, and its metadata. Each may refuse a text that breaks off in what is read.

use crate::raw::{IMPORT_ROW, IMPORT_WORDS, INCLUDE_ROW, INCLUDE_WORDS, PAGE_MORE, RECORD_WORDS, TEXT_MOST, VALUE_ROW};
use crate::{sys, ScanRefusal};
use std::fmt::{self, Display, Formatter};

/// What a text imports and includes, each in the order of the text. `Display` is their printed form, made by the proved code too.
#[derive(Clone, Debug, PartialEq, Eq)]
pub struct Dependencies {
    store: String,
    imports: Vec<u32>,
    includes: Vec<u32>,
    page: String,
}

/// An import. A value can be empty, and hold any character.
#[derive(Clone, Copy, Debug, PartialEq, Eq)]
pub struct Import<'a> {
    /// The module that is imported.
    pub name: &'a str,
    /// The prefix under which it is known here.
    pub prefix: &'a str,
    /// The value of revision-date.
    pub revision: Option<&'a str>,
}

/// An include. A value can be empty, and hold any character.
#[derive(Clone, Copy, Debug, PartialEq, Eq)]
pub struct Include<'a> {
    /// The submodule that is included.
    pub name: &'a str,
    /// The value of revision-date.
    pub revision: Option<&'a str>,
}

/// The value that two words tell, start and length in the store.
fn value<'a>(store: &'a str, words: &[u32]) -> &'a str {
    &store[words[0] as usize..][..words[1] as usize]
}

/// The value that a mark and two words tell.
fn marked<'a>(store: &'a str, words: &[u32]) -> Option<&'a str> {
    (words[0] == 1).then(|| value(store, &words[1..]))
}

/// So many bytes of a store or a page, which the header promises to be UTF-8.
fn utf8(mut bytes: Vec<u8>, used: u32) -> String {
    bytes.truncate(used as usize);
    String::from_utf8(bytes).expect("UTF-8")
}

/// A store for a text; for one that is too long none is needed.
fn store_for(text: &[u8]) -> Vec<u8> {
    vec![0; if text.len() > TEXT_MOST { 0 } else { text.len() }]
}

/// The imports and includes of a text, or why it is refused. A text is UTF-8, and has characters above 127 in quoted strings and comments only.
///
/// ```
/// let found = nuvaleta::dependencies(b"module m { import base { prefix b; } include m-types; }")?;
/// let import = found.imports().next().expect("an import");
/// assert_eq!((import.name, import.prefix, import.revision), ("base", "b", None));
/// assert_eq!(found.includes().map(|include| include.name).collect::<Vec<_>>(), ["m-types"]);
/// # Ok::<(), nuvaleta::ScanRefusal>(())
/// ```
pub fn dependencies(text: &[u8]) -> Result<Dependencies, ScanRefusal> {
    read_dependencies(false, text)
}

/// The same, and [`ScanFault::CutShort`](crate::ScanFault::CutShort) if a string that is read never closes, or a statement that is passed over has no end:
/// then the text is cut off, as by a download that broke off. That it is not refused does not say that it is whole: what the scan does not read is not
/// looked at, and neither the end inside a comment between statements nor a module's block that never closes is refused.
///
/// ```
/// let half = b"module m { namespace \"urn:m"; // cut off before its imports
/// assert_eq!(nuvaleta::dependencies(half).expect("a good scan").imports().len(), 0);
/// assert_eq!(nuvaleta::dependencies_whole(half).unwrap_err().fault, nuvaleta::ScanFault::CutShort);
/// ```
pub fn dependencies_whole(text: &[u8]) -> Result<Dependencies, ScanRefusal> {
    read_dependencies(true, text)
}

fn read_dependencies(whole: bool, text: &[u8]) -> Result<Dependencies, ScanRefusal> {
    let mut store = store_for(text);
    let mut page = vec![0; store.len() + PAGE_MORE];
    let [mut imports, mut includes] = [IMPORT_WORDS, INCLUDE_WORDS].map(|n| vec![0; n]);
    let answer = sys::printed(whole, text, &mut store, &mut imports, &mut includes, &mut page);
    ScanRefusal::of([answer[0], answer[1], answer[2]]).map_or(Ok(()), Err)?;
    imports.truncate(IMPORT_ROW * answer[3] as usize);
    includes.truncate(INCLUDE_ROW * answer[4] as usize);
    Ok(Dependencies { store: utf8(store, answer[5]), imports, includes, page: utf8(page, answer[6]) })
}

impl Dependencies {
    /// The imports, 256 at the most.
    pub fn imports(&self) -> impl ExactSizeIterator<Item = Import<'_>> + '_ {
        let one = |w: &[u32]| Import { name: value(&self.store, w), prefix: value(&self.store, &w[2..]), revision: marked(&self.store, &w[4..]) };
        self.imports.chunks_exact(IMPORT_ROW).map(one)
    }

    /// The includes, 256 at the most.
    pub fn includes(&self) -> impl ExactSizeIterator<Item = Include<'_>> + '_ {
        let one = |w: &[u32]| Include { name: value(&self.store, w), revision: marked(&self.store, &w[2..]) };
        self.includes.chunks_exact(INCLUDE_ROW).map(one)
    }
}

impl Display for Dependencies {
    fn fmt(&self, f: &mut Formatter<'_>) -> fmt::Result {
        f.write_str(&self.page)
    }
}

/// What a text says of itself. `Display` has a line for each value that is present, as the program of crates/meta prints them.
#[derive(Clone, Debug, PartialEq, Eq)]
pub struct Metadata {
    store: String,
    record: [u32; RECORD_WORDS],
}

/// The metadata of a text, or why it is refused.
///
/// ```
/// let about = nuvaleta::metadata(b"submodule s { belongs-to m { prefix p; } revision 2023-01-01; revision 2024-01-01; }")?;
/// assert_eq!((about.name(), about.parent()), ("s", Some("m")));
/// assert_eq!((about.first_revision(), about.newest_revision()), (Some("2023-01-01"), Some("2024-01-01")));
/// # Ok::<(), nuvaleta::ScanRefusal>(())
/// ```
pub fn metadata(text: &[u8]) -> Result<Metadata, ScanRefusal> {
    read_metadata(false, text)
}

/// The same, and [`ScanFault::CutShort`](crate::ScanFault::CutShort) where [`dependencies_whole`] has it.
///
/// ```
/// let half = b"module m { revision 2024-05-01 { description \"The la";
/// assert_eq!(nuvaleta::metadata(half)?.newest_revision(), Some("2024-05-01"));
/// assert_eq!(nuvaleta::metadata_whole(half).unwrap_err().position, Some(half.len()));
/// # Ok::<(), nuvaleta::ScanRefusal>(())
/// ```
pub fn metadata_whole(text: &[u8]) -> Result<Metadata, ScanRefusal> {
    read_metadata(true, text)
}

fn read_metadata(whole: bool, text: &[u8]) -> Result<Metadata, ScanRefusal> {
    let mut store = store_for(text);
    let mut record = [0; RECORD_WORDS];
    let answer = sys::metadata(whole, text, &mut store, &mut record);
    ScanRefusal::of([answer[0], answer[1], answer[2]]).map_or(Ok(()), Err)?;
    Ok(Metadata { store: utf8(store, answer[3]), record })
}

impl Metadata {
    /// The value of this number in the header's `nuvaleta_value`.
    fn value(&self, number: usize) -> Option<&str> {
        marked(&self.store, &self.record[VALUE_ROW * number..])
    }

    /// The name of the module or submodule, the last one read; it can be empty.
    pub fn name(&self) -> &str {
        self.value(0).unwrap_or_default() // a text without one is refused
    }

    /// The namespace, the last one read.
    pub fn namespace(&self) -> Option<&str> {
        self.value(1)
    }

    /// The prefix, the first one read; in a submodule that of its first import, since the one inside belongs-to is passed over.
    pub fn prefix(&self) -> Option<&str> {
        self.value(2)
    }

    /// The revision that stands first in the text.
    pub fn first_revision(&self) -> Option<&str> {
        self.value(3)
    }

    /// The module that a submodule belongs to.
    pub fn parent(&self) -> Option<&str> {
        self.value(4)
    }

    /// The greatest revision in the order of bytes, wherever it stands.
    pub fn newest_revision(&self) -> Option<&str> {
        self.value(5)
    }
}

impl Display for Metadata {
    fn fmt(&self, f: &mut Formatter<'_>) -> fmt::Result {
        let lines = [
            ("name", Some(self.name())),
            ("belongs to", self.parent()),
            ("namespace", self.namespace()),
            ("prefix", self.prefix()),
            ("first revision", self.first_revision()),
            ("newest revision", self.newest_revision()),
        ];
        lines.iter().filter_map(|(label, value)| Some((label, (*value)?))).try_for_each(|(label, value)| writeln!(f, "{label}: {value}"))
    }
}
