//! What a file seems to be that was given for an image or a bundle and is none.

use crate::{form, plain};
use std::fmt::{self, Display, Formatter};

/// What a thing seems to be that breaks the form of an image or a bundle. `Display` says it in words.
#[derive(Clone, Copy, Debug, PartialEq, Eq)]
pub enum Looks {
    /// It has no byte.
    Empty,
    /// An XML document, in a NETCONF frame or not.
    Xml,
    /// A JSON document.
    Json,
    /// A YANG text.
    Yang,
    /// An image, given for a bundle.
    Image,
    /// A bundle, given for an image.
    Bundle,
    /// A bundle, given for an image, and the image for the bundle.
    Swapped,
}

impl Looks {
    /// What stands in the place of an image (20) or a bundle (21), as far as it can be told from its bytes, and the other half if there is one.
    pub(crate) fn of(number: u32, form: &[u8], other: Option<&[u8]>) -> Option<Looks> {
        let [is_image, is_bundle]: [fn(&[u8]) -> bool; 2] = [|form| form::read_image(form).is_ok(), |form| form::read_bundle(form).is_ok()];
        match number {
            _ if form.is_empty() => Some(Looks::Empty),
            20 if is_bundle(form) => Some(if other.map_or(false, is_image) { Looks::Swapped } else { Looks::Bundle }),
            21 if is_image(form) => Some(Looks::Image), // the other half is one too, else 20 were told
            _ => document(form),
        }
    }

    /// What to do, if that is more than to make the thing anew.
    pub(crate) fn advice(self) -> String {
        let pack = |kind: &str| format!("this looks like {self}: run `nuvaleta pack {kind} IMAGE BUNDLE`, which makes an image and a bundle");
        match self {
            Looks::Xml | Looks::Json => pack("library FILE TEXTS") + " of a router's library and a folder of texts",
            Looks::Yang => pack("folder FOLDER") + " of a folder of texts",
            Looks::Empty => "this is empty: make it anew by `nuvaleta pack`".to_string(),
            Looks::Image | Looks::Bundle => format!("this looks like {self}: give both files that `nuvaleta pack` wrote, the image first"),
            Looks::Swapped => "the two are swapped: give the image first, then the bundle".to_string(),
        }
    }
}

/// So much of a file is looked at for bytes that no document has and every image and bundle.
const BEGIN: usize = 256;

/// The documents, which are known by how they begin.
fn document(form: &[u8]) -> Option<Looks> {
    let form = form.strip_prefix(b"\xef\xbb\xbf").unwrap_or(form);
    let white = |byte: &u8| matches!(byte, 9 | 10 | 13 | 32);
    if form.iter().take(BEGIN).any(|byte| *byte < 32 && !white(byte)) {
        return None;
    }
    let start = form.iter().position(|byte| !white(byte))?;
    let next = form.get(start + 1).copied().unwrap_or_default();
    let behind = form[start + 1..].iter().find(|byte| !white(byte)).copied().unwrap_or_default();
    match form[start] {
        b'<' if next.is_ascii_alphabetic() || b"?!".contains(&next) => Some(Looks::Xml),
        b'#' if next.is_ascii_digit() && form.contains(&b'<') => Some(Looks::Xml), // RFC 6242's chunks
        b'{' | b'[' if b"{[\"}]".contains(&behind) => Some(Looks::Json),
        _ if ["module", "submodule"].map(str::as_bytes).contains(&plain::first_word(form)) => Some(Looks::Yang),
        _ => None,
    }
}

impl Display for Looks {
    fn fmt(&self, f: &mut Formatter<'_>) -> fmt::Result {
        f.pad(match self {
            Looks::Empty => "nothing",
            Looks::Xml => "an XML document",
            Looks::Json => "a JSON document",
            Looks::Yang => "a YANG text",
            Looks::Image => "an image",
            Looks::Bundle | Looks::Swapped => "a bundle",
        })
    }
}
