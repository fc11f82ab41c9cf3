//! Names looked up in an image, and the text under a name in a bundle. Each call reads the whole image, or the bundle's names, first.

use crate::refusal::form_broken;
use crate::sys::{self, LookUp};
use crate::Refusal;

/// An import-only module that was found.
#[derive(Clone, Copy, Debug, PartialEq, Eq)]
pub struct ImportModule {
    /// The place of its name's first byte in the image.
    pub place: usize,
    /// How many revisions of it are listed.
    pub revisions: usize,
}

/// The two words of a hit.
fn hit(what: LookUp, form: &[u8], name: &[u8]) -> Result<Option<[usize; 2]>, Refusal> {
    let [number, place, found, first, second] = sys::look_up(what, form, name);
    match number {
        0 => Ok((found == 1).then_some([first as usize, second as usize])),
        _ => Err(form_broken(number, place, form, None)),
    }
}

/// The first module of this name in the order of the image: the place of its name's first byte. A name that no image can hold is not found.
///
/// ```
/// let image = b"\x01\x02\x01m\x01\x01s\x00\x00\x01b\x00\x00\x00\x00"; // m with the submodule s, and b
/// assert_eq!(nuvaleta::find_module(image, "b")?, Some(10));
/// assert_eq!(nuvaleta::find_module(image, "s")?, None);
/// assert_eq!(nuvaleta::find_submodule(image, "s")?, Some(6));
/// # Ok::<(), nuvaleta::Refusal>(())
/// ```
pub fn find_module(image: &[u8], name: impl AsRef<[u8]>) -> Result<Option<usize>, Refusal> {
    Ok(hit(LookUp::Module, image, name.as_ref())?.map(|[place, _]| place))
}

/// The first submodule of this name that a module has, likewise. Submodules of import-only modules are not looked through.
pub fn find_submodule(image: &[u8], name: impl AsRef<[u8]>) -> Result<Option<usize>, Refusal> {
    Ok(hit(LookUp::Submodule, image, name.as_ref())?.map(|[place, _]| place))
}

/// The first import-only module of this name.
pub fn find_import_module(image: &[u8], name: impl AsRef<[u8]>) -> Result<Option<ImportModule>, Refusal> {
    Ok(hit(LookUp::ImportModule, image, name.as_ref())?.map(|[place, revisions]| ImportModule { place, revisions }))
}

/// The text under a name in a bundle, as a part of the bundle. An empty text is found too.
///
/// ```
/// let bundle = b"\x02\x01m\x0ainclude s;\x01s\x00";
/// assert_eq!(nuvaleta::text(bundle, "m")?, Some(&b"include s;"[..]));
/// assert_eq!(nuvaleta::text(bundle, "s")?, Some(&b""[..]));
/// assert_eq!(nuvaleta::text(bundle, "b")?, None);
/// # Ok::<(), nuvaleta::Refusal>(())
/// ```
pub fn text(bundle: &[u8], name: impl AsRef<[u8]>) -> Result<Option<&[u8]>, Refusal> {
    Ok(hit(LookUp::Text, bundle, name.as_ref())?.map(|[start, length]| &bundle[start..][..length]))
}
