//! A library image and a bundle in the house form, as the Rust's own types.

use crate::form::{self, Name, Read};
use crate::yanglib::{ImportOnlyModule, Module, ModuleSet, Submodule, YangLibrary};
use std::collections::HashMap;

pub struct Image {
    pub library: YangLibrary,
    /// Where each name stands, by the place of its bytes in memory.
    pub places: HashMap<*const u8, usize>,
}

/// The texts under their names, as to_graph takes them.
pub type Schemas = HashMap<Box<str>, Box<str>>;

/// Keeps a name, and tells of it with its place in the image.
fn kept(name: Name, told: &mut impl FnMut(&str, usize)) -> Box<str> {
    let text: Box<str> = name.text.into();
    told(&text, name.place);
    text
}

fn all(names: &[Name], told: &mut impl FnMut(&str, usize)) -> Box<[Box<str>]> {
    names.iter().map(|n| kept(*n, told)).collect()
}

fn submodule(name: Name, told: &mut impl FnMut(&str, usize)) -> Submodule {
    Submodule::new(kept(name, told), None, Box::new([]))
}

fn module(m: &form::Module, told: &mut impl FnMut(&str, usize)) -> Module {
    let submodules: Vec<Submodule> = m.submodules.iter().map(|n| submodule(*n, told)).collect();
    Module::new(
        kept(m.name, told),
        None,
        "urn".into(),
        Box::new([]),
        all(&m.deviations, told),
        submodules.into(),
        all(&m.augmenting, told),
        Box::new([]),
    )
}

/// The revisions of one import-only module, which the image leaves without dates.
fn import_only(m: &form::ImportOnly, told: &mut impl FnMut(&str, usize)) -> Vec<ImportOnlyModule> {
    let revision = |(i, submodules): (usize, &Vec<Name>)| {
        let submodules = submodules.iter().map(|n| (n.text.into(), submodule(*n, told))).collect();
        ImportOnlyModule::new(kept(m.name, told), Some(format!("{i}").into()), "urn".into(), Box::new([]), submodules)
    };
    m.revisions.iter().enumerate().map(revision).collect()
}

/// The library of an image; each name that it keeps is told with its place.
pub fn read_library(bytes: &[u8], told: &mut impl FnMut(&str, usize)) -> Read<YangLibrary> {
    let mut sets = Vec::new();
    for (i, set) in form::read_image(bytes)?.iter().enumerate() {
        let modules: Vec<Module> = set.modules.iter().map(|m| module(m, told)).collect();
        let import_only: Vec<ImportOnlyModule> = set.import_only.iter().flat_map(|m| import_only(m, told)).collect();
        sets.push(ModuleSet::new(format!("{i}").into(), modules, import_only));
    }
    Ok(YangLibrary::new("".into(), sets, Vec::new(), Vec::new()))
}

pub fn read_image(bytes: &[u8]) -> Read<Image> {
    let mut places = HashMap::new();
    let library = read_library(bytes, &mut |name, place| {
        places.insert(name.as_ptr(), place);
    })?;
    Ok(Image { library, places })
}

/// The texts of a bundle; none if one of them is no UTF-8.
pub fn read_schemas(bytes: &[u8]) -> Read<Option<Schemas>> {
    let one = |t: form::Text| Some((t.name.text.into(), std::str::from_utf8(t.bytes).ok()?.into()));
    Ok(form::read_bundle(bytes)?.into_iter().map(one).collect())
}
