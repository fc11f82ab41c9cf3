//! The house form of a library image and of a bundle (document 01), read plainly, with no code of the port.
//! An answer that is wrong is the place of the first wrong number or name.

use std::collections::HashSet;

/// A name and the place of its first byte.
#[derive(Clone, Copy, Debug, PartialEq)]
pub struct Name<'a> {
    pub place: usize,
    pub text: &'a str,
}

pub struct Module<'a> {
    pub name: Name<'a>,
    pub submodules: Vec<Name<'a>>,
    pub augmenting: Vec<Name<'a>>,
    pub deviations: Vec<Name<'a>>,
}

pub struct ImportOnly<'a> {
    pub name: Name<'a>,
    /// Each is its submodules.
    pub revisions: Vec<Vec<Name<'a>>>,
}

pub struct Set<'a> {
    pub modules: Vec<Module<'a>>,
    pub import_only: Vec<ImportOnly<'a>>,
}

/// A text under its name, and the place of its first byte.
pub struct Text<'a> {
    pub name: Name<'a>,
    pub place: usize,
    pub bytes: &'a [u8],
}

pub type Read<T> = Result<T, usize>;

struct Reader<'a> {
    bytes: &'a [u8],
    at: usize,
}

impl<'a> Reader<'a> {
    /// Seven-bit groups, low group first, at most three, in the shortest form.
    fn number(&mut self, least: usize, most: usize) -> Read<usize> {
        let start = self.at;
        let mut n = 0;
        for group in 0..3 {
            let &b = self.bytes.get(self.at).ok_or(start)?;
            self.at += 1;
            n |= ((b & 127) as usize) << (7 * group);
            if b < 128 {
                let shortest = b != 0 || group == 0;
                return if shortest && least <= n && n <= most { Ok(n) } else { Err(start) };
            }
        }
        Err(start)
    }

    /// A length from 1 to 128 and as many bytes from 33 to 126; whatever is wrong is wrong at the length.
    fn name(&mut self) -> Read<Name<'a>> {
        let start = self.at;
        let length = self.number(1, 128)?;
        let bytes = self.bytes.get(self.at..self.at + length).ok_or(start)?;
        if !bytes.iter().all(|b| (33..=126).contains(b)) {
            return Err(start);
        }
        let place = self.at;
        self.at += length;
        Ok(Name { place, text: std::str::from_utf8(bytes).expect("ascii") })
    }

    /// A name that does not stand in `seen` yet.
    fn new_name(&mut self, seen: &mut HashSet<&'a str>) -> Read<Name<'a>> {
        let start = self.at;
        let name = self.name()?;
        if seen.insert(name.text) { Ok(name) } else { Err(start) }
    }

    /// As many things as the number here says.
    fn list<T>(&mut self, least: usize, most: usize, mut one: impl FnMut(&mut Reader<'a>) -> Read<T>) -> Read<Vec<T>> {
        (0..self.number(least, most)?).map(|_| one(self)).collect()
    }

    fn names(&mut self) -> Read<Vec<Name<'a>>> {
        self.list(0, 64, Reader::name)
    }

    fn module(&mut self, seen: &mut HashSet<&'a str>) -> Read<Module<'a>> {
        Ok(Module { name: self.new_name(seen)?, submodules: self.names()?, augmenting: self.names()?, deviations: self.names()? })
    }

    fn revision(&mut self) -> Read<Vec<Name<'a>>> {
        let mut seen = HashSet::new();
        self.list(0, 64, |r| r.new_name(&mut seen))
    }

    fn import_only(&mut self, seen: &mut HashSet<&'a str>) -> Read<ImportOnly<'a>> {
        Ok(ImportOnly { name: self.new_name(seen)?, revisions: self.list(1, 8, Reader::revision)? })
    }

    fn set(&mut self) -> Read<Set<'a>> {
        let mut modules = HashSet::new();
        let mut import_only = HashSet::new();
        Ok(Set { modules: self.list(0, 512, |r| r.module(&mut modules))?, import_only: self.list(0, 512, |r| r.import_only(&mut import_only))? })
    }

    fn text(&mut self, seen: &mut HashSet<&'a str>) -> Read<Text<'a>> {
        let name = self.new_name(seen)?;
        let start = self.at;
        let length = self.number(0, 2_097_151)?;
        let place = self.at;
        let bytes = self.bytes.get(place..place + length).ok_or(start)?;
        self.at += length;
        Ok(Text { name, place, bytes })
    }
}

/// All of the bytes, of which there may be so many, read by `all`.
fn whole<'a, T>(bytes: &'a [u8], most: usize, all: impl FnOnce(&mut Reader<'a>) -> Read<T>) -> Read<T> {
    if bytes.len() > most {
        return Err(0);
    }
    let mut r = Reader { bytes, at: 0 };
    let read = all(&mut r)?;
    if r.at == bytes.len() { Ok(read) } else { Err(r.at) }
}

pub fn read_image(bytes: &[u8]) -> Read<Vec<Set<'_>>> {
    whole(bytes, 65_536, |r| r.list(0, 16, Reader::set))
}

pub fn read_bundle(bytes: &[u8]) -> Read<Vec<Text<'_>>> {
    let mut seen = HashSet::new();
    whole(bytes, 16_777_216, |r| r.list(0, 2_048, |r| r.text(&mut seen)))
}

/// How long the longest text of a bundle is; 0 where there is none, or the bundle breaks its form.
pub fn longest_text(bundle: &[u8]) -> usize {
    read_bundle(bundle).unwrap_or_default().iter().map(|t| t.bytes.len()).max().unwrap_or(0)
}

/// All names that may be a node, in the order of the image: modules and import-only modules, each with its submodules.
pub fn candidates<'a>(sets: &[Set<'a>]) -> Vec<Name<'a>> {
    let mut out = Vec::new();
    for set in sets {
        for m in &set.modules {
            out.push(m.name);
            out.extend(&m.submodules);
        }
        for m in &set.import_only {
            out.push(m.name);
            out.extend(m.revisions.iter().flatten());
        }
    }
    out
}
