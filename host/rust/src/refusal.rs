//! Why a look-up, a graph, an order or a list is refused, by names and places.

use crate::form::{self, Name, Set};
use crate::raw::{BUNDLE_MOST, IMAGE_MOST};
use crate::walk::Walk;
use crate::{Buffers, Clash, Line, Looks, Meaning, ScanRefusal};

/// Why a look-up, a graph, an order or a list is refused. `Display` says it in words, and shows the line of a text or the ring.
#[derive(Clone, Debug, PartialEq, Eq)]
pub enum Refusal {
    /// 20: the image breaks its form.
    ImageBroken {
        /// The start of the first wrong number or name, or the first byte too many; 0 for an image that is too long.
        place: usize,
        /// Whether the image is over [`crate::IMAGE_MOST`].
        too_long: bool,
        /// What it seems to be instead.
        looks: Option<Looks>,
    },
    /// 21: the bundle breaks its form.
    BundleBroken {
        /// As of an image.
        place: usize,
        /// Whether the bundle is over [`crate::BUNDLE_MOST`].
        too_long: bool,
        /// What it seems to be instead.
        looks: Option<Looks>,
    },
    /// 22: with [`Buffers`] this does not come.
    LentTooShort,
    /// 30: more than 1,024 nodes.
    TooManyNodes,
    /// 23 to 29 and 31: in the walk of an entry.
    Walk {
        /// The module or import-only module.
        entry: Entry,
        /// What its walk ended at.
        why: Why,
    },
    /// 40: no order, since the nodes of these names, at least one, wait for each other: each must be registered before the next, the last before the first.
    Ring(Vec<String>),
    /// 41: with [`crate::Graph::order`] this does not come.
    OrderTooShort,
    /// 42: the list is no order of registration.
    ListWrong {
        /// Its first wrong place, counted from 0 on.
        place: usize,
        /// What is wrong there.
        fault: Fault,
    },
    /// 43: more than 1,024 nodes or 8,192 edges, or an edge with a number that is no node. With a graph that was built this does not come.
    TablesUnfit,
}

/// What is wrong at a place of a list, by names. It was looked for afterwards, in the graph.
#[derive(Clone, Debug, PartialEq, Eq)]
pub enum Fault {
    /// No node has this number.
    NoNode(usize),
    /// This one stands there already.
    Again(String),
    /// Another one must be registered first; or the node itself, which is in the way of every order.
    Early {
        /// The one at this place.
        name: String,
        /// The one that must be earlier.
        first: String,
    },
    /// The list is too short: this is the lowest node that it does not hold.
    Missing(String),
}

/// A module or an import-only module of the library. Entries are numbered from 1 on over all sets, in each modules before import-only modules.
#[derive(Clone, Debug, PartialEq, Eq)]
pub struct Entry {
    /// Its number.
    pub number: usize,
    /// The set that it stands in, counted from 1 on.
    pub set: usize,
    /// Whether it is an import-only module.
    pub import_only: bool,
    /// Its name.
    pub name: String,
}

/// What an entry's walk ended at. What is not part of the graph's answer was looked for afterwards, in the texts.
#[derive(Clone, Debug, PartialEq, Eq)]
pub enum Why {
    /// 23: no text under the entry's name.
    NoText,
    /// 24: no text for an included submodule.
    NoIncludedText(Option<Listed>),
    /// 25: a scan refused.
    Scan {
        /// What the scan answered.
        scan: ScanRefusal,
        /// The text, and the line in it.
        spot: Option<Spot>,
    },
    /// 26: an import, an augmenting module or a deviation that is no module or import-only module.
    UnknownModule(Option<Listed>),
    /// 27: an include that is no submodule of a module.
    UnknownSubmodule(Option<Listed>),
    /// 28: one that is, but not a node. With [`crate::graph_complete`] this does not come.
    NoNode,
    /// 29: a text due at depth 9.
    TooDeep,
    /// 31: more than 8,192 edges.
    TooManyEdges,
}

/// A name, and who has it.
#[derive(Clone, Debug, PartialEq, Eq)]
pub struct Listed {
    /// Who has it.
    pub by: By,
    /// The name.
    pub name: String,
}

/// What has a name: the text under a name, or a list of the entry.
#[derive(Clone, Debug, PartialEq, Eq)]
pub enum By {
    /// An import in the text under this name.
    ImportIn(String),
    /// An include in the text under this name.
    IncludeIn(String),
    /// The entry's list of augmenting modules.
    Augmenting,
    /// The entry's list of deviations.
    Deviation,
}

/// The name of the text that was refused, and the line of its place, if it has one.
#[derive(Clone, Debug, PartialEq, Eq)]
pub struct Spot {
    /// The name under which the text stands in the bundle.
    pub text: String,
    /// The line, if the refusal has a place.
    pub line: Option<Box<Line>>,
    /// What was expected there and what was found, where that is known.
    pub clash: Option<Clash>,
}

impl Spot {
    /// Where a text under this name was refused.
    pub fn of(name: impl Into<String>, scan: &ScanRefusal, text: &[u8]) -> Spot {
        Spot { text: name.into(), line: scan.line(text).map(Box::new), clash: scan.clash(text) }
    }

    /// The line with its mark, and what was expected and found, each behind a line break.
    pub fn shown(&self) -> String {
        let line = self.line.as_ref().map_or_else(String::new, |line| format!("\n{line}"));
        line + &self.clash.as_ref().map_or_else(String::new, |clash| format!("\n{clash}"))
    }
}

impl Refusal {
    /// The header's number.
    pub fn number(&self) -> u32 {
        match self {
            Refusal::ImageBroken { .. } => 20,
            Refusal::BundleBroken { .. } => 21,
            Refusal::LentTooShort => 22,
            Refusal::TooManyNodes => 30,
            Refusal::Walk { why, .. } => why.number(),
            Refusal::Ring(_) => 40,
            Refusal::OrderTooShort => 41,
            Refusal::ListWrong { .. } => 42,
            Refusal::TablesUnfit => 43,
        }
    }

    /// What was expected and what was found instead, where that is known: in a text (25), or in the place of an image or a bundle (20, 21).
    pub fn clash(&self) -> Option<Clash> {
        let form = |expected: &str, looks: &Looks| Clash { expected: expected.to_string(), found: looks.to_string() };
        match self {
            Refusal::ImageBroken { looks, .. } => looks.as_ref().map(|looks| form("an image", looks)),
            Refusal::BundleBroken { looks, .. } => looks.as_ref().map(|looks| form("a bundle", looks)),
            Refusal::Walk { why: Why::Scan { spot: Some(spot), .. }, .. } => spot.clash.clone(),
            _ => None,
        }
    }

    /// What can be done about it: what [`Meaning`] has for the number, of a refused text for the scan refusal's.
    pub fn advice(&self) -> String {
        match self {
            Refusal::ImageBroken { looks: Some(looks), .. } | Refusal::BundleBroken { looks: Some(looks), .. } => looks.advice(),
            Refusal::Walk { why: Why::Scan { scan, .. }, .. } => scan.advice().to_string(),
            _ => Meaning::of(self.number()).map_or("", |meaning| meaning.advice).to_string(),
        }
    }
}

impl Why {
    pub(crate) fn number(&self) -> u32 {
        match self {
            Why::NoText => 23,
            Why::NoIncludedText(_) => 24,
            Why::Scan { .. } => 25,
            Why::UnknownModule(_) => 26,
            Why::UnknownSubmodule(_) => 27,
            Why::NoNode => 28,
            Why::TooDeep => 29,
            Why::TooManyEdges => 31,
        }
    }

    /// Whether this is the refusal that the graph's answer tells.
    fn agrees(&self, plain: &Why) -> bool {
        match (self, plain) {
            (Why::Scan { scan, .. }, Why::Scan { scan: told, .. }) => scan == told,
            _ => self.number() == plain.number(),
        }
    }

    /// What the graph's answer alone says.
    fn answered(answer: [u32; 8]) -> Why {
        match (answer[0], ScanRefusal::of([answer[2], answer[3], answer[4]])) {
            (23, _) => Why::NoText,
            (24, _) => Why::NoIncludedText(None),
            (25, Some(scan)) => Why::Scan { scan, spot: None },
            (26, _) => Why::UnknownModule(None),
            (27, _) => Why::UnknownSubmodule(None),
            (28, _) => Why::NoNode,
            (29, _) => Why::TooDeep,
            (31, _) => Why::TooManyEdges,
            _ => panic!("the archive answers {answer:?} to a graph, which the header does not have"),
        }
    }
}

/// An entry, its augmenting modules and its deviations.
pub(crate) struct Full<'a> {
    pub entry: Entry,
    pub augmenting: &'a [Name<'a>],
    pub deviations: &'a [Name<'a>],
}

pub(crate) fn entries<'a>(sets: &'a [Set<'a>]) -> Vec<Full<'a>> {
    let mut out: Vec<Full> = Vec::new();
    for (i, set) in sets.iter().enumerate() {
        let mut add = |name: Name, import_only, augmenting, deviations| {
            let entry = Entry { number: out.len() + 1, set: i + 1, import_only, name: name.text.to_string() };
            out.push(Full { entry, augmenting, deviations });
        };
        for m in &set.modules {
            add(m.name, false, &m.augmenting, &m.deviations);
        }
        for m in &set.import_only {
            add(m.name, true, &[], &[]);
        }
    }
    out
}

/// 20 or 21 at a place of an image or a bundle, which may have come with the other one.
pub(crate) fn form_broken(number: u32, place: u32, form: &[u8], other: Option<&[u8]>) -> Refusal {
    let (place, looks) = (place as usize, Looks::of(number, form, other));
    match number {
        20 => Refusal::ImageBroken { place, too_long: form.len() > IMAGE_MOST, looks },
        21 => Refusal::BundleBroken { place, too_long: form.len() > BUNDLE_MOST, looks },
        _ => panic!("the archive answers {number} to a look-up, which the header does not have"),
    }
}

/// What the eight words of an answer say of this image and this bundle.
pub(crate) fn told(answer: [u32; 8], image: &[u8], bundle: &[u8], buffers: &mut Buffers) -> Refusal {
    match answer[0] {
        20 => return form_broken(20, answer[5], image, Some(bundle)),
        21 => return form_broken(21, answer[5], bundle, Some(image)),
        22 => return Refusal::LentTooShort,
        30 => return Refusal::TooManyNodes,
        _ => {}
    }
    let sets = form::read_image(image).unwrap_or_default();
    let full = entries(&sets).into_iter().nth(answer[1] as usize - 1).expect("an entry of the image");
    let (entry, plain) = (full.entry.clone(), Why::answered(answer));
    let found = match plain.number() {
        24..=27 => Walk::new(&sets, bundle, buffers, vec![full]).next(),
        _ => None,
    };
    match found {
        Some(Refusal::Walk { entry, why }) if why.agrees(&plain) => Refusal::Walk { entry, why },
        _ => Refusal::Walk { entry, why: plain },
    }
}
