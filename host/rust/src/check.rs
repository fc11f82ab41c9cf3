//! What every text of a bundle says of itself, and all faults of a library at once.

use crate::refusal::{entries, form_broken};
use crate::walk::Walk;
use crate::warning::{warnings, Warning};
use crate::{dependencies, form, metadata, Buffers, Dependencies, Metadata, Refusal, ScanRefusal};
use std::fmt::{self, Display, Formatter};

/// What a text of a bundle says of itself.
#[derive(Clone, Debug, PartialEq, Eq)]
pub struct About<'a> {
    /// The name under which it stands in the bundle.
    pub name: &'a str,
    /// The text.
    pub text: &'a [u8],
    /// What [`metadata`] answers.
    pub metadata: Result<Metadata, ScanRefusal>,
    /// What [`dependencies`] answers.
    pub dependencies: Result<Dependencies, ScanRefusal>,
    /// What may be lost of it without a refusal; of a text that is refused nothing is said.
    pub warnings: Vec<Warning>,
}

/// What every text of a bundle says of itself, in the order of the bundle; or refusal 21.
///
/// ```
/// let bundle = b"\x01\x01m\x38module m { prefix contact;\n  import base { prefix b; }\n}";
/// let texts = nuvaleta::texts(bundle)?;
/// assert_eq!(texts[0].metadata.as_ref().expect("a good scan").name(), "m");
/// assert_eq!(texts[0].dependencies.as_ref().expect("a good scan").imports().len(), 0);
/// let told = "line 2, column 3: import \"base\" is passed over: the scan ends at the word contact in line 1";
/// assert_eq!(texts[0].warnings[0].to_string(), told);
/// # Ok::<(), nuvaleta::Refusal>(())
/// ```
pub fn texts(bundle: &[u8]) -> Result<Vec<About<'_>>, Refusal> {
    let texts = form::read_bundle(bundle).map_err(|place| form_broken(21, place as u32, bundle, None))?;
    Ok(texts.iter().map(|text| about(text.name.text, text.bytes)).collect())
}

fn about<'a>(name: &'a str, text: &'a [u8]) -> About<'a> {
    let dependencies = dependencies(text);
    let warnings = dependencies.as_ref().map_or_else(|_| Vec::new(), |read| warnings(text, read));
    About { name, text, metadata: metadata(text), dependencies, warnings }
}

/// A line with name and length, then what the scans answer, then the warnings, each with an indent.
impl Display for About<'_> {
    fn fmt(&self, f: &mut Formatter<'_>) -> fmt::Result {
        writeln!(f, "{}, {}", self.name, counted(self.text.len(), "byte"))?;
        let refused = |scan: &ScanRefusal| match scan.line(self.text) {
            Some(line) => format!("refused {}: line {}, column {}: {}\n", scan.number(), line.number, line.column, scan.words()),
            None => format!("refused {}: {}\n", scan.number(), scan.words()),
        };
        let [metadata, dependencies] = [
            self.metadata.as_ref().map_or_else(refused, Metadata::to_string),
            self.dependencies.as_ref().map_or_else(refused, Dependencies::to_string),
        ];
        let twice = self.metadata.as_ref().err() == self.dependencies.as_ref().err() && self.metadata.is_err();
        let mut lines = metadata.lines().chain(if twice { "" } else { dependencies.as_str() }.lines()).filter(|line| !line.is_empty());
        lines.try_for_each(|line| writeln!(f, "    {line}"))?;
        self.warnings.iter().try_for_each(|warning| writeln!(f, "    warning: {warning}"))
    }
}

/// All that stands in the way of an order, and what may be lost on the way to it.
#[derive(Clone, Debug, Default, PartialEq, Eq)]
pub struct Checked {
    /// Every fault once, in the order of the graph's walk.
    pub faults: Vec<Refusal>,
    /// The names of texts that the walk reads, each with a warning.
    pub warnings: Vec<(String, Warning)>,
}

/// All that [`crate::graph`] and [`crate::Graph::order`] would refuse of a library, one after the other: each text that is missing (23, 24) or refused (25)
/// once, each name that is unknown (26, 27) once for the text or list that has it. If the graph is refused for something else, that comes behind them, and
/// if it is drawn and has no order, its ring. There is no fault exactly if there is an order. It draws the graph, and so may take as long as that.
///
/// ```
/// let image = b"\x01\x02\x01m\x00\x00\x00\x01b\x00\x00\x00\x00"; // the modules m and b
/// let checked = nuvaleta::check(image, b"\x01\x01m\x1dimport x{prefix x;}include y;");
/// assert_eq!(checked.faults.iter().map(|fault| fault.number()).collect::<Vec<_>>(), [26, 27, 23]);
/// assert!(nuvaleta::check(image, b"\x02\x01m\x00\x01b\x00").faults.is_empty());
/// ```
pub fn check(image: &[u8], bundle: &[u8]) -> Checked {
    checked(false, image, bundle)
}

/// The same for [`crate::graph_complete`]: there is no fault exactly if that graph has an order.
pub fn check_complete(image: &[u8], bundle: &[u8]) -> Checked {
    checked(true, image, bundle)
}

fn checked(complete: bool, image: &[u8], bundle: &[u8]) -> Checked {
    let mut buffers = Buffers::new();
    let refused = buffers.draw(complete, image, bundle).and_then(|graph| graph.order().map(drop)).err();
    let (sets, texts) = match (form::read_image(image), form::read_bundle(bundle)) {
        (Ok(sets), Ok(texts)) => (sets, texts),
        _ => return Checked { faults: refused.into_iter().collect(), warnings: Vec::new() },
    };
    let mut walk = Walk::new(&sets, bundle, &mut buffers, entries(&sets));
    let mut faults: Vec<Refusal> = walk.by_ref().collect();
    faults.extend(refused.filter(|refusal| !faults.contains(refusal)));
    let seen = walk.seen();
    let read = texts.iter().filter(|text| seen.contains(text.name.text));
    let warned = |text: &form::Text| {
        let warnings = dependencies(text.bytes).map_or_else(|_| Vec::new(), |read| warnings(text.bytes, &read));
        warnings.into_iter().map(|warning| (text.name.text.to_string(), warning)).collect::<Vec<_>>()
    };
    Checked { faults, warnings: read.flat_map(warned).collect() }
}

/// Each fault, then each warning, then how many there are of both.
impl Display for Checked {
    fn fmt(&self, f: &mut Formatter<'_>) -> fmt::Result {
        for (i, fault) in self.faults.iter().enumerate() {
            writeln!(f, "{}", fault.told())?;
            // what is to be done stands once behind faults of one kind
            if self.faults.get(i + 1).map(Refusal::advice) != Some(fault.advice()) {
                writeln!(f, "To do: {}", fault.advice())?;
            }
        }
        self.warnings.iter().try_for_each(|(text, warning)| writeln!(f, "warning: the text of {text}, {warning}"))?;
        writeln!(f, "{}, {}", counted(self.faults.len(), "fault"), counted(self.warnings.len(), "warning"))
    }
}

fn counted(count: usize, of: &str) -> String {
    format!("{count} {of}{}", if count == 1 { "" } else { "s" })
}
