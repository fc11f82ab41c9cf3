//! What each number says, once: the crate's refusals fill their names and places into these words, the command explains a number by them.

/// What a refusal's number means, and what can be done about it.
#[derive(Clone, Copy, Debug, PartialEq, Eq)]
pub struct Meaning {
    /// The number that a call answers, as include/nuvaleta.h has it.
    pub number: u32,
    /// With a pair of braces where a refusal says what it knows.
    words: &'static str,
    /// What stands there if nothing is known.
    general: &'static str,
    /// What can be done about it.
    pub advice: &'static str,
}

impl Meaning {
    /// The meaning of a number; none for one that no call answers.
    ///
    /// ```
    /// let meaning = nuvaleta::Meaning::of(4).expect("a number of the header");
    /// assert_eq!(meaning.words(), "no value after the keyword");
    /// assert!(nuvaleta::Meaning::of(13).is_none());
    /// ```
    pub fn of(number: u32) -> Option<&'static Meaning> {
        MEANINGS.iter().find(|meaning| meaning.number == number)
    }

    /// In words, without what only a refusal knows.
    pub fn words(&self) -> String {
        self.with(self.general)
    }

    fn with(&self, known: &str) -> String {
        self.words.replacen("{}", known, 1)
    }
}

/// The words of a number, with what is known.
pub(crate) fn said(number: u32, known: Option<&str>) -> String {
    Meaning::of(number).map_or_else(String::new, |meaning| meaning.with(known.unwrap_or(meaning.general)))
}

const fn row(number: u32, words: &'static str, general: &'static str, advice: &'static str) -> Meaning {
    Meaning { number, words, general, advice }
}

static MEANINGS: [Meaning; 29] = [
    row(0, "no refusal: the call has answered", "", "nothing"),
    // a scan
    row(1, "more than 1,048,576 bytes", "", "split the text: this is the most that is scanned"),
    row(2, "store or table too short", "", "lend what include/nuvaleta.h asks for; the Rust crate and the command always do"),
    row(
        3, "a byte above 127 outside of strings and comments", "",
        "put what it belongs to into quotes, or write ASCII there: accents, typographic quotes and dashes, other blanks than the usual one, and a byte order \
         mark at the beginning are the usual causes",
    ),
    row(
        4, "no value after {}", "the keyword",
        "write a name or a closed string behind the keyword. A keyword counts wherever it stands as a word of its own, also as the name of something else",
    ),
    row(
        5, "another byte than the one required after {} and its value", "the keyword",
        "behind the value write { for module, submodule and import, ; or { for include and revision, ; for the others. A value with other bytes than \
         letters, digits and _ - . : must be quoted",
    ),
    row(6, "the text ends before the byte required after {} and its value", "the keyword", "the text is cut off, or a quote is not closed: complete it"),
    row(7, "an import is closed without prefix", "", "write `prefix NAME;` inside the braces of the import"),
    row(8, "the text ends inside the block of an {}", "import or include", "the text is cut off, or a } is missing: complete it"),
    row(
        9, "no module or submodule with a name", "",
        "write `module NAME {` or `submodule NAME {` before the first container, list, leaf, grouping, typedef, identity, augment, rpc or notification",
    ),
    row(10, "a 257th {}", "import or include", "leave out what is not needed, or split the module: 256 imports and 256 includes are the most"),
    row(
        11, "the text ends inside a string, or inside a statement that is passed over", "",
        "the text is cut off, or a quote, a ; or a } is missing: download it again, or complete it. A text without this refusal may be cut off too, where it \
         is not seen: behind the word that ends the scan, in a comment between statements, or in the module's own block outside of strings",
    ),
    row(
        12, "the text is not UTF-8", "",
        "save the text as UTF-8: it may be written in ISO 8859-1, Windows-1252 or UTF-16, or be cut off inside a character",
    ),
    // an image, a bundle
    row(
        20, "the image {}", "breaks its form, or has more than 65,536 bytes",
        "make it anew by `nuvaleta pack`. The place is the start of the first wrong number or name, or the first byte too many",
    ),
    row(
        21, "the bundle {}", "breaks its form, or has more than 16,777,216 bytes",
        "make it anew by `nuvaleta pack`. The place is the start of the first wrong number or name, or the first byte too many",
    ),
    // a graph
    row(22, "a table or scratch is too short", "", "lend what include/nuvaleta.h asks for; the Rust crate and the command always do"),
    row(23, "the bundle has no text under its name", "", "put its text into the bundle, or take it out of the library"),
    row(24, "{}, of which the bundle has no text", "a submodule is included", "put the submodule's text into the bundle, or take the include out"),
    row(25, "a text is refused", "", "correct the text: the scan refusal's number says what is wrong with it, and where"),
    row(
        26, "{}, which is neither a module nor an import-only module", "a name is imported or listed",
        "add the module to the library, as an import-only module if it is not implemented, or correct the name. A submodule can be included only",
    ),
    row(
        27, "{}, which is no submodule of a module", "a name is included",
        "list the submodule under its module in the library, or correct the name. Those of import-only modules do not count: list such a module \
         as a module",
    ),
    row(
        28, "a submodule is included which is no node, since its module was passed over: that module's name was a node already", "",
        "the library has that module's name twice, and the submodules of the second one are passed over: draw the graph with --complete (in a program: \
         graph_complete), or list the submodule where the name stands first",
    ),
    row(29, "includes go deeper than eight texts, or in a circle", "", "include the submodules from the module itself, or break the circle"),
    row(30, "more than 1,024 nodes", "", "split the library: the different names of modules, import-only modules and their submodules are counted"),
    row(31, "more than 8,192 edges", "", "split the library: imports, includes, augmenting modules and deviations are counted, each pair of names once"),
    // an order, a list
    row(
        40, "no order of registration: {}", "schemas wait for each other in a ring, which is told, an edge a line",
        "in each line the second imports, includes, augments or deviates from the first: one of these has to go",
    ),
    row(41, "the order table is too short", "", "lend a word for each node; the Rust crate and the command always do"),
    row(
        42, "the list is wrong{}", "",
        "put right what stands at the place that is told: no node, one that is there already, or one before another that it needs; or the list ends too early",
    ),
    row(
        43, "more than 1,024 nodes or 8,192 edges, or an edge with a number that is no node", "",
        "correct the tables, their counts too; those of a graph that was built always fit",
    ),
];
