//! Where the original's parser stands when it refuses a text or goes round for ever, and which keyword it matched last.
//!
//! The original drops its parser before it answers. So the same file is taken in here once more, and the parser is kept. One name in this copy is another:
//! build.sh calls its match_keyword `matches`. The function below has that name in its place; it asks the original's and notes what it says.

include!("renamed.rs");

use std::cell::Cell;
use std::panic::{AssertUnwindSafe, catch_unwind, resume_unwind};
use std::sync::atomic::{AtomicBool, AtomicUsize, Ordering::Relaxed};

/// Document 01's keywords, by their numbers from 1 on.
pub const KEYWORDS: [&str; 10] =
    ["module", "submodule", "belongs-to", "namespace", "prefix", "yang-version", "revision", "import", "include", "revision-date"];

// Of the text that was read last. They are atomic because a signal's handler reads them.
static REFUSED: AtomicBool = AtomicBool::new(false);
static KEYWORD: AtomicUsize = AtomicUsize::new(0);
static POSITION: AtomicUsize = AtomicUsize::new(0);

thread_local! {
    /// The last import or include that matched.
    static BLOCK: Cell<usize> = const { Cell::new(0) };
    /// How many keywords were tried since the parser last moved.
    static TRIES: Cell<usize> = const { Cell::new(0) };
}

/// More than are ever tried at one place by a parser that goes on, which are 16.
const MOST_TRIES: usize = 100;

impl YangParser<'_> {
    /// A parser that goes round for ever tries keywords at one place for ever; it is ended here.
    fn match_keyword(&mut self, keyword: &str) -> bool {
        let moved = POSITION.swap(self.position, Relaxed) != self.position;
        TRIES.set(if moved { 1 } else { TRIES.get() + 1 });
        if TRIES.get() > MOST_TRIES {
            KEYWORD.store(BLOCK.get(), Relaxed);
            resume_unwind(Box::new(()));
        }
        let is = self.matches(keyword);
        if is {
            let number = KEYWORDS.iter().position(|word| *word == keyword).map_or(0, |i| i + 1);
            KEYWORD.store(number, Relaxed);
            if keyword == "import" || keyword == "include" {
                BLOCK.set(number);
            }
        }
        is
    }
}

/// What the copy says against a text, if it says anything; none if it would never return.
fn read<T>(text: &str, scan: impl Fn(&mut YangParser) -> Result<T, String>) -> Option<Result<(), String>> {
    KEYWORD.store(0, Relaxed);
    TRIES.set(0);
    let mut parser = YangParser::new(text);
    let said = catch_unwind(AssertUnwindSafe(|| scan(&mut parser).map(|_| ()))).ok();
    POSITION.store(parser.position, Relaxed);
    REFUSED.store(said != Some(Ok(())), Relaxed);
    said
}

pub fn dependencies(text: &str) -> Option<Result<(), String>> {
    read(text, |parser| parser.parse())
}

pub fn metadata(text: &str) -> Option<Result<(), String>> {
    read(text, |parser| parser.parse_metadata())
}

/// As if no text had been read yet.
pub fn forget() {
    REFUSED.store(false, Relaxed);
}

/// Of the text that was read last, if it was refused or never ended: the number of the keyword that matched last, 0 for one that has none, and the parser's
/// position. Where it never ends, the keyword is the import or include whose block it is in.
pub fn stopped() -> Option<(usize, usize)> {
    REFUSED.load(Relaxed).then(|| (KEYWORD.load(Relaxed), POSITION.load(Relaxed)))
}
