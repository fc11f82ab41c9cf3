//! What the Rust has no word for: lengths around each boundary, and the refusals that document 01 adds.

use crate::Run;
use crate::port::{IMPORT_WORDS, INCLUDE_WORDS, PAGE_MORE, Scanned, lent};

/// Asks with these lengths and expects an answer.
pub fn expect_in(whole: bool, run: &mut Run, what: &str, text: &[u8], mut buffers: Scanned, answer: [u32; 6]) {
    let number = buffers.printed(whole, text);
    let same = number == answer[0] && buffers.answer[..6] == answer && buffers.is_clean();
    run.count(same, || format!("{what}, whole {whole}: {:?}, expected {answer:?}", buffers.answer));
}

/// Both modes must answer the same.
fn expect(run: &mut Run, what: &str, text: &[u8], buffers: Scanned, answer: [u32; 6]) {
    expect_in(false, run, what, text, buffers.clone(), answer);
    expect_in(true, run, what, text, buffers, answer);
}

pub fn long(text: &[u8]) -> Scanned {
    lent(text.len(), IMPORT_WORDS, INCLUDE_WORDS, text.len() + PAGE_MORE)
}

const REFUSED_SHORT: [u32; 6] = [2, 0, 0, 0, 0, 0];

pub fn run(run: &mut Run) {
    let most = vec![b' '; 1_048_576];
    expect(run, "the longest text", &most, long(&most), [0; 6]);
    let over = vec![b' '; 1_048_577];
    expect(run, "one byte more", &over, long(&over), [1, 0, 0, 0, 0, 0]);
    expect(run, "one byte more, and nothing lent", &over, lent(0, 0, 0, 0), [1, 0, 0, 0, 0, 0]);
    let text = b"include a;";
    let page = text.len() + PAGE_MORE;
    expect(run, "just enough", text, long(text), [0, 0, 0, 0, 1, 1]);
    expect(run, "the store too short", text, lent(text.len() - 1, IMPORT_WORDS, INCLUDE_WORDS, page), REFUSED_SHORT);
    expect(run, "the import table too short", text, lent(text.len(), IMPORT_WORDS - 1, INCLUDE_WORDS, page), REFUSED_SHORT);
    expect(run, "the include table too short", text, lent(text.len(), IMPORT_WORDS, INCLUDE_WORDS - 1, page), REFUSED_SHORT);
    expect(run, "the page too short", text, lent(text.len(), IMPORT_WORDS, INCLUDE_WORDS, page - 1), REFUSED_SHORT);
    expect(run, "nothing lent", text, lent(0, 0, 0, 0), REFUSED_SHORT);
    expect(run, "an empty text", b"", long(b""), [0; 6]);
    expect(run, "a high byte", b"import a{\xc3\xa9", long(b"import a{\xc3\xa9"), [3, 0, 9, 0, 0, 0]);
    expect(run, "no UTF-8", b"import a{} \xc3", long(b"import a{} \xc3"), [12, 0, 11, 0, 0, 0]);
    expect(run, "no UTF-8 and a short store", b"\x80", lent(0, IMPORT_WORDS, INCLUDE_WORDS, page), REFUSED_SHORT);
    let over = vec![b'\xff'; 1_048_577];
    expect(run, "no UTF-8 and one byte more", &over, long(&over), [1, 0, 0, 0, 0, 0]);
    expect(run, "no UTF-8 in the longest text", &over[1..], long(&over[1..]), [12, 0, 0, 0, 0, 0]);
    rows(run);
}

/// 256 of each are good, and a 257th is refused behind its keyword.
fn rows(run: &mut Run) {
    let import = "import a{prefix b;}".repeat(256);
    let include = "include c;".repeat(256);
    let both = format!("{import}{include}");
    expect(run, "256 of each", both.as_bytes(), long(both.as_bytes()), [0, 0, 0, 256, 256, 768]);
    let imports = format!("{both}import");
    let at = imports.len() as u32;
    expect(run, "a 257th import", imports.as_bytes(), long(imports.as_bytes()), [10, 8, at, 0, 0, 0]);
    let includes = format!("{both}include x");
    let at = both.len() as u32 + 7;
    expect(run, "a 257th include", includes.as_bytes(), long(includes.as_bytes()), [10, 9, at, 0, 0, 0]);
    let widest = format!("{}{}", "import a{prefix b;revision-date 1;}".repeat(256), "include c{revision-date 2;}".repeat(256));
    expect(run, "the longest page", widest.as_bytes(), long(widest.as_bytes()), [0, 0, 0, 256, 256, 1_280]);
}
