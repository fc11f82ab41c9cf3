//! The metadata scan: the whole record and the whole store, rebuilt from the values that the original reads.

use crate::port::{Described, lent_store};
use crate::{Run, refused};
use vectors::answers::{self, Refusal, Scan};
use vectors::scans::{self, Span, described};

fn good(told: &[Option<Vec<u8>>], values: &[(u32, Vec<u8>)], port: &Described) -> bool {
    let (record, store) = described(values);
    assert_eq!(scans::five(&record, &store), told, "the values read make what the original keeps");
    holds(&record, &store, port)
}

/// A good answer with this record and this store, and zeros behind it.
pub fn holds(record: &[Span; 6], store: &[u8], port: &Described) -> bool {
    let used = store.len();
    port.answer == [0, 0, 0, used as u32] && port.record == *record.as_flattened() && port.store[..used] == *store && is_zero(&port.store[used..])
}

/// All is zero but the refusal itself.
pub fn is_refused(text: &[u8], refusal: &Refusal, port: &Described) -> bool {
    refused(text, refusal, &port.answer) && port.record == [0; 18] && is_zero(&port.store)
}

fn is_zero(bytes: &[u8]) -> bool {
    bytes.iter().all(|b| *b == 0)
}

pub fn text(run: &mut Run, text: &[u8]) {
    let told = answers::metadata(run.oracle(), text);
    let mut port = lent_store(text.len() + run.inputs % 3);
    let number = port.metadata(false, text);
    let same = number == port.answer[0]
        && match &told {
            Scan::Good(five) => good(five, &answers::metadata_read(run.oracle(), text), &port),
            Scan::Refused(r) => is_refused(text, r, &port),
            Scan::Silent(_) => false,
        };
    run.count(same, || format!("{:?}\n  the Rust {told:?}\n  the port {:?} {:?}", String::from_utf8_lossy(text), port.answer, port.record));
}

/// Asks with a store of this length and expects an answer; on a refusal all is zero.
pub fn expect_in(whole: bool, run: &mut Run, what: &str, text: &[u8], store: usize, answer: [u32; 4]) {
    let mut port = lent_store(store);
    let number = port.metadata(whole, text);
    let clean = is_zero(&port.store[answer[3] as usize..]) && (number == 0 || port.record == [0; 18]);
    run.count(number == answer[0] && port.answer == answer && clean, || format!("{what}, whole {whole}: {:?}, expected {answer:?}", port.answer));
}

/// Both modes must answer the same.
fn expect(run: &mut Run, what: &str, text: &[u8], store: usize, answer: [u32; 4]) {
    for whole in [false, true] {
        expect_in(whole, run, what, text, store, answer);
    }
}

pub fn edges(run: &mut Run) {
    let mut most = b"module m {".to_vec();
    most.resize(1_048_576, b' ');
    expect(run, "metadata of the longest text", &most, most.len(), [0, 0, 0, 1]);
    most.push(b' ');
    expect(run, "metadata, one byte more", &most, most.len(), [1, 0, 0, 0]);
    expect(run, "metadata, one byte more, and nothing lent", &most, 0, [1, 0, 0, 0]);
    let text = b"module m {";
    expect(run, "metadata, just enough", text, text.len(), [0, 0, 0, 1]);
    expect(run, "metadata, the store too short", text, text.len() - 1, [2, 0, 0, 0]);
    expect(run, "metadata, nothing lent", text, 0, [2, 0, 0, 0]);
    expect(run, "metadata of an empty text", b"", 0, [9, 0, 0, 0]);
    expect(run, "metadata, a high byte", b"module m\xc3\xa9{", 11, [3, 0, 8, 0]);
    expect(run, "metadata, no UTF-8", b"container\x80{", 11, [12, 0, 9, 0]);
    expect(run, "metadata, no UTF-8 and a short store", b"\x80", 0, [2, 0, 0, 0]);
    expect(run, "metadata behind a stop word", b"container x", 11, [9, 0, 9, 0]);
    expect(run, "metadata without a name", b"x  ", 3, [9, 0, 3, 0]);
}
