//! A plain reading of RFC 3629, by the table of its section 3. It shares no code with the port, nor with Rust's own check: the bytes here are read as a number,
//! and they are a character's if that number is one's and needs as many bytes.

/// How many bytes the character here has; none if none is written here.
fn character(bytes: &[u8]) -> Option<usize> {
    let first = u32::from(*bytes.first()?);
    let (size, least, mut number) = match first {
        0..=0x7f => (1, 0, first),
        0xc0..=0xdf => (2, 0x80, first - 0xc0),
        0xe0..=0xef => (3, 0x800, first - 0xe0),
        0xf0..=0xf7 => (4, 0x1_0000, first - 0xf0),
        _ => return None,
    };
    for i in 1..size {
        let byte = u32::from(*bytes.get(i)?);
        if byte / 64 != 2 {
            return None;
        }
        number = 64 * number + byte % 64;
    }
    let surrogate = (0xd800..=0xdfff).contains(&number);
    (least <= number && number <= 0x10_ffff && !surrogate).then_some(size)
}

/// Where the first bytes begin that are no character's; the end if there are none.
pub fn wrong_from(bytes: &[u8]) -> usize {
    let mut at = 0;
    while let Some(size) = character(&bytes[at..]) {
        at += size;
    }
    at
}

/// Bytes around each bound of section 4's lines: every string of them shows each way in which a sequence can be wrong.
pub const BOUNDS: [u8; 25] = [
    0x00, 0x41, 0x7f, 0x80, 0x8f, 0x90, 0x9f, 0xa0, 0xbf, 0xc0, 0xc1, 0xc2, 0xdf, 0xe0, 0xe1, 0xec, 0xed, 0xee, 0xef, 0xf0, 0xf1, 0xf3, 0xf4, 0xf5, 0xff,
];
