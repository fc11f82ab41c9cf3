//! All values that the metadata scan reads, in order. The original keeps only some of them, so its loop is walked here once more, over its own
//! functions: the file is taken in whole, and what is added stands behind it.

use crate::kept::KEYWORDS;

include!("yangparser.rs");

/// Keyword and value of each statement whose value is kept or was kept for a time: yang-version's and a later prefix's are not.
pub fn values(text: &str) -> Option<Vec<(u32, String)>> {
    let mut p = YangParser::new(text);
    let mut out: Vec<(u32, String)> = Vec::new();
    while !p.is_eof() {
        p.skip_whitespace_and_comments();
        if p.is_eof() {
            break;
        }
        if let Some(keyword) = keyword(&mut p) {
            let first_prefix = !out.iter().any(|(k, _)| *k == PREFIX);
            statement(&mut p, keyword, first_prefix, &mut out)?;
        } else if LAST.iter().any(|word| p.match_keyword(word)) {
            break;
        } else {
            p.skip_one_token();
        }
    }
    Some(out)
}

const BELONGS_TO: u32 = 3;
const PREFIX: u32 = 5;
const YANG_VERSION: u32 = 6;
const REVISION: u32 = 7;
const LAST: [&str; 9] = ["container", "list", "leaf", "grouping", "typedef", "identity", "augment", "rpc", "notification"];

fn keyword(p: &mut YangParser) -> Option<u32> {
    let found = KEYWORDS[..REVISION as usize].iter().position(|word| p.match_keyword(word))?;
    Some(found as u32 + 1)
}

fn statement(p: &mut YangParser, keyword: u32, first_prefix: bool, out: &mut Vec<(u32, String)>) -> Option<()> {
    if keyword == PREFIX && !first_prefix {
        p.skip_statement();
        return Some(());
    }
    p.skip_whitespace_and_comments();
    let value = p.read_string_or_identifier();
    if keyword != YANG_VERSION {
        out.push((keyword, value?));
    }
    if keyword == BELONGS_TO {
        p.skip_statement();
        return Some(());
    }
    p.skip_whitespace_and_comments();
    if keyword == REVISION && p.peek_char() == Some('{') {
        p.skip_statement();
        return Some(());
    }
    p.expect_char(if keyword <= 2 { '{' } else { ';' }).ok()
}
