//! The original's two scans, under the names by which yanglib.rs calls them. Before each scan it is noted where it will stop (kept.rs).

use crate::{kept, original};
pub use original::{YangDependencies, YangModuleMetadata};

/// The status with which the process ends where the copy says something else than the original. It must not look like an answer.
const UNLIKE: i32 = 3;

fn noted<T>(text: &str, copy: fn(&str) -> Option<Result<(), String>>, scan: fn(&str) -> Result<T, String>) -> Result<T, String> {
    let said = copy(text);
    let answer = scan(text);
    if said != Some(answer.as_ref().map(|_| ()).map_err(String::clone)) {
        std::process::exit(UNLIKE);
    }
    answer
}

pub fn extract_yang_dependencies(text: &str) -> Result<YangDependencies, String> {
    noted(text, kept::dependencies, original::extract_yang_dependencies)
}

pub fn extract_yang_metadata(text: &str) -> Result<YangModuleMetadata, String> {
    noted(text, kept::metadata, original::extract_yang_metadata)
}
