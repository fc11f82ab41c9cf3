//! Generated inputs, the oracle's answers to them, and the files in which they are recorded.

pub mod answers;
pub mod form;
pub mod graphs;
pub mod libraries;
pub mod oracle;
pub mod orders;
pub mod records;
pub mod rng;
pub mod routers;
pub mod scans;
pub mod texts;
pub mod utf8;
