//! The Rust side of the comparison: the unchanged source behind [`subject::Subject`], and what
//! drives, counts, records and shrinks histories of calls.

include!(concat!(env!("OUT_DIR"), "/modules.rs"));

pub mod alter;
#[cfg(bench)]
pub mod bench;
pub mod call;
pub mod checks;
pub mod codes;
pub mod compare;
mod config;
mod convert;
pub mod cover;
pub mod edges;
pub mod generate;
pub mod history;
#[cfg(port)]
mod mirror;
pub mod mutants;
pub mod oracle;
#[cfg(port)]
pub mod port;
mod reach;
pub mod reasons;
mod refuse;
pub mod reply;
pub mod report;
pub mod rng;
pub mod shrink;
pub mod state;
pub mod stats;
pub mod subject;
pub mod trace;
mod translate;
