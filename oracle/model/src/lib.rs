//! docs/FORMAT.md and docs/RULES.md in Rust: the node table, the file, the limits, and the answer for every
//! table. Written from the document, so that it can judge tables that no tree of the crate can be.
//! And the binding of arguments to parameters, the rescue of files, the reader of format texts and the figures, which the crate does not have, and
//! the audit of a whole table by all jobs.
//!
//! The files are layers, and each uses only those before it:
//! - `numbers`, `planted`, `answer`: the numbers, the faults that can be planted, what an answer is;
//! - `dialect`, `table`, `params`, `call`: the bytes of a dialect and of a table, the rules of lists by themselves;
//! - `written`, `bind`, `targets`, `types`, `fstring`, `file`: what a table or a file holds, and the rules over it;
//! - `module`, `rescue`, then `audit`;
//! - `jobs`, then `figures`: the functions of the C interface and the programs.

pub mod answer;
pub mod audit;
pub mod bind;
pub mod call;
pub mod dialect;
pub mod figures;
pub mod file;
pub mod fstring;
pub mod jobs;
pub mod module;
pub mod numbers;
pub mod params;
pub mod planted;
pub mod rescue;
pub mod table;
pub mod targets;
pub mod types;
pub mod written;
