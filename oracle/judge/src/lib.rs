//! The crate as judge: sound tables become its trees, its own functions run on them, and its messages and
//! spans become numbers of docs/RULES.md, nodes and spans.

pub mod back;
pub mod dialects;
pub mod format;
pub mod marks;
pub mod messages;
pub mod run;
pub mod trees;
