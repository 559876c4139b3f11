//! Stub: a derive that expands to nothing.

pub use empty_derives::Allocative;
