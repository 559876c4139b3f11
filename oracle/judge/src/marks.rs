//! Spans that identify the record they came from.
//!
//! The crate only carries spans along. So its trees get a span of their own for each record, and from the
//! span of an error one sees which record it is at, even where a table repeats its positions.

use starlark_syntax::codemap::Pos;
use starlark_syntax::codemap::Span;

#[derive(Clone, Copy, Debug, PartialEq, Eq)]
pub enum Mark {
    /// A record's own span.
    Node(usize),
    /// The span of a named argument's name.
    Name(usize),
}

const STEP: u32 = 4;
const NODE: u32 = 0;
const NAME: u32 = 2;
const INNER: u32 = 3;

fn span(node: usize, what: u32) -> Span {
    let at = Pos::new(node as u32 * STEP + what);
    Span::new(at, at)
}

pub fn node(node: usize) -> Span {
    span(node, NODE)
}

pub fn name(node: usize) -> Span {
    span(node, NAME)
}

/// A span that no error is known to have, as that of a field or a literal.
pub fn inner(node: usize) -> Span {
    span(node, INNER)
}

/// Stops the run at a span that no error is known to have.
pub fn read(span: Span) -> Mark {
    let at = span.begin().get();
    assert_eq!(span.begin(), span.end(), "the crate made a span of its own");
    let node = (at / STEP) as usize;
    match at % STEP {
        NODE => Mark::Node(node),
        NAME => Mark::Name(node),
        _ => panic!("the crate reports an unexpected span, inside record {node}"),
    }
}

/// The record whose own span it is.
pub fn read_node(span: Span) -> usize {
    match read(span) {
        Mark::Node(node) => node,
        Mark::Name(node) => panic!("the crate reports the name of record {node} where a record is expected"),
    }
}
