//! Lists of errors, from the words that the library stores: [`ERROR_WORDS`] for each error of a module, [`AUDIT_WORDS`] for each of an audit.

use std::ops::Range;

use crate::Number;
use crate::AUDIT_WORDS;
use crate::ERROR_WORDS;

/// An error of a module: its number, the source file that its span is in, the span, and its node where the audit lists it.
#[derive(Clone, Debug, PartialEq, Eq, Hash)]
pub struct Error {
    pub number: Number,
    pub file: u32,
    pub span: Range<u32>,
    pub node: Option<u32>,
}

/// The errors of a module: their number, and those that fit into the list, in order.
#[derive(Clone, Copy, Debug, PartialEq, Eq)]
pub struct Errors<'a> {
    pub total: u32,
    words: &'a [u32],
    width: usize,
}

/// Goes over the errors that are stored.
#[derive(Clone, Debug)]
pub struct Iter<'a> {
    words: std::slice::ChunksExact<'a, u32>,
}

impl<'a> Errors<'a> {
    pub(crate) fn of_module(total: u32, words: &'a [u32]) -> Errors<'a> {
        Errors::new(total, words, ERROR_WORDS)
    }

    pub(crate) fn of_audit(total: u32, words: &'a [u32]) -> Errors<'a> {
        Errors::new(total, words, AUDIT_WORDS)
    }

    fn new(total: u32, words: &'a [u32], width: usize) -> Errors<'a> {
        let stored = (words.len() / width).min(total as usize);
        Errors { total, words: &words[..stored * width], width }
    }

    /// The number of stored errors: all, if the list is long enough.
    pub fn stored(&self) -> usize {
        self.words.len() / self.width
    }

    /// The errors that are stored.
    pub fn iter(&self) -> Iter<'a> {
        Iter { words: self.words.chunks_exact(self.width) }
    }
}

impl Iterator for Iter<'_> {
    type Item = Error;

    fn next(&mut self) -> Option<Error> {
        let words = self.words.next()?;
        let number = Number::try_from(words[0]).expect("a list holds no other numbers");
        Some(Error { number, file: words[1], span: words[2]..words[3], node: words.get(ERROR_WORDS).copied() })
    }

    fn size_hint(&self) -> (usize, Option<usize>) {
        self.words.size_hint()
    }
}

impl ExactSizeIterator for Iter<'_> {}

impl<'a> IntoIterator for Errors<'a> {
    type Item = Error;
    type IntoIter = Iter<'a>;

    fn into_iter(self) -> Iter<'a> {
        self.iter()
    }
}
