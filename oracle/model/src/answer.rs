//! What a job gives back.

use crate::numbers::number;
use crate::planted::planted;
use crate::planted::Fault;

/// Stands in `out` for a place or a node that is none.
pub const NONE: u32 = u32::MAX;

/// The words of an error of the module pass: number, file, begin, end.
pub const ERROR_WORDS: usize = 4;

/// The words of an error of the audit: those, then the node.
pub const AUDIT_WORDS: usize = 5;

/// A stretch of a source file.
#[derive(Clone, Copy, Debug, PartialEq, Eq)]
pub struct Span {
    pub file: u32,
    pub begin: u32,
    pub end: u32,
}

/// A refusal: its number, and the node and the span where docs/RULES.md gives them. 11 and 22 carry the node of the first earlier
/// parameter or argument with an equal name besides.
#[derive(Clone, Debug, PartialEq, Eq)]
pub struct Refusal {
    pub number: u32,
    pub node: Option<u32>,
    pub span: Option<Span>,
    pub earlier: Option<u32>,
}

impl Refusal {
    pub fn bare(number: u32) -> Refusal {
        Refusal { number, node: None, span: None, earlier: None }
    }

    pub fn placed(number: u32, node: usize) -> Refusal {
        Refusal { number, node: Some(node as u32), span: None, earlier: None }
    }

    pub fn spanned(number: u32, node: usize, span: Span) -> Refusal {
        Refusal { number, node: Some(node as u32), span: Some(span), earlier: None }
    }

    pub fn with_earlier(self, node: usize) -> Refusal {
        Refusal { earlier: Some(node as u32).filter(|_| !planted(Fault::EarlierMissing)), ..self }
    }
}

/// A job's whole effect: the number (0: accepted), the first words of `out`, and what the buffer gets.
#[derive(Clone, Debug, Default, PartialEq, Eq)]
pub struct Answer {
    pub number: u32,
    pub words: Vec<u32>,
    /// For a mode or shape buffer, from its start; 0 where the byte stays (no mode or shape is 0).
    pub bytes: Vec<u8>,
    /// The module pass's errors: number, file, begin, end.
    pub errors: Vec<[u32; ERROR_WORDS]>,
    /// The audit's errors: number, file, begin, end, node.
    pub audited: Vec<[u32; AUDIT_WORDS]>,
    /// A table file, or a table that is read, which goes to the start of the buffer byte by byte.
    pub file: Vec<u8>,
    /// Names that are read, which go to the start of the second buffer.
    pub names: Vec<u8>,
    /// A binding or the parts of a format text, which go to the start of the list word by word.
    pub list: Vec<u32>,
    /// The counts of figures, which are written whole; none where they stay.
    pub counts: Vec<u64>,
    /// A notice beside an accepted answer (62), which is among its words too; 0 where there is none.
    pub notice: u32,
}

impl From<Refusal> for Answer {
    fn from(refusal: Refusal) -> Answer {
        let none = if planted(Fault::NoEarlierIsZero) { 0 } else { NONE };
        let earlier = refusal.earlier.unwrap_or(none);
        let span = refusal.span.map(|Span { file, begin, end }| match planted(Fault::FileBeforeEarlier) {
            true => [begin, end, file, earlier],
            false => [begin, end, earlier, file],
        });
        Answer {
            number: refusal.number,
            words: refusal.node.into_iter().chain(span.into_iter().flatten()).collect(),
            ..Answer::default()
        }
    }
}

impl Answer {
    /// Whether the crate's answer is this one, which may carry an earlier node: the crate has none.
    pub fn is_told_by_the_crate(&self, judged: &Answer) -> bool {
        match (self.number, self.words.as_slice()) {
            (number::DUPLICATED_PARAMETER | number::REPEATED_NAMED, &[node, begin, end, _, file]) => {
                *judged == Answer { words: vec![node, begin, end, NONE, file], ..self.clone() }
            }
            _ => judged == self,
        }
    }

    pub fn accepted(words: Vec<u32>) -> Answer {
        Answer { words, ..Answer::default() }
    }

    /// Writes the bytes that do not stay.
    pub fn write_bytes(&self, lent: &mut [u8]) {
        lent[..self.file.len()].copy_from_slice(&self.file);
        for (place, byte) in lent.iter_mut().zip(&self.bytes) {
            if *byte != 0 {
                *place = *byte;
            }
        }
    }

    /// Writes the names that are read.
    pub fn write_names(&self, lent: &mut [u8]) {
        lent[..self.names.len()].copy_from_slice(&self.names);
    }

    /// Writes the words of a binding, or the first errors that fit whole.
    pub fn write_list(&self, lent: &mut [u32]) {
        lent[..self.list.len()].copy_from_slice(&self.list);
        for (place, error) in lent.chunks_exact_mut(ERROR_WORDS).zip(&self.errors) {
            place.copy_from_slice(error);
        }
        for (place, error) in lent.chunks_exact_mut(AUDIT_WORDS).zip(&self.audited) {
            place.copy_from_slice(error);
        }
    }

    /// The numbers that it gives: its own, those of its errors, and its notice.
    pub fn numbers(&self) -> impl Iterator<Item = u32> + '_ {
        let of_errors = self.errors.iter().map(|error| error[0]).chain(self.audited.iter().map(|error| error[0]));
        std::iter::once(self.number).chain(of_errors).chain((self.notice != 0).then_some(self.notice))
    }

    /// Writes the counts of figures.
    pub fn write_counts(&self, lent: &mut [u64]) {
        lent[..self.counts.len()].copy_from_slice(&self.counts);
    }

    pub fn write_words(&self, out: &mut [u32; 12]) {
        out[..self.words.len()].copy_from_slice(&self.words);
    }
}
