//! The format text of an f-string, from its parts and back.

use crate::accepted;
use crate::interface;
use crate::Refused;

/// A part of an f-string: text bytes, or an expression with no conversion, with `!s` (str) or with `!r` (repr).
#[derive(Clone, Copy, Debug, PartialEq, Eq, Hash)]
pub enum Part<'a> {
    Text(&'a [u8]),
    None,
    Str,
    Repr,
}

/// A format text that is written: its length in bytes, and whether the dialect has f-strings. Where it has none (the notice 62), the text is
/// written all the same.
#[derive(Clone, Copy, Debug, PartialEq, Eq)]
pub struct Formatted {
    pub length: usize,
    pub enabled: bool,
}

/// The parts of a format text, in the buffers of the caller: two words for each, and the texts one after another.
#[derive(Clone, Copy, Debug, PartialEq, Eq)]
pub struct Parts<'a> {
    words: &'a [u32],
    texts: &'a [u8],
}

/// The parts one after another.
#[derive(Clone, Debug)]
pub struct PartsIter<'a> {
    words: &'a [u32],
    texts: &'a [u8],
}

impl<'a> Parts<'a> {
    /// How many parts there are.
    pub fn len(self) -> usize {
        self.words.len() / 2
    }

    /// Whether there is no part: the text is empty.
    pub fn is_empty(self) -> bool {
        self.words.is_empty()
    }

    /// The two words of each part, as the C interface has them.
    pub fn words(self) -> &'a [u32] {
        self.words
    }

    /// The bytes of the texts, one after another.
    pub fn texts(self) -> &'a [u8] {
        self.texts
    }

    pub fn iter(self) -> PartsIter<'a> {
        PartsIter { words: self.words, texts: self.texts }
    }
}

impl<'a> IntoIterator for Parts<'a> {
    type Item = Part<'a>;
    type IntoIter = PartsIter<'a>;

    fn into_iter(self) -> PartsIter<'a> {
        self.iter()
    }
}

impl<'a> Iterator for PartsIter<'a> {
    type Item = Part<'a>;

    fn next(&mut self) -> Option<Part<'a>> {
        let (&[kind, length], words) = self.words.split_first_chunk()?;
        self.words = words;
        Some(match kind {
            1 => Part::None,
            2 => Part::Str,
            3 => Part::Repr,
            _ => {
                let (text, texts) = self.texts.split_at(length as usize);
                self.texts = texts;
                Part::Text(text)
            }
        })
    }
}

/// A number in two words, the low one first.
fn wide(low: u32, high: u32) -> usize {
    (u64::from(high) << 32 | u64::from(low)) as usize
}

/// The place of 63.
pub(crate) fn position(out: &[u32]) -> usize {
    wide(out[0], out[1])
}

/// The format text of parts in a dialect (nine bytes, or none for Extended), at the front of `text`: 5, 7. A brace of a text is written twice,
/// an expression without a conversion and with str is `{}`, with repr `{!r}`. No text is longer than twice the text bytes and four bytes for each
/// expression. The words of the parts are made here, on the heap, so that 64 does not arise; [`fstring_write_words`] takes them as they are.
///
/// ```
/// use starlark_checks::{dialect, fstring_write, Formatted, Part};
///
/// let parts = [Part::Text(b"{train} "), Part::Repr, Part::Text(b" at "), Part::None];
/// let mut text = [0; 20];
/// assert_eq!(fstring_write(&parts, &dialect::ALL, &mut text), Ok(Formatted { length: 20, enabled: true }));
/// assert_eq!(&text, b"{{train}} {!r} at {}");
/// assert_eq!(fstring_write(&parts, &dialect::STANDARD, &mut text), Ok(Formatted { length: 20, enabled: false }));
/// ```
pub fn fstring_write(parts: &[Part], dialect: &[u8], text: &mut [u8]) -> Result<Formatted, Refused> {
    let (mut words, mut texts) = (Vec::with_capacity(2 * parts.len()), Vec::new());
    for part in parts {
        match part {
            // a text that is longer than a word can say is several parts, which the format text joins
            Part::Text(bytes) => bytes.chunks(u32::MAX as usize).for_each(|piece| {
                words.extend([0, piece.len() as u32]);
                texts.extend_from_slice(piece);
            }),
            Part::None => words.extend([1, 0]),
            Part::Str => words.extend([2, 0]),
            Part::Repr => words.extend([3, 0]),
        }
    }
    fstring_write_words(&words, &texts, dialect, text)
}

/// The same of parts in words, as the C interface takes them: 5, 64, 7. A part is two words, 0 and the length of a text, or 1 (no conversion), 2
/// (str), 3 (repr) and then 0; the texts follow each other.
pub fn fstring_write_words(words: &[u32], texts: &[u8], dialect: &[u8], text: &mut [u8]) -> Result<Formatted, Refused> {
    let out = accepted(|out| interface::fstring_write(words, texts, dialect, text, out))?;
    Ok(Formatted { length: wide(out[0], out[1]), enabled: out[2] == 0 })
}

/// The parts of a format text: 63, 7. `words` needs two for each part, `texts` the bytes of the texts; of a text of n bytes 2 n words and n bytes
/// are never too few, where no text part has 2^32 bytes or more. Text and doubled braces side by side are one part, and no part is [`Part::Str`].
///
/// ```
/// use starlark_checks::{fstring_read, At, Number, Part};
///
/// let (mut words, mut texts) = ([0; 8], [0; 8]);
/// let parts = fstring_read(b"{{a}} {!r}{}", &mut words, &mut texts).expect("a format text");
/// assert!(parts.iter().eq([Part::Text(b"{a} "), Part::Repr, Part::None]));
/// let refused = fstring_read(b"{a}", &mut words, &mut texts).expect_err("a brace starts none of the four forms");
/// assert_eq!((refused.number, refused.at), (Number::StrayBrace, At::Position(0)));
/// ```
pub fn fstring_read<'a>(text: &[u8], words: &'a mut [u32], texts: &'a mut [u8]) -> Result<Parts<'a>, Refused> {
    let out = accepted(|out| interface::fstring_read(text, words, texts, out))?;
    Ok(Parts { words: &words[..2 * wide(out[0], out[1])], texts: &texts[..wide(out[2], out[3])] })
}
