//! The format text of an f-string, from its parts and back: W-210.

use crate::answer::Answer;
use crate::answer::Refusal;
use crate::dialect;
use crate::numbers::number;
use crate::planted::planted;
use crate::planted::Fault;

/// A part: text, or an expression with a conversion.
#[derive(Clone, Debug, PartialEq, Eq)]
pub enum Part {
    Text(Vec<u8>),
    None,
    Str,
    Repr,
}

/// A number that may pass 32 bits, the low word first.
fn two_words(n: usize) -> [u32; 2] {
    [n as u32, (n as u64 >> 32) as u32]
}

/// The parts that words and texts give, or 64.
pub fn parts_of(words: &[u32], texts: &[u8]) -> Result<Vec<Part>, Refusal> {
    let broken = Refusal::bare(number::BROKEN_PART);
    let pairs = words.chunks(2);
    let is_sound = |pair: &[u32]| match *pair {
        [0, _] => true,
        [kind, second] => kind <= 3 && (second == 0 || planted(Fault::SecondWordUnseen)),
        _ => planted(Fault::OddWordAllowed),
    };
    let lengths: u128 = pairs.clone().filter(|pair| pair[0] == 0 && pair.len() == 2).map(|pair| u128::from(pair[1])).sum();
    let total = if planted(Fault::LengthsIn32Bits) { u128::from(lengths as u32) } else { lengths };
    if !pairs.clone().all(is_sound) || total != texts.len() as u128 {
        return Err(broken);
    }
    let mut left = texts;
    Ok(pairs
        .filter(|pair| pair.len() == 2)
        .map(|pair| match pair[0] {
            0 => {
                let (text, rest) = left.split_at((pair[1] as usize).min(left.len()));
                left = rest;
                Part::Text(text.to_vec())
            }
            1 => Part::None,
            2 => Part::Str,
            _ => Part::Repr,
        })
        .collect())
}

/// The words and the texts of parts.
pub fn words_of(parts: &[Part]) -> (Vec<u32>, Vec<u8>) {
    let (mut words, mut texts) = (Vec::new(), Vec::new());
    for part in parts {
        match part {
            Part::Text(text) => {
                words.extend([0, text.len() as u32]);
                texts.extend_from_slice(text);
            }
            Part::None => words.extend([1, 0]),
            Part::Str => words.extend([2, 0]),
            Part::Repr => words.extend([3, 0]),
        }
    }
    (words, texts)
}

/// The format text: braces doubled, `{}` for none and str, `{!r}` for repr.
pub fn format(parts: &[Part]) -> Vec<u8> {
    let mut text = Vec::new();
    for part in parts {
        match part {
            Part::Text(bytes) => {
                for &byte in bytes {
                    text.push(byte);
                    let once = planted(Fault::BraceOnce) && byte == b'}';
                    if matches!(byte, b'{' | b'}') && !once {
                        text.push(byte);
                    }
                }
            }
            Part::Str if planted(Fault::StrIsRepr) => text.extend(b"{!s}"),
            Part::None | Part::Str => text.extend(b"{}"),
            Part::Repr => text.extend(b"{!r}"),
        }
    }
    text
}

/// Neighbouring texts joined, empty ones dropped, str as none.
pub fn normal(parts: &[Part]) -> Vec<Part> {
    let mut found: Vec<Part> = Vec::new();
    for part in parts {
        match (found.last_mut(), part) {
            (_, Part::Text(text)) if text.is_empty() && !planted(Fault::EmptyTextKept) => {}
            (Some(Part::Text(last)), Part::Text(text)) => last.extend_from_slice(text),
            (_, Part::Str) => found.push(Part::None),
            (_, part) => found.push(part.clone()),
        }
    }
    found
}

/// The parts of a format text, or the position of the first brace that starts none of the four forms.
pub fn parts_in(text: &[u8]) -> Result<Vec<Part>, usize> {
    let (mut parts, mut at) = (Vec::new(), 0);
    while at < text.len() {
        let rest = &text[at..];
        let (part, width) = if rest.starts_with(b"{{") || rest.starts_with(b"}}") {
            (Part::Text(rest[..1].to_vec()), 2)
        } else if rest.starts_with(b"{}") {
            (Part::None, 2)
        } else if rest.starts_with(b"{!r}") {
            (if planted(Fault::ReprReadAsNone) { Part::None } else { Part::Repr }, 4)
        } else if matches!(rest[0], b'{' | b'}') {
            return Err(at + usize::from(planted(Fault::StrayOneBehind)));
        } else {
            (Part::Text(rest[..1].to_vec()), 1)
        };
        if planted(Fault::EmptyTextKept) && !matches!(part, Part::Text(_)) {
            parts.push(Part::Text(Vec::new()));
        }
        parts.push(part);
        at += width;
    }
    Ok(if planted(Fault::TextsNotJoined) { parts } else { normal(&parts) })
}

/// The writer: 5, 64, then 7 for a buffer of the given number of bytes.
pub fn write(words: &[u32], texts: &[u8], dialect: &[u8], room: usize) -> Result<Answer, Refusal> {
    let dialect = dialect::from_bytes(dialect)?;
    let short = Refusal::bare(number::SHORT_BUFFER);
    if planted(Fault::FormatShortFirst) && room < texts.len() {
        return Err(short);
    }
    let text = format(&parts_of(words, texts)?);
    if room < text.len() {
        return Err(short);
    }
    let enabled = if planted(Fault::NoticeOfTypes) { dialect.types != 0 } else { dialect.f_strings };
    if planted(Fault::NoticeRefuses) && !enabled {
        return Err(Refusal::bare(number::F_STRINGS_DISABLED));
    }
    let notice = if enabled { 0 } else { number::F_STRINGS_DISABLED };
    let words = [&two_words(text.len())[..], &[notice]].concat();
    Ok(Answer { file: text, notice, ..Answer::accepted(words) })
}

/// The reader, into the given number of words and bytes: 63 with its position, then 7.
pub fn read(text: &[u8], words_room: usize, texts_room: usize) -> Answer {
    let short = || Answer::from(Refusal::bare(number::SHORT_BUFFER));
    if planted(Fault::ShortBeforeStray) && words_room < 2 {
        return short();
    }
    match parts_in(text) {
        Err(at) => Answer { number: number::STRAY_BRACE, words: two_words(at).to_vec(), ..Answer::default() },
        Ok(parts) => {
            let (list, names) = words_of(&parts);
            let words = if planted(Fault::OddWordIsRoom) { words_room + 1 } else { words_room };
            if words < list.len() || texts_room < names.len() {
                return short();
            }
            let counts = [two_words(parts.len()), two_words(names.len())].concat();
            Answer { list: list[..list.len().min(words_room)].to_vec(), names, ..Answer::accepted(counts) }
        }
    }
}
