//! Format texts: the port's writer and reader against a plain Rust loop that makes a String of the same parts, and a plain Rust reader.

use std::hint::black_box;

use model::dialect::ALL_OPTIONS_INTERNAL;
use starlark_checks_raw::starlark_fstring_read;
use starlark_checks_raw::starlark_fstring_write;
use starlark_checks_raw::Words;

use crate::cases::PLAIN;
use crate::cases::PORT;
use crate::measure::Route;

/// A part as a Rust program has it.
#[derive(Clone, Debug, PartialEq, Eq)]
pub enum Part {
    Text(String),
    None,
    Str,
    Repr,
}

/// What a format text is made of, and how its parts begin.
pub const SHAPES: [(&str, fn(usize) -> Vec<Part>); 4] = [
    ("text and expressions", |number| {
        let text = ["the train ", " leaves {gate} at ", " on track: "][number % 3];
        vec![Part::Text(text.to_owned()), [Part::None, Part::Repr, Part::Str][number % 3].clone()]
    }),
    ("text", |_| vec![Part::Text("a train ".to_owned())]),
    ("braces", |_| vec![Part::Text("{}".to_owned())]),
    ("expressions", |number| vec![[Part::None, Part::Repr][number % 2].clone()]),
];

/// The loop of fstring_from_parts, without its expressions.
fn write(parts: &[Part]) -> String {
    let mut format = String::new();
    for part in parts {
        match part {
            Part::Text(text) => {
                for c in text.chars() {
                    match c {
                        '{' => format.push_str("{{"),
                        '}' => format.push_str("}}"),
                        _ => format.push(c),
                    }
                }
            }
            Part::None | Part::Str => format.push_str("{}"),
            Part::Repr => format.push_str("{!r}"),
        }
    }
    format
}

/// The parts of a format text, or the position of the first brace that starts none of the four forms.
fn read(text: &str) -> Result<Vec<Part>, usize> {
    let bytes = text.as_bytes();
    let (mut parts, mut open, mut at) = (Vec::new(), Vec::new(), 0);
    let close = |open: &mut Vec<u8>, parts: &mut Vec<Part>| {
        if !open.is_empty() {
            let text = String::from_utf8(std::mem::take(open)).expect("whole characters");
            parts.push(Part::Text(text));
        }
    };
    while at < bytes.len() {
        match (bytes[at], bytes.get(at + 1)) {
            (b'{', Some(b'{')) | (b'}', Some(b'}')) => {
                open.push(bytes[at]);
                at += 2;
            }
            (b'{', Some(b'}')) => {
                close(&mut open, &mut parts);
                parts.push(Part::None);
                at += 2;
            }
            (b'{', Some(b'!')) if bytes[at..].starts_with(b"{!r}") => {
                close(&mut open, &mut parts);
                parts.push(Part::Repr);
                at += 4;
            }
            (b'{' | b'}', _) => return Err(at),
            (byte, _) => {
                open.push(byte);
                at += 1;
            }
        }
    }
    close(&mut open, &mut parts);
    Ok(parts)
}

/// Parts of a shape, until their format text has at least `bytes` bytes; neighbouring texts are one part.
pub fn parts(shape: fn(usize) -> Vec<Part>, bytes: usize) -> Vec<Part> {
    let mut found: Vec<Part> = Vec::new();
    for number in 0.. {
        if write(&found).len() >= bytes {
            break;
        }
        for part in shape(number) {
            match (found.last_mut(), part) {
                (Some(Part::Text(last)), Part::Text(text)) => last.push_str(&text),
                (_, part) => found.push(part),
            }
        }
    }
    found
}

/// The words and the texts of parts.
fn lent(parts: &[Part]) -> (Vec<u32>, Vec<u8>) {
    let (mut words, mut texts) = (Vec::new(), Vec::new());
    for part in parts {
        match part {
            Part::Text(text) => {
                words.extend([0, text.len() as u32]);
                texts.extend_from_slice(text.as_bytes());
            }
            Part::None => words.extend([1, 0]),
            Part::Str => words.extend([2, 0]),
            Part::Repr => words.extend([3, 0]),
        }
    }
    (words, texts)
}

pub fn written(parts: Vec<Part>) -> Vec<Route<'static>> {
    let (words, texts) = lent(&parts);
    let expected = write(&parts);
    let (mut text, mut out): (Vec<u8>, Words) = (vec![0; expected.len()], [0; 12]);
    let mut port = move || {
        let (words, texts, dialect) = black_box((&words, &texts, &ALL_OPTIONS_INTERNAL));
        let (start, length) = (text.as_mut_ptr(), text.len());
        // Each pointer is to memory of the length beside it, and no two of them overlap.
        let number = unsafe {
            starlark_fstring_write(words.as_ptr(), words.len(), texts.as_ptr(), texts.len(), dialect.as_ptr(), dialect.len(), start, length, &mut out)
        };
        (number, black_box(&text).as_ptr())
    };
    let (number, start) = port();
    assert_eq!(number, 0, "the text is written");
    // The buffer lives as long as the route.
    let text = unsafe { std::slice::from_raw_parts(start, expected.len()) };
    assert_eq!(text, expected.as_bytes(), "the port writes the text that the loop makes");
    vec![Route::new(PORT, move || port().0), Route::new(PLAIN, move || write(black_box(&parts)))]
}

pub fn read_back(parts: Vec<Part>) -> Vec<Route<'static>> {
    let text = write(&parts);
    let found = read(&text).expect("a format text");
    let (mut words, mut texts, mut out): (Vec<u32>, Vec<u8>, Words) = (vec![0; 2 * found.len()], vec![0; text.len()], [0; 12]);
    let bytes = text.clone().into_bytes();
    let expected = lent(&found).0;
    let mut port = move || {
        let text = black_box(&bytes);
        let (w, wl, t, tl) = (words.as_mut_ptr(), words.len(), texts.as_mut_ptr(), texts.len());
        // Each pointer is to memory of the length beside it, and no two of them overlap.
        let number = unsafe { starlark_fstring_read(text.as_ptr(), text.len(), w, wl, t, tl, &mut out) };
        (number, black_box(&words).as_ptr())
    };
    let (number, start) = port();
    assert_eq!(number, 0, "the text is read");
    // The buffer lives as long as the route.
    let read_words = unsafe { std::slice::from_raw_parts(start, expected.len()) };
    assert_eq!(read_words, expected, "the port reads the parts that the plain reader reads");
    vec![Route::new(PORT, move || port().0), Route::new(PLAIN, move || read(black_box(&text)))]
}
