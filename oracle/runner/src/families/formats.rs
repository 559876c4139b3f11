//! Format texts: parts written and read back, texts read and written back, broken parts and stray braces.

use model::dialect;
use model::dialect::ALL_OPTIONS_INTERNAL;
use model::dialect::EXTENDED;
use model::dialect::STANDARD;
use model::fstring;
use model::fstring::Part;
use model::jobs;

use super::Plan;
use crate::checker::Checker;
use crate::port::Job;
use crate::port::Request;
use crate::rng::Rng;

/// Room for words and for bytes that no text here needs.
const AMPLE: usize = 64;

fn write(checker: &mut Checker, words: &[u32], texts: &[u8], dialect: &[u8], room: usize) {
    checker.check(&Request { table: texts, names: &[], job: Job::FstringWrite { parts: words, dialect, text: room } });
}

fn read(checker: &mut Checker, text: &[u8], words: usize, texts: usize) {
    checker.check(&Request { table: text, names: &[], job: Job::FstringRead { parts: words, texts } });
}

/// Answers given by hand: parts as words, texts, the dialect, room, and the number with the text or none.
pub fn corners(checker: &mut Checker, _: &Plan) {
    let on = &ALL_OPTIONS_INTERNAL[..];
    let written: &[(&[u32], &[u8], &[u8], usize, u32, &[u8])] = &[
        (&[], b"", on, 0, 0, b""),
        (&[], b"", &[], 0, 62, b""),
        (&[0, 0], b"", on, 0, 0, b""),
        (&[0, 1, 2, 0, 0, 0, 0, 1], b"{}", on, 6, 0, b"{{{}}}"),
        (&[0, 1, 2, 0, 0, 0, 0, 1], b"{}", on, 5, 7, b""),
        (&[3, 0], b"", &STANDARD, 4, 62, b"{!r}"),
        (&[3, 0], b"", &STANDARD, 3, 7, b""),
        (&[1, 0], b"", &EXTENDED, 9, 62, b"{}"),
        (&[1, 1], b"", on, 0, 64, b""),
        (&[4, 0], b"", on, 9, 64, b""),
        (&[0x1_0000, 0], b"", on, 9, 64, b""),
        (&[u32::MAX, 0], b"", on, 9, 64, b""),
        (&[0], b"", on, 9, 64, b""),
        (&[1, 0, 0], b"", on, 9, 64, b""),
        (&[0, 1], b"", on, 9, 64, b""),
        (&[0, 1], b"ab", on, 9, 64, b""),
        (&[0, u32::MAX, 0, 1], b"", on, 0, 64, b""),
        (&[0, u32::MAX, 0, 2], b"a", on, 9, 64, b""),
        (&[0, u32::MAX, 0, u32::MAX, 0, 2], b"", on, 9, 64, b""),
        (&[0, 1], b"ab", &[1; 8], 0, 5, b""),
        (&[0, 1], b"a", &[9; 9], 0, 5, b""),
    ];
    for &(words, texts, dialect, room, number, text) in written {
        let answer = jobs::fstring_write(words, texts, dialect, room);
        let told = if number == 62 { answer.number == 0 && answer.notice == 62 } else { answer.number == number && answer.notice == 0 };
        checker.note(told && answer.file == text, || format!("the model writes {answer:?}, by hand it is {number} {text:?}: {words:?} {texts:?}"));
        write(checker, words, texts, dialect, room);
    }
    let stray: &[(&[u8], usize)] = &[
        (b"{{}", 2),
        (b"{}}", 2),
        (b"{!s}", 0),
        (b"{a}", 0),
        (b"a{!r", 1),
        (b"{!r", 0),
        (b"{", 0),
        (b"}", 0),
        (b"{{{", 2),
        (b"}}}", 2),
        (b"{!r}}", 4),
        (b"{ }", 0),
        (b"{0}", 0),
        (b"a{}b{!r}c}", 9),
    ];
    for &(text, at) in stray {
        let found = fstring::parts_in(text);
        checker.note(found == Err(at), || format!("the model reads {found:?}, by hand it is 63 at {at}: {text:?}"));
        (0..=4).for_each(|room| read(checker, text, room, room));
    }
    let text = |bytes: &[u8]| Part::Text(bytes.to_vec());
    let read_as: &[(&[u8], Vec<Part>)] = &[
        (b"", vec![]),
        (b"a{}b{!r}", vec![text(b"a"), Part::None, text(b"b"), Part::Repr]),
        (b"{{a}}{}{{", vec![text(b"{a}"), Part::None, text(b"{")]),
        (b"{{!r}}", vec![text(b"{!r}")]),
        (b"{}{}", vec![Part::None, Part::None]),
    ];
    for (text, parts) in read_as {
        let found = fstring::parts_in(text);
        checker.note(found.as_ref() == Ok(parts), || format!("the model reads {found:?}, by hand it is {parts:?}: {text:?}"));
        let (words, texts) = fstring::words_of(parts);
        for room in 0..=words.len() + 2 {
            (0..=texts.len() + 1).for_each(|bytes| read(checker, text, room, bytes));
        }
    }
}

/// A text read with room and just enough, a word, two words and a byte short; what is read, written back.
fn text_and_back(checker: &mut Checker, text: &[u8], dialect: &[u8]) {
    read(checker, text, AMPLE + 2 * text.len(), AMPLE + text.len());
    let Ok(parts) = fstring::parts_in(text) else { return };
    let (words, texts) = fstring::words_of(&parts);
    read(checker, text, words.len(), texts.len());
    if !words.is_empty() {
        read(checker, text, words.len() - 1, texts.len());
        read(checker, text, words.len() + 1, texts.len());
    }
    if !texts.is_empty() {
        read(checker, text, words.len(), texts.len() - 1);
    }
    write(checker, &words, &texts, dialect, text.len());
    checker.note(fstring::format(&parts) == text, || format!("read and written back, {text:?} is another text"));
}

/// Parts written with room, just enough and a byte short; what is written, read back as the normal form.
fn parts_and_back(checker: &mut Checker, parts: &[Part], dialect: &[u8]) {
    let (words, texts) = fstring::words_of(parts);
    let text = fstring::format(parts);
    for room in [text.len(), text.len() + 3, text.len().saturating_sub(1)] {
        write(checker, &words, &texts, dialect, room);
    }
    read(checker, &text, words.len(), texts.len());
    let back = fstring::parts_in(&text);
    checker.note(back.as_ref() == Ok(&fstring::normal(parts)), || format!("{parts:?} reads back as {back:?}"));
}

/// All texts of up to eight bytes (long: nine) over the four bytes of forms and one that is none.
pub fn texts(checker: &mut Checker, plan: &Plan) {
    let most = if plan.is_long() { 9 } else { 8 };
    let dialects = dialect::all();
    let mut number = 0_u64;
    for length in 0..=most {
        for code in 0..5_usize.pow(length) {
            number += 1;
            if plan.has(number) && !checker.is_done() {
                let text: Vec<u8> = (0..length).map(|at| b"{}!ra"[code / 5_usize.pow(at) % 5]).collect();
                text_and_back(checker, &text, &dialects[number as usize % dialects.len()]);
            }
        }
    }
}

/// All lists of up to five parts over short texts; of two of them each is half of a character. All lists of up to four words of a few values, with
/// up to three text bytes.
pub fn lists(checker: &mut Checker, plan: &Plan) {
    let texts: [&[u8]; 7] = [b"", b"a", b"{", b"}", b"r}", b"\xc3", b"\xa9"];
    let mut each: Vec<Part> = texts.iter().map(|text| Part::Text(text.to_vec())).collect();
    each.extend([Part::None, Part::Str, Part::Repr]);
    let dialects = dialect::all();
    let mut number = 0_u64;
    for length in 0..=5 {
        for code in 0..each.len().pow(length) {
            number += 1;
            if plan.has(number) && !checker.is_done() {
                let parts: Vec<Part> = (0..length).map(|at| each[code / each.len().pow(at) % each.len()].clone()).collect();
                parts_and_back(checker, &parts, &dialects[number as usize % dialects.len()]);
            }
        }
    }
    let values = [0, 1, 2, 3, 4, 0x1_0000, u32::MAX];
    for length in 0..=4_u32 {
        for code in 0..values.len().pow(length) {
            number += 1;
            if plan.has(number) && !checker.is_done() {
                let words: Vec<u32> = (0..length).map(|at| values[code / values.len().pow(at) % values.len()]).collect();
                for bytes in 0..=3 {
                    let dialect = &dialects[number as usize % dialects.len()];
                    (0..=1).for_each(|few| write(checker, &words, &b"a{}"[..bytes], dialect, 24 * few));
                }
            }
        }
    }
}

/// Long texts and lists: of text and forms, of any bytes, and with a stray brace; in rooms of any size and in bad dialects.
pub fn random(checker: &mut Checker, plan: &Plan) {
    let dialects = dialect::all();
    let mut rng = plan.rng(31);
    for _ in 0..plan.share(20_000) {
        if checker.is_done() {
            return;
        }
        let kinds = if rng.once_in(2) { 5 } else { 6 };
        let parts: Vec<Part> = (0..rng.below(60)).map(|_| random_part(&mut rng, kinds)).collect();
        let dialect = &dialects[rng.below(dialects.len())];
        parts_and_back(checker, &parts, dialect);
        let (mut words, texts) = fstring::words_of(&parts);
        let mut text = fstring::format(&parts);
        let room = rng.below(2 * text.len() + 2);
        let bad = [dialect.as_slice(), &[3]].concat();
        write(checker, &words, &texts, if rng.once_in(4) { &bad } else { dialect }, room);
        if !words.is_empty() {
            let at = rng.below(words.len());
            words[at] = rng.pick(&[0, 1, 2, 3, 4, words[at] + 1, u32::MAX]);
            write(checker, &words, &texts, dialect, room);
        }
        let at = rng.below(text.len() + 1);
        text.insert(at, rng.pick(b"{}!ra\xff"));
        text_and_back(checker, &text, dialect);
        let (some_words, some_bytes) = (rng.below(2 * parts.len() + 3), rng.below(texts.len() + 3));
        read(checker, &text, some_words, some_bytes);
    }
}

/// One of a number of kinds of parts; the sixth is a text that need not be UTF-8.
fn random_part(rng: &mut Rng, kinds: usize) -> Part {
    match rng.below(kinds) {
        0 => Part::None,
        1 => Part::Str,
        2 => Part::Repr,
        5 => Part::Text((0..rng.below(40)).map(|_| rng.below(256) as u8).collect()),
        _ => {
            let any = ["a", "{", "}", "r", "!", "é", "train ", "駅"];
            Part::Text((0..rng.below(30)).flat_map(|_| rng.pick(&any).as_bytes().to_vec()).collect())
        }
    }
}
