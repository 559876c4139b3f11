//! Books: the dialect of a zone and a setting, as the zone book has it or, where it has no fitting entry, the line book.
//!
//! A book is 1 to 100 blocks of 512 bytes with 21 places each; docs/FORMAT.md, "Books", has the format.
//!
//! ```
//! use starlark_checks::{books, Number};
//!
//! let (mut zones, mut line) = ([0; 512], [0; 512]);
//! books::blank(&mut zones)?;
//! books::blank(&mut line)?;
//! let standard = [1, 1, 1, 0, 0, 0, 1, 0, 0];
//! books::add(&mut zones, &mut line, 7, 3, &standard)?;
//! assert_eq!(books::lookup(&zones, &line, 7, 5)?, &standard);
//! let none = books::lookup(&zones, &line, 7, 2).unwrap_err();
//! assert_eq!(none.number, Number::NoEntry);
//! # Ok::<(), books::Refused>(())
//! ```

use std::error;
use std::fmt;

use crate::interface;
use crate::Number;
use crate::Words;
use crate::DIALECT_BYTES;
use crate::WORDS;

/// The most bytes of a book.
pub const BOOK_BYTES: usize = 51_200;

/// One of the two books.
#[derive(Clone, Copy, Debug, PartialEq, Eq)]
pub enum Book {
    Zone,
    Line,
}

/// Why a book or an entry is refused: 95 to 98, and the book where the number carries it.
#[derive(Clone, Copy, Debug, PartialEq, Eq)]
pub struct Refused {
    pub number: Number,
    pub book: Option<Book>,
}

/// Where an entry was written or removed: the book, and the place in it, from 0 on, 21 a block.
#[derive(Clone, Copy, Debug, PartialEq, Eq)]
pub struct Placed {
    pub book: Book,
    pub place: u32,
}

fn book(word: u32) -> Book {
    if word == 0 { Book::Zone } else { Book::Line }
}

/// The words of a call that accepts.
fn accepted(job: impl FnOnce(&mut Words) -> u32, carries: bool) -> Result<Words, Refused> {
    let mut out = [0; WORDS];
    match job(&mut out) {
        0 => Ok(out),
        number => {
            let book = (carries && number <= 96).then(|| book(out[0]));
            Err(Refused { number: Number::try_from(number).expect("a call gives no other numbers"), book })
        }
    }
}

/// The nine dialect bytes of a zone at a setting, a part of their book: 95, 96, 97. Both books are always checked.
pub fn lookup<'a>(zone_book: &'a [u8], line_book: &'a [u8], zone: u32, setting: u32) -> Result<&'a [u8; DIALECT_BYTES], Refused> {
    let out = accepted(|out| interface::book_lookup(zone_book, line_book, zone, setting, out), true)?;
    let (found, at) = (if out[0] == 0 { zone_book } else { line_book }, out[1] as usize);
    Ok(found[at..at + DIALECT_BYTES].try_into().expect("nine bytes"))
}

/// Adds an entry to its book, zone 0 to the line book, at the first empty place: 95, 96, 98.
pub fn add(zone_book: &mut [u8], line_book: &mut [u8], zone: u32, setting: u32, dialect: &[u8]) -> Result<Placed, Refused> {
    let out = accepted(|out| interface::book_add(zone_book, line_book, zone, setting, dialect, out), true)?;
    Ok(Placed { book: book(out[0]), place: out[1] })
}

/// Removes the entry of exactly this zone and setting from its book: 95, 96, 97.
pub fn remove(zone_book: &mut [u8], line_book: &mut [u8], zone: u32, setting: u32) -> Result<Placed, Refused> {
    let out = accepted(|out| interface::book_remove(zone_book, line_book, zone, setting, out), true)?;
    Ok(Placed { book: book(out[0]), place: out[1] })
}

/// Makes a book of empty places of a buffer of 1 to 100 blocks of 512 bytes: 95.
pub fn blank(book: &mut [u8]) -> Result<(), Refused> {
    accepted(|out| interface::book_blank(book, out), false).map(|_| ())
}

impl fmt::Display for Refused {
    fn fmt(&self, f: &mut fmt::Formatter) -> fmt::Result {
        let book = match self.book {
            Some(Book::Zone) => ", zone book",
            Some(Book::Line) => ", line book",
            None => "",
        };
        write!(f, "{}{book}", self.number)
    }
}

impl error::Error for Refused {}
