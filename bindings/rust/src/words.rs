//! Numbers and kinds as Rust enums: conversions from and to the numbers in a table or a list, and words.

use std::error::Error;
use std::fmt;

use crate::made::KINDS;
use crate::made::MODES;
use crate::made::NUMBERS;
use crate::made::SHAPES;
use crate::At;
use crate::Edition;
use crate::Kind;
use crate::Mode;
use crate::Number;
use crate::Refused;
use crate::Shape;

/// The class of a record.
#[derive(Clone, Copy, Debug, PartialEq, Eq, PartialOrd, Ord, Hash)]
pub enum Class {
    Statement,
    Expression,
    Parameter,
    Argument,
}

/// A word that is none of the numbers given back.
#[derive(Clone, Copy, Debug, PartialEq, Eq)]
pub struct UnknownNumber(pub u32);

/// A byte that is not a kind of records.
#[derive(Clone, Copy, Debug, PartialEq, Eq)]
pub struct UnknownKind(pub u8);

/// A byte that is not a mode of a parameter.
#[derive(Clone, Copy, Debug, PartialEq, Eq)]
pub struct UnknownMode(pub u8);

/// A number that is not an edition of the type rules.
#[derive(Clone, Copy, Debug, PartialEq, Eq)]
pub struct UnknownEdition(pub u32);

/// A byte that is not a shape of a type.
#[derive(Clone, Copy, Debug, PartialEq, Eq)]
pub struct UnknownShape(pub u8);

impl Number {
    fn row(self) -> (&'static str, &'static str) {
        let row = NUMBERS.iter().find(|row| row.0 == self).expect("every number has a row");
        (row.1, row.2)
    }

    /// The name that docs/numbers.tsv has.
    pub fn name(self) -> &'static str {
        self.row().0
    }

    /// What it means, in the words of docs/numbers.tsv.
    pub fn words(self) -> &'static str {
        self.row().1
    }
}

impl From<Number> for u32 {
    fn from(number: Number) -> u32 {
        number as u32
    }
}

/// A word of a list of errors, or what a job of the C interface returns. 0 is not a number: it means accepted.
///
/// ```
/// use starlark_checks::{Number, UnknownNumber};
/// assert_eq!(Number::try_from(55), Ok(Number::BreakMisplaced));
/// assert_eq!(u32::from(Number::BreakMisplaced), 55);
/// assert_eq!(Number::BreakMisplaced.to_string(), "55: `break` is outside a `for` loop");
/// assert_eq!(Number::try_from(0), Err(UnknownNumber(0)));
/// ```
impl TryFrom<u32> for Number {
    type Error = UnknownNumber;

    fn try_from(word: u32) -> Result<Number, UnknownNumber> {
        NUMBERS.iter().map(|row| row.0).find(|&number| number as u32 == word).ok_or(UnknownNumber(word))
    }
}

/// The number and what it means.
impl fmt::Display for Number {
    fn fmt(&self, f: &mut fmt::Formatter) -> fmt::Result {
        write!(f, "{}: {}", *self as u32, self.words())
    }
}

impl Kind {
    fn row(self) -> (&'static str, Class) {
        let row = KINDS.iter().find(|row| row.0 == self).expect("every kind has a row");
        (row.1, row.2)
    }

    /// The name that docs/kinds.tsv has.
    pub fn name(self) -> &'static str {
        self.row().0
    }

    /// Whether it is a statement, an expression, a parameter or an argument.
    pub fn class(self) -> Class {
        self.row().1
    }
}

impl From<Kind> for u8 {
    fn from(kind: Kind) -> u8 {
        kind as u8
    }
}

/// Byte 0 of a record.
///
/// ```
/// use starlark_checks::{Class, Kind, UnknownKind};
/// assert_eq!(Kind::try_from(2), Ok(Kind::Def));
/// assert_eq!(Kind::Def.class(), Class::Statement);
/// assert_eq!(Kind::try_from(13), Err(UnknownKind(13)));
/// ```
impl TryFrom<u8> for Kind {
    type Error = UnknownKind;

    fn try_from(byte: u8) -> Result<Kind, UnknownKind> {
        KINDS.iter().map(|row| row.0).find(|&kind| kind as u8 == byte).ok_or(UnknownKind(byte))
    }
}

impl fmt::Display for Kind {
    fn fmt(&self, f: &mut fmt::Formatter) -> fmt::Result {
        f.write_str(self.name())
    }
}

/// A byte of a mode buffer.
///
/// ```
/// use starlark_checks::{Mode, UnknownMode};
/// assert_eq!(Mode::try_from(3), Ok(Mode::NameOnly));
/// assert_eq!(Mode::try_from(0), Err(UnknownMode(0)));
/// ```
impl TryFrom<u8> for Mode {
    type Error = UnknownMode;

    fn try_from(byte: u8) -> Result<Mode, UnknownMode> {
        MODES.into_iter().find(|&mode| mode as u8 == byte).ok_or(UnknownMode(byte))
    }
}

/// A byte of a shape buffer.
///
/// ```
/// use starlark_checks::{Shape, UnknownShape};
/// assert_eq!(Shape::try_from(6), Ok(Shape::Union));
/// assert_eq!(Shape::try_from(8), Err(UnknownShape(8)));
/// ```
impl TryFrom<u8> for Shape {
    type Error = UnknownShape;

    fn try_from(byte: u8) -> Result<Shape, UnknownShape> {
        SHAPES.into_iter().find(|&shape| shape as u8 == byte).ok_or(UnknownShape(byte))
    }
}

impl From<Edition> for u32 {
    fn from(edition: Edition) -> u32 {
        edition as u32
    }
}

/// A word of the C interface, or the byte of a table file.
impl TryFrom<u32> for Edition {
    type Error = UnknownEdition;

    fn try_from(word: u32) -> Result<Edition, UnknownEdition> {
        [Edition::One, Edition::Two].into_iter().find(|&edition| edition as u32 == word).ok_or(UnknownEdition(word))
    }
}

impl fmt::Display for UnknownEdition {
    fn fmt(&self, f: &mut fmt::Formatter) -> fmt::Result {
        write!(f, "{} is not an edition of the type rules", self.0)
    }
}

impl fmt::Display for UnknownMode {
    fn fmt(&self, f: &mut fmt::Formatter) -> fmt::Result {
        write!(f, "{} is not a mode of a parameter", self.0)
    }
}

impl fmt::Display for UnknownShape {
    fn fmt(&self, f: &mut fmt::Formatter) -> fmt::Result {
        write!(f, "{} is not a shape of a type", self.0)
    }
}

impl fmt::Display for UnknownNumber {
    fn fmt(&self, f: &mut fmt::Formatter) -> fmt::Result {
        write!(f, "{} is none of the numbers given back", self.0)
    }
}

impl fmt::Display for UnknownKind {
    fn fmt(&self, f: &mut fmt::Formatter) -> fmt::Result {
        write!(f, "{} is not a kind of records", self.0)
    }
}

/// As `11: a parameter has the name of an earlier one (node 3, file 1, bytes 30 to 37; the name is used first at node 1)`.
impl fmt::Display for Refused {
    fn fmt(&self, f: &mut fmt::Formatter) -> fmt::Result {
        write!(f, "{}", self.number)?;
        match self.at {
            At::Nowhere => Ok(()),
            At::Position(at) => write!(f, " (byte {at})"),
            At::Node(node) => write!(f, " (node {node})"),
            At::Span { node, file, begin, end, earlier: None } => write!(f, " (node {node}, file {file}, bytes {begin} to {end})"),
            At::Span { node, file, begin, end, earlier: Some(first) } => {
                write!(f, " (node {node}, file {file}, bytes {begin} to {end}; the name is used first at node {first})")
            }
        }
    }
}

impl Error for Refused {}

impl Error for UnknownNumber {}

impl Error for UnknownKind {}

impl Error for UnknownEdition {}

impl Error for UnknownMode {}

impl Error for UnknownShape {}
