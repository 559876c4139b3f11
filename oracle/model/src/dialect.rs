//! The dialect's nine bytes, the three named rows, and the editions of the type rules (W-212).

use crate::answer::Refusal;
use crate::answer::NONE;
use crate::numbers::number;
use crate::planted::planted;
use crate::planted::Fault;

pub const BYTES: usize = 9;

pub const STANDARD: [u8; BYTES] = [1, 1, 1, 0, 0, 0, 1, 0, 0];
pub const EXTENDED: [u8; BYTES] = [1, 1, 1, 1, 0, 2, 1, 1, 0];
pub const ALL_OPTIONS_INTERNAL: [u8; BYTES] = [1, 1, 1, 1, 1, 2, 1, 1, 1];

/// Where `enable_types` is: it has three values, the others two.
pub const TYPES_AT: usize = 5;

#[derive(Clone, Copy, Debug, PartialEq, Eq)]
pub struct Dialect {
    pub def: bool,
    pub lambda: bool,
    pub load: bool,
    pub keyword_only: bool,
    pub positional_only: bool,
    pub types: u8,
    pub load_reexport: bool,
    pub top_level_stmt: bool,
    pub f_strings: bool,
}

impl Dialect {
    pub fn types_disabled(&self) -> bool {
        self.types == 0
    }

    fn of(row: &[u8; BYTES]) -> Dialect {
        let on = |at: usize| row[at] == 1;
        Dialect {
            def: on(0),
            lambda: on(1),
            load: on(2),
            keyword_only: on(3),
            positional_only: on(4),
            types: row[TYPES_AT],
            load_reexport: on(6),
            top_level_stmt: on(7),
            f_strings: on(8),
        }
    }
}

/// No bytes is Extended (W-207); nine good bytes are themselves; all else is 5.
pub fn from_bytes(bytes: &[u8]) -> Result<Dialect, Refusal> {
    if bytes.is_empty() {
        return Ok(Dialect::of(&row_of_none()));
    }
    let refused = Refusal::bare(number::DIALECT);
    let row: &[u8; BYTES] = bytes.try_into().map_err(|_| refused.clone())?;
    let good = |(at, byte): (usize, &u8)| *byte <= most(at);
    if row.iter().enumerate().all(good) { Ok(Dialect::of(row)) } else { Err(refused) }
}

/// An edition of the type rules.
#[derive(Clone, Copy, Debug, PartialEq, Eq)]
pub enum Edition {
    One,
    Two,
}

/// The edition of a number that a job is given: 1 or 2, all else is 5.
pub fn edition(number: u32) -> Result<Edition, Refusal> {
    let number = if planted(Fault::EditionIn8Bits) { number & 255 } else { number };
    match number {
        1 => Ok(Edition::One),
        2 => Ok(Edition::Two),
        0 if planted(Fault::EditionZeroIsOne) => Ok(Edition::One),
        NONE if planted(Fault::NoEditionIsOne) => Ok(Edition::One),
        _ => Err(Refusal::bare(number::DIALECT)),
    }
}

/// What a file says of it: no byte, or one byte after a dialect's nine.
pub fn edition_in_file(dialect: &[u8], byte: Option<u8>) -> Result<Edition, Refusal> {
    match byte {
        None => Ok(Edition::One),
        Some(_) if dialect.is_empty() && !planted(Fault::EditionWithoutDialect) => Err(Refusal::bare(number::DIALECT)),
        Some(byte) => edition(u32::from(byte)),
    }
}

fn row_of_none() -> [u8; BYTES] {
    if planted(Fault::EmptyDialectAllOptions) {
        ALL_OPTIONS_INTERNAL
    } else if planted(Fault::EmptyDialectStandard) {
        STANDARD
    } else {
        EXTENDED
    }
}

fn most(at: usize) -> u8 {
    if at == TYPES_AT || planted(Fault::DialectByteTwoAllowed) { 2 } else { 1 }
}

/// Every dialect: each byte's values in all combinations, and the empty one.
pub fn all() -> Vec<Vec<u8>> {
    let mut rows = vec![Vec::new()];
    for at in 0..BYTES {
        let values = if at == TYPES_AT { 3 } else { 2 };
        rows = rows
            .into_iter()
            .flat_map(|row: Vec<u8>| (0..values).map(move |value| [row.as_slice(), &[value]].concat()))
            .collect();
    }
    rows.push(Vec::new());
    rows
}
