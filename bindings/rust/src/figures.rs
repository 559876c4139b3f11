//! Figures: counts over the table files of one input, one after another.
//!
//! An empty input holds no file. Bytes after a file's last block begin the next file. A file that is refused ends the report: the files before it are
//! counted, and the report has its number and the position of its first byte.
//!
//! ```
//! use starlark_checks::{figures, Kind, Number, Table, FILE_BYTES};
//!
//! // a Break outside a loop
//! let mut nodes = [0; 24];
//! (nodes[0], nodes[16], nodes[18]) = (Kind::Break.into(), 1, 1);
//! let mut file = [0; FILE_BYTES];
//! let length = Table { nodes: &nodes, names: &[] }.write(&[], None, &mut file)?;
//! let input = [&file[..length], &file[..length], &[0]].concat();
//! let report = figures::report(&input);
//! assert_eq!((report.figures.files, report.figures.error(Number::BreakMisplaced)), (2, Some(2)));
//! assert_eq!(report.refused, Some(figures::RefusedAt { number: Number::BlockShort, position: 2 * length as u64 }));
//!
//! // the same, step by step: a window of figures::WINDOW_BYTES bytes is enough, or all that are left
//! let (mut counts, mut left) = (figures::Figures::default(), &input[..]);
//! while let Ok(taken) = figures::step(left, &mut counts) {
//!     left = &left[taken..];
//! }
//! assert_eq!(counts, report.figures);
//! # Ok::<(), starlark_checks::Refused>(())
//! ```

use starlark_checks_raw::Counts;

use crate::interface;
use crate::Mode;
use crate::Number;
use crate::FIGURES;
use crate::WORDS;

pub use crate::WINDOW_BYTES;

/// The most files that are counted: one more is [`Number::TooManyFiles`].
pub const MOST_FILES: u64 = 4_294_967_295;

const MODES: usize = 5;
const ERRORS: usize = 22;

/// The counts.
#[derive(Clone, Copy, Debug, Default, PartialEq, Eq)]
pub struct Figures {
    pub files: u64,
    pub nodes: u64,
    /// Parameter lists: every Def and every Lambda.
    pub lists: u64,
    /// By mode the parameters of the lists that are accepted, marks omitted: see [`Figures::mode`].
    pub modes: [u64; MODES],
    pub calls_accepted: u64,
    pub calls_refused: u64,
    /// The errors of the module pass by number: 10 to 19, then 50 to 61. See [`Figures::error`].
    pub errors: [u64; ERRORS],
}

impl Figures {
    /// The number of parameters of a mode in the lists that are accepted.
    pub fn mode(&self, mode: Mode) -> u64 {
        self.modes[mode as usize - 1]
    }

    /// How often the module pass gives a number; None for a number that it never gives.
    pub fn error(&self, number: Number) -> Option<u64> {
        let place = match number as usize {
            number @ 10..=19 => number - 10,
            number @ 50..=61 => number - 40,
            _ => return None,
        };
        Some(self.errors[place])
    }

    fn of(counts: &Counts) -> Figures {
        let [files, nodes, lists, ..] = *counts;
        let (modes, errors) = (&counts[3..8], &counts[10..FIGURES]);
        Figures {
            files,
            nodes,
            lists,
            modes: modes.try_into().expect("five modes"),
            calls_accepted: counts[8],
            calls_refused: counts[9],
            errors: errors.try_into().expect("22 numbers"),
        }
    }

    fn counts(&self) -> Counts {
        let mut counts = [0; FIGURES];
        counts[..3].copy_from_slice(&[self.files, self.nodes, self.lists]);
        counts[3..8].copy_from_slice(&self.modes);
        counts[8..10].copy_from_slice(&[self.calls_accepted, self.calls_refused]);
        counts[10..].copy_from_slice(&self.errors);
        counts
    }
}

/// The file that ended a report: why it is refused, and where it begins in the input.
#[derive(Clone, Copy, Debug, PartialEq, Eq)]
pub struct RefusedAt {
    pub number: Number,
    pub position: u64,
}

/// The figures of an input, up to the first file that is refused.
#[derive(Clone, Copy, Debug, PartialEq, Eq)]
pub struct Report {
    pub figures: Figures,
    pub refused: Option<RefusedAt>,
}

fn known(number: u32) -> Number {
    Number::try_from(number).expect("a call gives no other numbers")
}

/// The figures of the table files of an input: 76, 70 to 74, 3 to 5.
pub fn report(input: &[u8]) -> Report {
    let (mut counts, mut out) = ([0; FIGURES], [0; WORDS]);
    let refused = match interface::figures(input, &mut counts, &mut out) {
        0 => None,
        number => Some(RefusedAt { number: known(number), position: u64::from(out[0]) | u64::from(out[1]) << 32 }),
    };
    Report { figures: Figures::of(&counts), refused }
}

/// Adds the figures of the file at the front of a window, and returns how many bytes it takes: 0 where the window is empty. A refusal changes nothing.
/// Steps over an input give its report, if each sees [`WINDOW_BYTES`] bytes, or all that are left.
pub fn step(window: &[u8], figures: &mut Figures) -> Result<usize, Number> {
    let (mut counts, mut out) = (figures.counts(), [0; WORDS]);
    match interface::figures_step(window, &mut counts, &mut out) {
        0 => {
            *figures = Figures::of(&counts);
            Ok(out[0] as usize)
        }
        number => Err(known(number)),
    }
}
