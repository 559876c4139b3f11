//! The figures (W-214): counts over files that are joined into one input, from the answers of the other jobs.

use crate::answer::Answer;
use crate::file;
use crate::file::Contents;
use crate::jobs;
use crate::numbers::kind;
use crate::numbers::number;
use crate::planted::planted;
use crate::planted::Fault;
use crate::table::MOST_NODES;
use crate::table::RECORD_BYTES;

pub const COUNTS: usize = 32;
pub const MOST_FILES: u64 = 4_294_967_295;

/// Where each count is; the first mode, and the first errors of both rows.
pub const FILES: usize = 0;
pub const NODES: usize = 1;
pub const LISTS: usize = 2;
const MODES: usize = 3;
pub const ACCEPTED: usize = 8;
pub const REFUSED: usize = 9;

pub type Counts = [u64; COUNTS];

/// The place of an error's number.
pub fn place_of_error(number: u32) -> Option<usize> {
    match number {
        10..=19 => Some(number as usize),
        50..=61 => Some(number as usize - 30),
        _ => None,
    }
}

/// The counts of the modes of a list, by its bytes.
pub fn add_modes(counts: &mut Counts, modes: &[u8]) {
    modes.iter().for_each(|&mode| counts[MODES - 1 + usize::from(mode)] += 1);
}

/// What a file adds.
pub fn of_file(held: &Contents) -> Counts {
    let mut counts = [0; COUNTS];
    (counts[FILES], counts[NODES]) = (1, (held.table.len() / RECORD_BYTES) as u64);
    for (node, record) in held.table.chunks_exact(RECORD_BYTES).enumerate() {
        match record[0] {
            kind::LAMBDA if planted(Fault::FiguresLambdaUncounted) => {}
            kind::DEF | kind::LAMBDA => add_list(&mut counts, &jobs::params(&held.table, &held.names, node, MOST_NODES)),
            kind::CALL => add_call(&mut counts, &jobs::call(&held.table, &held.names, node)),
            _ => {}
        }
    }
    let errors = jobs::module(&held.table, &held.names, &held.dialect).errors;
    let most = if planted(Fault::FiguresErrorsThatFit) { 40 } else { errors.len() };
    errors.iter().take(most).filter_map(|error| place_of_error(error[0])).for_each(|place| counts[place] += 1);
    counts
}

fn add_list(counts: &mut Counts, answer: &Answer) {
    counts[LISTS] += 1;
    if answer.number == 0 {
        add_modes(counts, &answer.bytes);
    } else if planted(Fault::FiguresModesOfRefused) {
        counts[MODES + 1] += 1;
    }
}

fn add_call(counts: &mut Counts, answer: &Answer) {
    counts[if answer.number == 0 { ACCEPTED } else { REFUSED }] += 1;
    if answer.number != 0 && planted(Fault::FiguresCallsAmongErrors) {
        counts[answer.number as usize] += 1;
    }
}

/// The file at the front of a window: how many bytes it takes and what it adds, or its number; nothing in an empty window.
fn front(window: &[u8], files: u64) -> Result<(usize, Counts), u32> {
    if window.is_empty() {
        return Ok((0, [0; COUNTS]));
    }
    let short = || file::front(window).err().filter(|refusal| refusal.number == number::SHORT_BLOCK);
    if files >= MOST_FILES && !(planted(Fault::FiguresManyAfterShort) && short().is_some()) {
        return Err(number::TOO_MANY_FILES);
    }
    let (held, taken) = file::front(window).map_err(|refusal| refusal.number)?;
    let held = held.judged().map_err(|refusal| refusal.number)?;
    if planted(Fault::FiguresLeftOver) && window.len() - taken == 1 {
        return Err(number::BYTES_LEFT_OVER);
    }
    Ok((taken, of_file(&held)))
}

/// The step: the counts of one file more, limited to 64 bits, and how many bytes it takes.
pub fn step(window: &[u8], counts: &Counts) -> Result<(usize, Counts), u32> {
    let (taken, more) = front(window, counts[FILES])?;
    let wraps = planted(Fault::FiguresSumsWrapped);
    let sum = |at: usize| if wraps { counts[at].wrapping_add(more[at]) } else { counts[at].saturating_add(more[at]) };
    Ok((taken, std::array::from_fn(sum)))
}

/// The report: the counts, the number of the refusal or 0, and the position of the refused file.
pub fn report(input: &[u8]) -> (Counts, u32, u64) {
    let (mut counts, mut at) = ([0; COUNTS], 0);
    while at < input.len() {
        match step(&input[at..], &counts) {
            Ok((taken, sum)) => {
                counts = sum;
                at += taken;
            }
            Err(number) => {
                if planted(Fault::FiguresRefusedCounted) {
                    counts[FILES] += 1;
                }
                let block = if planted(Fault::FiguresPositionOfBlock) { file::good_blocks(&input[at..]) * file::BLOCK } else { 0 };
                return (counts, number, (at + block) as u64);
            }
        }
    }
    (counts, 0, 0)
}

/// The job of the report: the position in two words where a file is refused.
pub fn report_answer(input: &[u8]) -> Answer {
    let (counts, number, position) = report(input);
    let words = if number == 0 { Vec::new() } else { vec![position as u32, (position >> 32) as u32] };
    Answer { number, words, counts: counts.to_vec(), ..Answer::default() }
}

/// The job of the step.
pub fn step_answer(window: &[u8], counts: &Counts) -> Answer {
    match step(window, counts) {
        Ok((taken, counts)) => Answer { counts: counts.to_vec(), ..Answer::accepted(vec![taken as u32]) },
        Err(number) => Answer { number, ..Answer::default() },
    }
}
