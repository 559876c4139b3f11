//! Table files, whole and damaged: through the program here, for the reader in `reads`.

use std::io::Write;
use std::process::Command;
use std::process::Stdio;
use std::sync::atomic::AtomicU64;
use std::sync::atomic::Ordering;

use model::dialect;
use model::file;
use model::file::Contents;
use model::file::BLOCK;
use model::jobs;
use model::numbers::kind;
use model::table::MOST_DEPTH;
use model::table::MOST_FILE;

use super::each_random;
use super::tables::chain;
use super::Plan;
use crate::cells::Cells;
use crate::cells::Encoded;
use crate::cells::Files;
use crate::cells::Style;
use crate::cells::PLAIN;
use crate::checker::Checker;
use crate::grow;
use crate::port::FILE;
use crate::rng::Rng;

/// Runs the program on a file and compares all that it prints. Without a program nothing is compared.
pub fn compare_output(checker: &mut Checker, plan: &Plan, bytes: &[u8], by_name: bool) {
    let Some(program) = plan.program.as_ref().filter(|_| checker.wants_job(FILE)) else {
        return;
    };
    let expected = jobs::printed(bytes);
    let printed = if by_name { run_by_name(program, bytes) } else { run_by_input(program, bytes) };
    let printed = printed.unwrap_or_else(|error| panic!("{program} cannot be run: {error}"));
    let number = file::read(bytes).err().map_or(0, |refusal| refusal.number);
    checker.program_run(number, printed == expected.as_bytes(), || {
        let shown: String = bytes.iter().map(|byte| format!("{byte:02x}")).collect();
        format!("{program} prints {:?}, the model {expected:?}, for {shown}", String::from_utf8_lossy(&printed))
    });
}

fn run_by_input(program: &str, bytes: &[u8]) -> std::io::Result<Vec<u8>> {
    let mut child = Command::new(program).stdin(Stdio::piped()).stdout(Stdio::piped()).spawn()?;
    let mut input = child.stdin.take().expect("the input is a pipe");
    // A program may stop reading when it has seen enough.
    let written = input.write_all(bytes);
    drop(input);
    let output = child.wait_with_output()?;
    match written {
        Err(error) if error.kind() != std::io::ErrorKind::BrokenPipe => Err(error),
        _ => Ok(output.stdout),
    }
}

fn run_by_name(program: &str, bytes: &[u8]) -> std::io::Result<Vec<u8>> {
    static NEXT: AtomicU64 = AtomicU64::new(0);
    let number = NEXT.fetch_add(1, Ordering::Relaxed);
    let path = std::env::temp_dir().join(format!("oracle-{}-{number}.table", std::process::id()));
    std::fs::write(&path, bytes)?;
    let output = Command::new(program).arg(&path).output();
    std::fs::remove_file(&path)?;
    Ok(output?.stdout)
}

pub fn files(checker: &mut Checker, plan: &Plan) {
    if plan.program.is_some() {
        each_file(checker, plan, 1_500, &mut |checker, bytes, by_name| compare_output(checker, plan, bytes, by_name));
    }
}

/// Looks at a file, which the program is to be named or handed as its input.
pub type See<'s> = &'s mut dyn FnMut(&mut Checker, &[u8], bool);

/// Counts, used bytes, cuts, depths, each byte of a file, and the given number of files with random damage.
pub fn each_file(checker: &mut Checker, plan: &Plan, quick: u64, see: See) {
    let mut rng = plan.rng(14);
    counts(checker, see);
    headers(checker, see);
    cuts(checker, &mut rng, see);
    depths(checker, &mut rng, see);
    every_byte(checker, plan, &mut rng, see);
    damaged(checker, plan, quick, see);
}

/// A sound table of the given number of records and names of the given number of bytes.
pub fn contents(records: usize, names: usize, dialect: &[u8]) -> Contents {
    let mut cells = Cells::default();
    cells.tree(kind::STATEMENTS, 0, 0, |cells| (1..records).for_each(|_| cells.leaf(kind::BREAK, 0, 0)));
    let mut encoded = Encoded::default();
    // Statement by statement another source file.
    encoded.write(&cells, &Style { files: Files::Turns(MOST_FILE), ..PLAIN });
    let names = (0..names).map(|at| b'a' + (at % 26) as u8).collect();
    Contents { table: encoded.table, names, dialect: dialect.to_vec(), edition: None }
}

/// Names and nodes that just fill blocks, and one less and more; and counts beyond the limits.
fn counts(checker: &mut Checker, see: See) {
    let on = dialect::ALL_OPTIONS_INTERNAL;
    for (at, names) in [0, 1, 503, 504, 505, 1_008, 1_009, 8_063, 8_064, 8_065].into_iter().enumerate() {
        for records in [1, 20, 21, 22, 42, 43, 2_099, 2_100, 2_101] {
            let dialect: &[u8] = if at % 2 == 0 { &on } else { &[] };
            let written = file::write(&contents(records, names, dialect));
            see(checker, &written, at % 3 == 0);
        }
    }
    for (records, names) in [(0u16, 3u16), (1, 8_065), (2_101, 0), (65_535, 65_535), (2, 2), (1, 4), (3, 3)] {
        let mut written = file::write(&contents(2, 3, &on));
        written[4..6].copy_from_slice(&records.to_le_bytes());
        written[6..8].copy_from_slice(&names.to_le_bytes());
        file::seal(&mut written[..BLOCK]);
        see(checker, &written, false);
    }
}

/// The number of used bytes of each block, right and wrong, with the sum put right.
fn headers(checker: &mut Checker, see: See) {
    let good = file::write(&contents(22, 505, &[]));
    for block in 0..good.len() / BLOCK {
        for used in [0u16, 1, 3, 4, 5, 12, 13, 14, 23, 24, 25, 503, 504, 505, 508, 512, 65_535] {
            for filled in [false, true] {
                let mut changed = good.clone();
                let bytes = &mut changed[BLOCK * block..BLOCK * (block + 1)];
                bytes[2..4].copy_from_slice(&used.to_le_bytes());
                if filled {
                    bytes[507] = 1;
                }
                file::seal(bytes);
                see(checker, &changed, false);
            }
        }
        for number in [0u16, 1, 2, 3, 256, 65_535] {
            let mut changed = good.clone();
            let bytes = &mut changed[BLOCK * block..BLOCK * (block + 1)];
            bytes[0..2].copy_from_slice(&number.to_le_bytes());
            file::seal(bytes);
            see(checker, &changed, false);
        }
    }
}

/// Files that end too early or too late.
fn cuts(checker: &mut Checker, rng: &mut Rng, see: See) {
    let good = file::write(&contents(22, 505, &dialect::STANDARD));
    let mut lengths: Vec<usize> = (0..=good.len() / BLOCK).flat_map(|n| [n * BLOCK, n * BLOCK + 1]).collect();
    lengths.extend((1..=good.len() / BLOCK).map(|n| n * BLOCK - 1));
    lengths.extend((0..60).map(|_| rng.below(good.len())));
    for length in lengths {
        let mut cut = good.clone();
        cut.resize(length, 0);
        see(checker, &cut, length % 2 == 0);
    }
    for after in [1, 2, 511, 512, 513, 1_024] {
        see(checker, &[&good[..], &vec![0; after]].concat(), false);
    }
}

/// Tables around the limit of depth, with a dialect that is good and one that is not: 4 counts before 5.
fn depths(checker: &mut Checker, rng: &mut Rng, see: See) {
    let mut encoded = Encoded::default();
    for depth in MOST_DEPTH - 1..=MOST_DEPTH + 2 {
        encoded.write(&chain(rng, depth), &PLAIN);
        for dialect in [&[][..], &dialect::STANDARD, &[9; 9]] {
            let Encoded { table, names, .. } = encoded.clone();
            let written = file::write(&Contents { table, names, dialect: dialect.to_vec(), edition: None });
            see(checker, &written, false);
        }
    }
}

/// Every byte of an accepted file changed: the sum must show it.
fn every_byte(checker: &mut Checker, plan: &Plan, rng: &mut Rng, see: See) {
    let mut bytes = file::write(&contents(2, 3, &dialect::STANDARD));
    for at in 0..bytes.len() {
        let good = bytes[at];
        for _ in 0..plan.scale.min(8) {
            bytes[at] = good.wrapping_add(rng.within(1, 255) as u8);
            see(checker, &bytes, false);
        }
        bytes[at] = good;
    }
}

/// Files of random modules, sound and not, with bytes changed and some sums put right again.
fn damaged(checker: &mut Checker, plan: &Plan, quick: u64, see: See) {
    let dialects = dialect::all();
    let grow = |rng: &mut Rng, _| {
        let wild = rng.once_in(2);
        grow::module(rng, wild)
    };
    each_random(checker, plan, 15, quick, grow, |checker, rng, random| {
        let Encoded { mut table, names, .. } = random.encoded.clone();
        if rng.once_in(4) {
            let at = rng.below(table.len());
            table[at] ^= 1 << rng.below(8);
        }
        let mut dialect = dialects[rng.below(dialects.len())].clone();
        if rng.once_in(6) && !dialect.is_empty() {
            dialect[rng.below(9)] = 3;
        }
        let edition = any_edition(random.number);
        let mut bytes = file::write(&Contents { table, names, dialect, edition });
        for _ in 0..rng.below(3) {
            damage(rng, &mut bytes);
        }
        see(checker, &bytes, random.number % 2 == 0);
    });
}

/// Most often no edition byte, then a good one; now and then a bad one. It takes no number of the row, so that all else stays as it was.
pub fn any_edition(number: u64) -> Option<u8> {
    match number % 8 {
        0..=3 => None,
        4 | 5 => Some(1),
        6 => Some(2),
        _ => Some((number / 8) as u8),
    }
}

/// One change of a file: a bit, with or without its sum put right; a block lost or doubled; an end that is missing.
pub fn damage(rng: &mut Rng, bytes: &mut Vec<u8>) {
    let blocks = bytes.len() / BLOCK;
    if blocks == 0 {
        return;
    }
    let block = rng.below(blocks);
    let place = BLOCK * block..BLOCK * (block + 1);
    match rng.below(6) {
        0..=2 => {
            let at = block * BLOCK + rng.pick(&[0, 1, 2, 3, 4, 5, 6, 7, 8, 17, 30, 507, 300]);
            bytes[at] ^= 1 << rng.below(8);
            if rng.once_in(3) {
                return;
            }
            file::seal(&mut bytes[place]);
        }
        3 => drop(bytes.drain(place)),
        4 => {
            let copy = bytes[place.clone()].to_vec();
            drop(bytes.splice(place.start..place.start, copy));
        }
        _ => bytes.truncate(rng.below(bytes.len() + 1)),
    }
}
