//! Figures over joined files: the report of a whole input, its steps from the counts so far, and for each file that is a tree of the crate what the
//! crate's own functions count in it.

use judge::dialects;
use judge::run;
use judge::trees::Built;
use model::dialect;
use model::dialect::ALL_OPTIONS_INTERNAL;
use model::dialect::EXTENDED;
use model::dialect::STANDARD;
use model::figures;
use model::figures::Counts;
use model::figures::COUNTS;
use model::figures::MOST_FILES;
use model::file;
use model::file::Contents;
use model::file::BLOCK;
use model::numbers::kind;
use model::table::Table;
use model::table::MOST_DEPTH;
use model::table::RECORD_BYTES;

use super::examples::example_table;
use super::files::contents;
use super::files::damage;
use super::style;
use super::tables::chain;
use super::write_fitting;
use super::Plan;
use crate::cells::Encoded;
use crate::cells::PLAIN;
use crate::checker::Checker;
use crate::grow;
use crate::port::Job;
use crate::port::Request;
use crate::rng::Rng;

/// The largest file, which a step must see whole.
const WINDOW: usize = 117 * BLOCK;

/// A file of random joins is given to the crate once in a while.
const CRATE_ONCE_IN: usize = 4;

fn report(checker: &mut Checker, input: &[u8]) {
    checker.check(&Request { table: input, names: &[], job: Job::Figures });
}

fn step(checker: &mut Checker, window: &[u8], counts: &Counts) {
    checker.check(&Request { table: window, names: &[], job: Job::FiguresStep { counts } });
}

/// The report of an input, and its steps: each sees all that is left, or the bytes of one window, in turn.
fn look(checker: &mut Checker, input: &[u8]) {
    report(checker, input);
    let (mut counts, mut left, mut whole) = ([0; COUNTS], input, true);
    loop {
        let window = if whole { left } else { &left[..left.len().min(WINDOW)] };
        step(checker, window, &counts);
        match figures::step(left, &counts) {
            Ok((taken, sum)) if taken > 0 => (counts, left, whole) = (sum, &left[taken..], !whole),
            _ => return,
        }
    }
}

/// What the crate counts in a file, where its table is a tree of the crate.
fn by_crate(held: &Contents) -> Built<Counts> {
    let table = Table::check(&held.table, &held.names).expect("the file is accepted");
    let mut counts = [0; COUNTS];
    (counts[figures::FILES], counts[figures::NODES]) = (1, table.records.len() as u64);
    for node in 0..table.records.len() {
        match table.kind(node) {
            kind::DEF | kind::LAMBDA => {
                counts[figures::LISTS] += 1;
                let list = run::params(&table, node)?;
                if list.number == 0 {
                    figures::add_modes(&mut counts, &list.bytes);
                }
            }
            kind::CALL => counts[if run::call(&table, node)?.number == 0 { figures::ACCEPTED } else { figures::REFUSED }] += 1,
            _ => {}
        }
    }
    for [number, ..] in run::Module::of(&table)?.errors(&dialects::from_bytes(&held.dialect)) {
        counts[figures::place_of_error(number).expect("the module pass gives no other number")] += 1;
    }
    Ok(counts)
}

fn check_by_crate(checker: &mut Checker, held: &Contents) {
    if !checker.wants(&Job::Figures) {
        return;
    }
    if let Ok(of_crate) = by_crate(held) {
        let of_model = figures::of_file(held);
        checker.note(of_crate == of_model, || format!("the crate counts {of_crate:?}, the model {of_model:?}: {held:?}"));
    }
}

/// Files that are refused, each with another number.
fn refused_files() -> Vec<Vec<u8>> {
    let good = file::write(&contents(22, 505, &STANDARD));
    let changed = |at: usize, byte: u8, sealed: bool| {
        let mut bytes = good.clone();
        bytes[at] ^= byte;
        if sealed {
            let block = at / BLOCK * BLOCK;
            file::seal(&mut bytes[block..block + BLOCK]);
        }
        bytes
    };
    let mut unsound = contents(2, 3, &[]);
    unsound.table[0] ^= 1;
    let mut zeros = contents(3, 0, &[]);
    zeros.table.chunks_exact_mut(RECORD_BYTES).for_each(|record| record[18..20].fill(0));
    let mut deep = Encoded::default();
    deep.write(&chain(&mut Rng::new(1, 1), MOST_DEPTH + 1), &PLAIN);
    let deep = Contents { table: deep.table, names: deep.names, dialect: Vec::new(), edition: None };
    vec![
        good[..good.len() - 1].to_vec(),
        changed(700, 1, false),
        changed(512, 4, true),
        changed(514, 1, true),
        changed(BLOCK - 6, 1, true),
        changed(4, 22, true),
        file::write(&unsound),
        file::write(&zeros),
        file::write(&deep),
        file::write(&contents(2, 3, &[9; 9])),
        file::write(&Contents { edition: Some(3), ..contents(2, 3, &STANDARD) }),
    ]
}

/// Good files: the example, one of edition 2, the largest, one in each dialect, and one without a name.
fn good_files() -> Vec<Contents> {
    let example = Contents { table: example_table(), names: b"abc".to_vec(), dialect: STANDARD.to_vec(), edition: None };
    vec![
        example.clone(),
        Contents { edition: Some(2), ..example.clone() },
        Contents { dialect: ALL_OPTIONS_INTERNAL.to_vec(), ..example.clone() },
        Contents { dialect: EXTENDED.to_vec(), ..example },
        contents(1, 0, &[]),
        contents(2_100, 8_064, &STANDARD),
        contents(2_099, 0, &[]),
    ]
}

/// No file, a byte, each good file, each refused file first, between good ones and last; counters at their limits.
pub fn corners(checker: &mut Checker, _: &Plan) {
    let (good, refused) = (good_files(), refused_files());
    let written: Vec<Vec<u8>> = good.iter().map(file::write).collect();
    look(checker, &[]);
    good.iter().for_each(|held| check_by_crate(checker, held));
    for first in &written {
        look(checker, first);
        for after in [1, 511, 512, 513] {
            look(checker, &[&first[..], &vec![0; after]].concat());
        }
        written.iter().for_each(|second| look(checker, &[&first[..], second].concat()));
    }
    for bad in &refused {
        look(checker, bad);
        look(checker, &[&bad[..], &written[0]].concat());
        look(checker, &[&written[0][..], bad].concat());
        look(checker, &[&written[0][..], &written[1], bad, &written[0]].concat());
    }
    let windows: Vec<Vec<u8>> = [Vec::new(), vec![0]].into_iter().chain(written).chain(refused).collect();
    for files in [0, 1, MOST_FILES - 2, MOST_FILES - 1, MOST_FILES, MOST_FILES + 1, u64::MAX] {
        for others in [0, 1, MOST_FILES, u64::MAX - 2_101, u64::MAX - 3, u64::MAX - 2, u64::MAX - 1, u64::MAX] {
            let mut counts = [others; COUNTS];
            counts[figures::FILES] = files;
            windows.iter().for_each(|window| step(checker, window, &counts));
        }
    }
}

/// A join of three files cut at every byte: its front and, at every eighth byte, its rest. The middle one whole and refused.
pub fn cuts(checker: &mut Checker, plan: &Plan) {
    let (good, refused) = (good_files(), refused_files());
    let middles = [file::write(&good[1]), refused[1].clone(), refused[6].clone()];
    for (at, middle) in middles.iter().enumerate().filter(|&(at, _)| plan.has(at as u64)) {
        let join = [&file::write(&good[0])[..], middle, &file::write(&good[3 * (at % 2)])].concat();
        for cut in 0..=join.len() {
            if checker.is_done() {
                return;
            }
            report(checker, &join[..cut]);
            step(checker, &join[..cut], &[0; COUNTS]);
            if cut % 8 == 0 {
                look(checker, &join[cut..]);
            }
        }
    }
}

/// A random file: a module in some dialect, sound or not.
fn random_file(rng: &mut Rng, number: u64, dialects: &[Vec<u8>]) -> Contents {
    let wild = rng.once_in(2);
    let cells = match rng.once_in(400) {
        true => grow::large_module(rng, 2_000, wild),
        false => grow::module(rng, wild),
    };
    let mut encoded = Encoded::default();
    write_fitting(&mut encoded, &cells, &style(number));
    let dialect = dialects[rng.below(dialects.len())].clone();
    let edition = [None, Some(1), Some(2)][if dialect.is_empty() { 0 } else { rng.below(3) }];
    Contents { table: encoded.table, names: encoded.names, dialect, edition }
}

/// Joins of one to seven random files. In every third one a file is damaged, in every ninth its table or its dialect.
pub fn random(checker: &mut Checker, plan: &Plan) {
    let (mut rng, dialects) = (plan.rng(91), dialect::all());
    for number in 0..plan.share(26_000) {
        if checker.is_done() {
            return;
        }
        let many = rng.within(1, 7);
        let mut held: Vec<Contents> = (0..many).map(|at| random_file(&mut rng, 7 * number + at as u64, &dialects)).collect();
        if rng.once_in(CRATE_ONCE_IN) {
            held.iter().for_each(|held| check_by_crate(checker, held));
        }
        if rng.once_in(9) {
            spoil(&mut rng, &mut held[many / 2]);
        }
        let mut written: Vec<Vec<u8>> = held.iter().map(file::write).collect();
        if rng.once_in(3) {
            let at = rng.below(many);
            damage(&mut rng, &mut written[at]);
        }
        look(checker, &written.concat());
    }
}

/// A bit of a table, or a byte of a dialect, that is not what it was.
fn spoil(rng: &mut Rng, held: &mut Contents) {
    if rng.once_in(3) && !held.dialect.is_empty() {
        held.dialect[rng.below(9)] = 3;
        return;
    }
    let at = rng.below(held.table.len());
    held.table[at] ^= 1 << rng.below(8);
}
