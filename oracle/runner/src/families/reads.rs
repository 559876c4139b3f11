//! The reader into buffers, and reader and module pass in one: the files that the rescue and the program are given, and what the
//! writer makes. Every byte of the buffers is the model's.

use model::answer::ERROR_WORDS;
use model::answer::NONE;
use model::dialect;
use model::dialect::ALL_OPTIONS_INTERNAL;
use model::dialect::EXTENDED;
use model::dialect::STANDARD;
use model::file;
use model::file::Contents;
use model::file::BLOCK;
use model::jobs;
use model::numbers::kind;
use model::numbers::number;
use model::params::MOST_ENTRIES;
use model::table::MOST_NAME_BYTES;
use model::table::MOST_NODES;
use model::table::RECORD_BYTES;

use super::each_random;
use super::examples::example_table;
use super::files::contents;
use super::files::each_file;
use super::rescues;
use super::rescues::zeroes;
use super::Plan;
use crate::cells::Cells;
use crate::cells::Encoded;
use crate::cells::FILE_AT;
use crate::cells::PLAIN;
use crate::checker::Checker;
use crate::grow;
use crate::port::Job;
use crate::port::Request;
use crate::rng::Rng;

const MOST_TABLE_BYTES: usize = MOST_NODES * RECORD_BYTES;

fn reading(file: &[u8], table: usize, names: usize) -> Request<'_> {
    Request { table: file, names: &[], job: Job::Read { table, names } }
}

fn checking(file: &[u8], errors: usize) -> Request<'_> {
    Request { table: file, names: &[], job: Job::CheckFile { errors } }
}

/// A file through both jobs. What fits is read into buffers that just suffice, and into longer ones or one that is a byte short, in
/// turn; what does not is refused whatever the buffers are. The list is long enough, or ends before, in or after an error.
fn look(checker: &mut Checker, bytes: &[u8], turn: usize) {
    let (read, listed) = (reading(bytes, 0, 0), checking(bytes, 0));
    if checker.wants(&read.job) {
        match file::read(bytes) {
            Ok(held) => {
                let (table, names) = (held.table.len(), held.names.len());
                let rooms = [(table + 5, names + 9), (table - 1, names), (table, names.max(1) - 1), (table + 1, names)];
                checker.check(&reading(bytes, table, names));
                checker.check(&reading(bytes, rooms[turn % 4].0, rooms[turn % 4].1));
            }
            Err(_) => {
                let rooms = [(0, 0), (60, 9), (MOST_TABLE_BYTES, MOST_NAME_BYTES)];
                checker.check(&reading(bytes, rooms[turn % 3].0, rooms[turn % 3].1));
            }
        }
    }
    if checker.wants(&listed.job) {
        let words = ERROR_WORDS * jobs::check_file(bytes).errors.len();
        let rooms = [words, words + 5, words.saturating_sub(1), words / 2, 0];
        checker.check(&checking(bytes, rooms[turn % 5]));
    }
}

/// A file whose answers are known: what the reader reports, and how many errors there are.
fn expect(checker: &mut Checker, held: &Contents, told: &[u32], errors: &[[u32; ERROR_WORDS]]) {
    let bytes = file::write(held);
    let (table, names) = (held.table.len(), held.names.len());
    for more in [0, 1, 700] {
        checker.expect(&reading(&bytes, table + more, names), 0, Some(told));
        checker.expect(&reading(&bytes, table, names + more), 0, Some(told));
    }
    let read = jobs::read(&bytes, table, names);
    checker.note(read.file == held.table && read.names == held.names, || format!("the model reads {read:?}"));
    for (table, names) in [(0, names), (table - 1, names), (table - 1, names + 9), (0, 0)] {
        checker.expect(&reading(&bytes, table, names), number::SHORT_BUFFER, Some(&[]));
    }
    if names > 0 {
        for less in [1, names] {
            checker.expect(&reading(&bytes, table, names - less), number::SHORT_BUFFER, Some(&[]));
            checker.expect(&reading(&bytes, table + 9, names - less), number::SHORT_BUFFER, Some(&[]));
        }
    }
    let listed = jobs::check_file(&bytes);
    checker.note(listed.errors == errors, || format!("the model lists {listed:?}, by hand it is {errors:?}"));
    for room in 0..=ERROR_WORDS * errors.len() + 5 {
        checker.expect(&checking(&bytes, room), 0, Some(&[errors.len() as u32, told[0]]));
    }
}

/// A refusal, which does not look at the buffers.
fn refuse(checker: &mut Checker, bytes: &[u8], number: u32, words: &[u32]) {
    for (table, names) in [(0, 0), (24, 3), (MOST_TABLE_BYTES, MOST_NAME_BYTES)] {
        checker.expect(&reading(bytes, table, names), number, Some(words));
    }
    for room in [0, 3, 40] {
        checker.expect(&checking(bytes, room), number, Some(words));
    }
}

/// Answers by hand: nodes, name bytes, 1 for a dialect, its nine bytes in three words; each refusal.
pub fn corners(checker: &mut Checker, _plan: &Plan) {
    let in_edition = |dialect: &[u8], edition| Contents { table: example_table(), names: b"abc".to_vec(), dialect: dialect.to_vec(), edition };
    let example = |dialect: &[u8]| in_edition(dialect, None);
    let errors = [[13, 1, 14, 15], [55, 1, 20, 25]];
    expect(checker, &example(&[]), &[6, 3, 0, 0, 0, 0, NONE, 1], &errors);
    expect(checker, &example(&STANDARD), &[6, 3, 1, 0x0001_0101, 0x0001_0000, 0, NONE, 1], &errors);
    expect(checker, &in_edition(&STANDARD, Some(1)), &[6, 3, 1, 0x0001_0101, 0x0001_0000, 0, 1, 1], &errors);
    expect(checker, &in_edition(&STANDARD, Some(2)), &[6, 3, 1, 0x0001_0101, 0x0001_0000, 0, 2, 2], &errors);
    expect(checker, &example(&EXTENDED), &[6, 3, 1, 0x0101_0101, 0x0101_0200, 0, NONE, 1], &errors);
    expect(checker, &example(&ALL_OPTIONS_INTERNAL), &[6, 3, 1, 0x0101_0101, 0x0101_0201, 1, NONE, 1], &errors);
    expect(checker, &example(&[0, 1, 0, 0, 0, 1, 0, 0, 1]), &[6, 3, 1, 0x100, 0x100, 1, NONE, 1], &[[52, 1, 0, 25], errors[0], errors[1]]);
    expect(checker, &contents(1, 0, &[]), &[1, 0, 0, 0, 0, 0, NONE, 1], &[]);
    for (entries, errors) in [(MOST_ENTRIES, &[][..]), (MOST_ENTRIES + 1, &[[number::TOO_MANY_PARAMETERS, 1, 5, 5]][..])] {
        let held = listed(entries);
        expect(checker, &held, &[entries as u32 + 2, held.names.len() as u32, 0, 0, 0, 0, NONE, 1], errors);
    }
    let largest = contents(MOST_NODES, MOST_NAME_BYTES, &STANDARD);
    for (table, names) in [(MOST_TABLE_BYTES, MOST_NAME_BYTES), (MOST_TABLE_BYTES - 1, 9_000), (60_000, MOST_NAME_BYTES - 1)] {
        checker.check(&reading(&file::write(&largest), table, names));
    }
    blocks_refused(checker);
    contents_refused(checker);
    gigabytes(checker);
}

/// A def with the given number of parameters.
fn listed(entries: usize) -> Contents {
    let mut cells = Cells::default();
    cells.tree(kind::DEF, 0, 0, |cells| {
        (0..entries).for_each(|name| cells.leaf(kind::NORMAL, 0, name as u8));
        cells.leaf(kind::SIMPLE, 0, 0);
    });
    let mut encoded = Encoded::default();
    encoded.write(&cells, &PLAIN);
    Contents { table: encoded.table, names: encoded.names, dialect: Vec::new(), edition: None }
}

/// 70, 72, 71, 73, 74, 75: the first that is wrong, block by block.
fn blocks_refused(checker: &mut Checker) {
    // Block 0, two of names, three of nodes.
    let good = file::write(&contents(44, 505, &STANDARD));
    let sealed = |block: usize, at: usize, byte: u8| {
        let mut bytes = good.clone();
        bytes[BLOCK * block + at] = byte;
        file::seal(&mut bytes[BLOCK * block..BLOCK * (block + 1)]);
        bytes
    };
    for length in [0, 1, 511, 512, 1_535, 3_071] {
        refuse(checker, &good[..length], number::SHORT_BLOCK, &[]);
    }
    for block in 0..6 {
        let mut spoilt = good.clone();
        spoilt[BLOCK * block + 300] ^= 1;
        refuse(checker, &spoilt, number::BLOCK_CHECK, &[]);
        refuse(checker, &sealed(block, 0, 9), number::BLOCK_NUMBER, &[]);
        refuse(checker, &sealed(block, 2, 3), number::USED_BYTES, &[]);
    }
    refuse(checker, &sealed(0, 507, 1), number::USED_BYTES, &[]);
    refuse(checker, &sealed(0, 4, 0), number::COUNTS, &[]);
    refuse(checker, &sealed(0, 7, 255), number::COUNTS, &[]);
    refuse(checker, &[&good[..], &[0]].concat(), number::BYTES_LEFT_OVER, &[]);
    // A bad block in front of a short one, and after it nothing is looked at.
    let mut both = good[..1_600].to_vec();
    both[600] ^= 1;
    refuse(checker, &both, number::BLOCK_CHECK, &[]);
}

/// 75 before 3, 3 before 4, 4 before 5, with the node of 3 and 4; then 7.
fn contents_refused(checker: &mut Checker) {
    let with = |change: &dyn Fn(&mut Contents)| {
        let mut held = contents(44, 505, &STANDARD);
        change(&mut held);
        file::write(&held)
    };
    let unsound = with(&|held| {
        held.table[RECORD_BYTES * 30 + FILE_AT + 1] = 255;
        held.dialect[3] = 2;
    });
    refuse(checker, &unsound, number::UNSOUND, &[30]);
    refuse(checker, &[&unsound[..], &[1]].concat(), number::BYTES_LEFT_OVER, &[]);
    let mut cells = Cells::default();
    cells.tree(kind::SIMPLE, 0, 0, |cells| {
        let opened: Vec<usize> = (0..70).map(|_| cells.open(kind::NOT, 0, 0)).collect();
        cells.leaf(kind::INT, 0, 0);
        opened.into_iter().rev().for_each(|at| cells.close(at));
    });
    let mut deep = Encoded::default();
    deep.write(&cells, &PLAIN);
    refuse(checker, &with(&|held| held.table = deep.table.clone()), number::DEPTH, &[64]);
    refuse(checker, &with(&|held| held.dialect[5] = 3), number::DIALECT, &[]);
}

/// A file of more than 4 GiB whose length, in 32 bits, is that of its blocks.
fn gigabytes(checker: &mut Checker) {
    let blocks = file::write(&contents(3, 0, &[]));
    let Some(mut input) = zeroes((1 << 32) + blocks.len()) else {
        println!("compare: there is no room for a file of more than 4 GiB, so none is read");
        return;
    };
    input[..blocks.len()].copy_from_slice(&blocks);
    refuse(checker, &input, number::BYTES_LEFT_OVER, &[]);
}

/// The program's files: counts, used bytes, cuts, depths, each byte, random damage.
pub fn counts(checker: &mut Checker, plan: &Plan) {
    let mut turn = 0;
    each_file(checker, plan, 6_000, &mut |checker, bytes, _| {
        turn += 1;
        look(checker, bytes, turn);
    });
}

pub fn cuts(checker: &mut Checker, plan: &Plan) {
    let mut turn = 0;
    rescues::each_cut(plan, &mut |bytes, _| {
        turn += 1;
        look(checker, bytes, turn);
    });
}

pub fn blocks(checker: &mut Checker, plan: &Plan) {
    let mut turn = 0;
    rescues::each_block(plan, &mut |bytes, _| {
        turn += 1;
        look(checker, bytes, turn);
    });
}

pub fn records(checker: &mut Checker, plan: &Plan) {
    let mut turn = 0;
    rescues::each_record(plan, &mut |bytes, _| {
        turn += 1;
        look(checker, bytes, turn);
    });
}

pub fn random(checker: &mut Checker, plan: &Plan) {
    let mut turn = 0;
    rescues::each_random_file(checker, plan, 12_000, &mut |checker, bytes, _| {
        turn += 1;
        look(checker, bytes, turn);
    });
}

/// Random modules as the writer has them: what is read is what was written, and what is listed is what the module pass lists.
pub fn written(checker: &mut Checker, plan: &Plan) {
    let dialects = dialect::all();
    let grow = |rng: &mut Rng, number| match number % 60 {
        0 => {
            let records = rng.within(100, MOST_NODES);
            grow::large_module(rng, records, false)
        }
        _ => {
            let wild = rng.once_in(4);
            grow::module(rng, wild)
        }
    };
    each_random(checker, plan, 23, 20_000, grow, |checker, rng, random| {
        let Encoded { table, names, .. } = random.encoded.clone();
        let dialect = dialects[rng.below(dialects.len())].clone();
        let edition = [None, Some(1), Some(2)][(random.number % 3) as usize].filter(|_| !dialect.is_empty());
        let held = Contents { table, names, dialect, edition };
        let bytes = jobs::write(&held.table, &held.names, &held.dialect, edition.map_or(NONE, u32::from), 117 * BLOCK).file;
        look(checker, &bytes, random.number as usize);
        let read = jobs::read(&bytes, held.table.len(), held.names.len());
        let is_back = read.number == 0 && read.file == held.table && read.names == held.names && is_told(&read.words, &held);
        checker.note(is_back, || format!("what is written is read as {read:?}"));
        let (listed, of_table) = (jobs::check_file(&bytes), jobs::module(&held.table, &held.names, &held.dialect));
        checker.note(listed.errors == of_table.errors, || "a file and its table have other errors".to_owned());
    });
}

/// The eight words of a reading, put together from what was written.
fn is_told(words: &[u32], held: &Contents) -> bool {
    let byte = |at: usize| (words[3 + at / 4] >> (8 * (at % 4)) & 255) as u8;
    let nine: Vec<u8> = (0..9).map(byte).collect();
    let bytes_are = if held.dialect.is_empty() { nine == [0; 9] } else { nine == held.dialect };
    let counts = [held.table.len() / RECORD_BYTES, held.names.len(), usize::from(!held.dialect.is_empty())];
    let editions = [held.edition.map_or(NONE, u32::from), held.edition.map_or(1, u32::from)];
    words.len() == 8 && words[..3] == counts.map(|count| count as u32) && bytes_are && words[5] < 256 && words[6..] == editions
}
