//! The rescue of damaged files (W-205): every byte of the buffer is the model's, and what is kept is read back and rescued
//! again.

use model::answer::Answer;
use model::dialect;
use model::file;
use model::file::Contents;
use model::file::BLOCK;
use model::file::CONTENT;
use model::jobs;
use model::numbers::kind;
use model::numbers::number;
use model::rescue;
use model::table::MOST_FILE;
use model::table::RECORD_BYTES;

use super::each_random;
use super::files::any_edition;
use super::files::contents;
use super::files::damage;
use super::Plan;
use crate::cells::Cells;
use crate::cells::Encoded;
use crate::cells::Files;
use crate::cells::Style;
use crate::cells::FILE_AT;
use crate::cells::PLAIN;
use crate::checker::Checker;
use crate::grow;
use crate::port::Job;
use crate::port::Request;
use crate::rng::Rng;

/// The most bytes of a file.
const MOST: usize = 117 * BLOCK;

/// Where the fields of a record are.
const KIND_AT: usize = 0;
const DETAIL_AT: usize = 1;
const NAME_LENGTH_AT: usize = 2;
const BEGIN_AT: usize = 8;
const SIZE_AT: usize = 16;

/// A file in rooms that just suffice, or are so much longer or shorter. What is kept is looked at once more.
fn check(checker: &mut Checker, input: &[u8], more: &[isize]) {
    let job = |file| Request { table: input, names: &[], job: Job::Rescue { file } };
    if !checker.wants(&job(0).job) {
        return;
    }
    let kept = jobs::rescue(input, MOST);
    for &more in more {
        checker.check(&job(kept.file.len().saturating_add_signed(more)));
    }
    if kept.number == 0 {
        look_again(checker, input, &kept);
    }
}

/// What is kept is read back, and rescued again is itself, with nothing dropped. A file that reads is given back.
fn look_again(checker: &mut Checker, input: &[u8], kept: &Answer) {
    let nodes = file::read(&kept.file).map(|held| held.table.len() / RECORD_BYTES);
    checker.note(nodes == Ok(kept.words[2] as usize), || format!("what is rescued reads back as {nodes:?}"));
    let is_read = file::read(input).is_ok();
    checker.note(!is_read || kept.file == input, || "a file that reads is not given back".to_owned());
    let told = [kept.words[0], kept.words[1], kept.words[2], 0, 0, 0];
    expect(checker, &kept.file, kept.file.len(), &told);
}

/// A file whose answer is known: what is reported, or a number.
fn expect(checker: &mut Checker, input: &[u8], room: usize, told: &[u32]) {
    let request = Request { table: input, names: &[], job: Job::Rescue { file: room } };
    checker.expect(&request, 0, Some(told));
}

fn refuse(checker: &mut Checker, input: &[u8], number: u32) {
    for room in [0, BLOCK, MOST] {
        let request = Request { table: input, names: &[], job: Job::Rescue { file: room } };
        checker.expect(&request, number, Some(&[]));
    }
}

/// A file to be damaged by hand.
#[derive(Clone)]
struct Damaged {
    bytes: Vec<u8>,
    /// The first node block.
    nodes_at: usize,
}

impl Damaged {
    fn of(held: &Contents) -> Damaged {
        Damaged { bytes: file::write(held), nodes_at: 1 + held.names.len().div_ceil(CONTENT) }
    }

    fn of_cells(cells: &Cells, dialect: &[u8]) -> Damaged {
        Damaged::of_files(cells, dialect, PLAIN.files)
    }

    /// With these source file numbers.
    fn of_files(cells: &Cells, dialect: &[u8], files: Files) -> Damaged {
        let mut encoded = Encoded::default();
        encoded.write(cells, &Style { files, ..PLAIN });
        Damaged::of(&Contents { table: encoded.table, names: encoded.names, dialect: dialect.to_vec(), edition: None })
    }

    fn blocks(&self) -> usize {
        self.bytes.len() / BLOCK
    }

    fn block(&mut self, number: usize) -> &mut [u8] {
        &mut self.bytes[BLOCK * number..BLOCK * (number + 1)]
    }

    /// Bytes of a block, with the sum put right.
    fn put(&self, block: usize, at: usize, bytes: &[u8]) -> Damaged {
        let mut changed = self.clone();
        let block = changed.block(block);
        block[at..at + bytes.len()].copy_from_slice(bytes);
        file::seal(block);
        changed
    }

    /// A field of a record, with the sum put right.
    fn field(&self, record: usize, at: usize, bytes: &[u8]) -> Damaged {
        let most = CONTENT / RECORD_BYTES;
        self.put(self.nodes_at + record / most, 4 + record % most * RECORD_BYTES + at, bytes)
    }

    fn size(&self, record: usize, size: u16) -> Damaged {
        self.field(record, SIZE_AT, &size.to_le_bytes())
    }

    /// A byte of a block changed, with the sum as it was.
    fn spoilt(&self, block: usize, at: usize) -> Damaged {
        let mut changed = self.clone();
        changed.block(block)[at] ^= 0x10;
        changed
    }

    fn cut(&self, length: usize) -> Damaged {
        let mut changed = self.clone();
        changed.bytes.truncate(length);
        changed
    }

    fn longer(&self, more: usize) -> Damaged {
        let mut changed = self.clone();
        changed.bytes.extend((0..more).map(|at| at as u8));
        changed
    }
}

/// Corner cases, with answers by hand: bytes, statements, nodes, dropped, bytes after (two words).
pub fn corners(checker: &mut Checker, _plan: &Plan) {
    // A root and 43 breaks: block 0, two name blocks, node blocks of 21, 21 and 2 records.
    let good = Damaged::of(&contents(44, 505, &dialect::STANDARD));
    bad_headers(checker, &good);
    bytes_after(checker, &good);
    roots(checker, &good);
    sizes(checker, &good);
    unsound_children(checker, &good);
    lone_roots(checker);
    other_roots(checker);
    across_blocks(checker);
    no_dialect(checker);
    gigabytes(checker);
}

/// 90, before any node block is looked at: a missing or short name block, less than a block, counts (74), a dialect (5).
fn bad_headers(checker: &mut Checker, good: &Damaged) {
    for length in [0, 1, 511, 512, 513, 1_023, 1_024, 1_535] {
        refuse(checker, &good.cut(length).bytes, number::BAD_HEADER);
    }
    for block in 0..3 {
        for at in [0, 2, 4, 100, 507, 508] {
            refuse(checker, &good.spoilt(block, at).bytes, number::BAD_HEADER);
            refuse(checker, &good.spoilt(block, at).cut(1_600).bytes, number::BAD_HEADER);
        }
    }
    for (at, count) in [(4, 0u16), (4, 2_101), (6, 8_065), (4, 65_535), (6, 65_535)] {
        refuse(checker, &good.put(0, at, &count.to_le_bytes()).bytes, number::BAD_HEADER);
    }
    for at in 8..17 {
        let bad = good.put(0, at, &[3]);
        refuse(checker, &bad.bytes, number::BAD_HEADER);
        refuse(checker, &bad.spoilt(3, 9).bytes, number::BAD_HEADER);
        refuse(checker, &bad.cut(1_536).bytes, number::BAD_HEADER);
    }
    for used in [0u16, 3, 5, 12, 14, 504] {
        refuse(checker, &good.put(0, 2, &used.to_le_bytes()).bytes, number::BAD_HEADER);
    }
    // The names are whole, and no node block is.
    for length in [1_536, 1_537, 2_047] {
        refuse(checker, &good.cut(length).bytes, number::NOTHING_KEPT);
    }
}

/// What is after the header's blocks, 0 where the file is shorter; whatever is kept.
fn bytes_after(checker: &mut Checker, good: &Damaged) {
    expect(checker, &good.bytes, 3_072, &[3_072, 43, 44, 0, 0, 0]);
    for after in [1, 7, 512, 70_000] {
        expect(checker, &good.longer(after).bytes, 3_072, &[3_072, 43, 44, 0, after as u32, 0]);
        expect(checker, &good.spoilt(4, 50).longer(after).bytes, 3_000, &[2_048, 20, 21, 23, after as u32, 0]);
    }
    for length in [2_048, 2_049, 2_559] {
        expect(checker, &good.cut(length).bytes, 2_048, &[2_048, 20, 21, 23, 0, 0]);
    }
    for length in [2_560, 3_071] {
        expect(checker, &good.cut(length).bytes, 2_560, &[2_560, 41, 42, 2, 0, 0]);
    }
    // Good blocks after a bad one are not used.
    expect(checker, &good.spoilt(4, 50).bytes, 2_048, &[2_048, 20, 21, 23, 0, 0]);
    refuse(checker, &good.spoilt(3, 50).bytes, number::NOTHING_KEPT);
    let request = |file| Request { table: &good.bytes, names: &[], job: Job::Rescue { file } };
    for room in [0, 1, 512, 2_560, 3_071] {
        checker.expect(&request(room), number::SHORT_BUFFER, Some(&[]));
    }
}

/// Only the root's size is repaired: any other fault of the root is 91.
fn roots(checker: &mut Checker, good: &Damaged) {
    let faults: [(usize, &[u8]); 7] = [
        (KIND_AT, &[kind::DEF]),
        (KIND_AT, &[0]),
        (KIND_AT, &[kind::TUPLE]),
        (DETAIL_AT, &[1]),
        (NAME_LENGTH_AT, &[1]),
        (BEGIN_AT, &[255, 255, 255, 127]),
        (FILE_AT, &[1]),
    ];
    for (at, bytes) in faults {
        for length in [2_048, 3_072] {
            refuse(checker, &good.field(0, at, bytes).cut(length).bytes, number::NOTHING_KEPT);
        }
    }
}

/// Children end at the smaller of the written size and the records in good blocks.
fn sizes(checker: &mut Checker, good: &Damaged) {
    for size in [0, 1] {
        refuse(checker, &good.size(0, size).bytes, number::NOTHING_KEPT);
        refuse(checker, &good.size(0, size).cut(2_048).bytes, number::NOTHING_KEPT);
    }
    // Too large, and all children fit: all are kept, and the output is not the input.
    for size in [45, 46, 255, 2_101, 65_535] {
        let large = good.size(0, size);
        expect(checker, &large.bytes, 3_072, &[3_072, 43, 44, 0, 0, 0]);
        let kept = jobs::rescue(&large.bytes, MOST).file;
        checker.note(kept == good.bytes && kept != large.bytes, || "the root's size is not repaired".to_owned());
    }
    // Too small: kept up to it, and dropped by the header's count.
    expect(checker, &good.size(0, 2).bytes, 2_048, &[2_048, 1, 2, 42, 0, 0]);
    expect(checker, &good.size(0, 30).bytes, 2_560, &[2_560, 29, 30, 14, 0, 0]);
    expect(checker, &good.size(0, 43).bytes, 3_072, &[3_072, 42, 43, 1, 0, 0]);
    expect(checker, &good.size(0, 30).cut(2_100).bytes, 2_048, &[2_048, 20, 21, 23, 0, 0]);
    expect(checker, &good.size(0, 10).cut(2_100).bytes, 2_048, &[2_048, 9, 10, 34, 0, 0]);
    // The good records are a sound table by themselves, and the header counts more.
    expect(checker, &good.size(0, 21).cut(2_100).bytes, 2_048, &[2_048, 20, 21, 23, 0, 0]);
    expect(checker, &good.size(0, 42).spoilt(5, 9).bytes, 2_560, &[2_560, 41, 42, 2, 0, 0]);
}

/// All blocks are good and 3 or 4 fails: the cut is before that child, and none is skipped.
fn unsound_children(checker: &mut Checker, good: &Damaged) {
    let kinds = [0, kind::INT, kind::NORMAL].map(|kind| (KIND_AT, [kind]));
    // The number of the source file: 0, and more than 999.
    for (at, bytes) in kinds.into_iter().chain([(DETAIL_AT, [1]), (FILE_AT, [0]), (FILE_AT + 1, [4])]) {
        expect(checker, &good.field(25, at, &bytes).bytes, 2_560, &[2_560, 24, 25, 19, 0, 0]);
        expect(checker, &good.field(25, at, &bytes).field(40, at, &bytes).bytes, 2_560, &[2_560, 24, 25, 19, 0, 0]);
        refuse(checker, &good.field(1, at, &bytes).bytes, number::NOTHING_KEPT);
        expect(checker, &good.field(2, at, &bytes).bytes, 2_048, &[2_048, 1, 2, 42, 0, 0]);
    }
    for size in [0, 2, 19, 20, 65_535] {
        expect(checker, &good.size(25, size).bytes, 2_560, &[2_560, 24, 25, 19, 0, 0]);
    }
    // A break, a chain of `not not … 1`, a break. 61 are at depth 64.
    for (nots, told) in [(61, [2_560, 3, 66, 0, 0, 0]), (62, [1_024, 1, 2, 65, 0, 0])] {
        let mut cells = Cells::default();
        cells.tree(kind::STATEMENTS, 0, 0, |cells| {
            cells.leaf(kind::BREAK, 0, 0);
            cells.tree(kind::SIMPLE, 0, 0, |cells| {
                let opened: Vec<usize> = (0..nots).map(|_| cells.open(kind::NOT, 0, 0)).collect();
                cells.leaf(kind::INT, 0, 0);
                opened.into_iter().rev().for_each(|at| cells.close(at));
            });
            cells.leaf(kind::BREAK, 0, 0);
        });
        expect(checker, &Damaged::of_cells(&cells, &[]).bytes, MOST, &told);
    }
}

/// A Statements without children: 0 statements where it passes, else 91.
fn lone_roots(checker: &mut Checker) {
    let alone = Damaged::of(&contents(1, 0, &[]));
    expect(checker, &alone.bytes, 1_024, &[1_024, 0, 1, 0, 0, 0]);
    expect(checker, &alone.longer(3).bytes, 1_024, &[1_024, 0, 1, 0, 3, 0]);
    for bad in [alone.size(0, 2), alone.size(0, 0), alone.spoilt(1, 60), alone.cut(1_023), alone.field(0, DETAIL_AT, &[1])] {
        refuse(checker, &bad.bytes, number::NOTHING_KEPT);
    }
}

/// Another root is one statement where it passes, and nothing where it does not.
fn other_roots(checker: &mut Checker) {
    let mut cells = Cells::default();
    cells.tree(kind::DEF, 0, 0, |cells| {
        cells.leaf(kind::NORMAL, 0, 1);
        cells.leaf(kind::NORMAL, 0, 2);
        cells.tree(kind::STATEMENTS, 0, 0, |cells| (0..40).for_each(|_| cells.leaf(kind::BREAK, 0, 0)));
    });
    let def = Damaged::of_cells(&cells, &dialect::EXTENDED);
    expect(checker, &def.bytes, 2_560, &[2_560, 1, 44, 0, 0, 0]);
    expect(checker, &def.longer(513).bytes, 2_560, &[2_560, 1, 44, 0, 513, 0]);
    for bad in [def.size(0, 45), def.size(3, 42), def.spoilt(4, 60), def.cut(2_559), def.cut(1_536)] {
        refuse(checker, &bad.bytes, number::NOTHING_KEPT);
    }
}

/// A child is kept whole or not at all: 15 breaks, a Statements of ten, five breaks, with a block's end within the ten.
fn across_blocks(checker: &mut Checker) {
    let mut cells = Cells::default();
    cells.tree(kind::STATEMENTS, 0, 0, |cells| {
        (0..15).for_each(|_| cells.leaf(kind::BREAK, 0, 0));
        cells.tree(kind::STATEMENTS, 0, 0, |cells| (0..10).for_each(|_| cells.leaf(kind::BREAK, 0, 0)));
        (0..5).for_each(|_| cells.leaf(kind::BREAK, 0, 0));
    });
    let across = Damaged::of_cells(&cells, &dialect::STANDARD);
    expect(checker, &across.bytes, 1_536, &[1_536, 21, 32, 0, 0, 0]);
    expect(checker, &across.cut(1_535).bytes, 1_024, &[1_024, 15, 16, 16, 0, 0]);
    expect(checker, &across.spoilt(2, 8).bytes, 1_024, &[1_024, 15, 16, 16, 0, 0]);
    expect(checker, &across.size(0, 26).bytes, 1_024, &[1_024, 15, 16, 16, 0, 0]);
    expect(checker, &across.size(0, 27).bytes, 1_536, &[1_536, 16, 27, 5, 0, 0]);
    expect(checker, &across.field(20, FILE_AT, &[2]).bytes, 1_024, &[1_024, 15, 16, 16, 0, 0]);
    // The Statements may take in the break after it.
    expect(checker, &across.size(16, 12).bytes, 1_536, &[1_536, 20, 32, 0, 0, 0]);
    // But not where that is of another source file.
    let of_many = Damaged::of_files(&cells, &dialect::STANDARD, Files::Turns(MOST_FILE));
    expect(checker, &of_many.bytes, 1_536, &[1_536, 21, 32, 0, 0, 0]);
    expect(checker, &of_many.size(16, 12).bytes, 1_024, &[1_024, 15, 16, 16, 0, 0]);
}

/// No dialect stays none, the edition byte stays as it is, and the names are whole.
fn no_dialect(checker: &mut Checker) {
    let mut keeps = |dialect: &[u8], edition: Option<u8>| {
        let held = |records: usize| Contents { edition, ..contents(records, 505, dialect) };
        let cut = Damaged::of(&held(44)).cut(2_048);
        let kept = jobs::rescue(&cut.bytes, MOST).file;
        checker.note(kept == file::write(&held(21)), || format!("{dialect:?} and {edition:?} are not kept"));
        check(checker, &cut.bytes, &[0, -1, 1]);
    };
    for dialect in [&[][..], &dialect::STANDARD, &dialect::ALL_OPTIONS_INTERNAL] {
        keeps(dialect, None);
    }
    for edition in [1, 2] {
        keeps(&dialect::STANDARD, Some(edition));
    }
}

/// So many zero bytes, or none where the machine has no room for them. Pages that nobody touches take no memory.
pub fn zeroes(length: usize) -> Option<Vec<u8>> {
    let layout = std::alloc::Layout::array::<u8>(length).ok()?;
    // SAFETY: the length is not 0. What comes is of this layout, by the allocator that Vec uses, and every byte of it is 0.
    let start = unsafe { std::alloc::alloc_zeroed(layout) };
    (!start.is_null()).then(|| unsafe { Vec::from_raw_parts(start, length, length) })
}

/// The bytes after the last block are counted in 64 bits. Nobody looks at them, so they take no memory.
fn gigabytes(checker: &mut Checker) {
    let blocks = file::write(&contents(3, 0, &[]));
    let Some(mut input) = zeroes((1 << 32) + 2_561) else {
        println!("compare: there is no room for a file of more than 4 GiB, so none is rescued");
        return;
    };
    input[..blocks.len()].copy_from_slice(&blocks);
    expect(checker, &input, 1_024, &[1_024, 2, 3, 0, 1_537, 1]);
    input[600] ^= 1;
    refuse(checker, &input, number::NOTHING_KEPT);
}

/// Files whose shapes differ: breaks alone, statements of many records, another root; and one of random statements.
fn shapes(rng: &mut Rng) -> Vec<Damaged> {
    let mut nested = Cells::default();
    nested.tree(kind::STATEMENTS, 0, 0, |cells| {
        for number in 0..12 {
            cells.tree(kind::IF_STATEMENT, 0, 0, |cells| {
                cells.leaf(kind::IDENTIFIER, 0, number);
                cells.tree(kind::STATEMENTS, 0, 0, |cells| (0..number).for_each(|_| cells.leaf(kind::BREAK, 0, 0)));
            });
        }
    });
    let mut other = Cells::default();
    other.tree(kind::DEF, 0, 0, |cells| {
        cells.leaf(kind::NORMAL, 0, 1);
        cells.tree(kind::STATEMENTS, 0, 0, |cells| (0..30).for_each(|_| cells.leaf(kind::BREAK, 0, 0)));
    });
    let random = grow::large_module(rng, 85, false);
    vec![
        Damaged::of(&contents(64, 505, &dialect::STANDARD)),
        Damaged::of_files(&nested, &[], Files::Each(17)),
        Damaged::of_cells(&other, &dialect::EXTENDED),
        Damaged::of_files(&random, &dialect::STANDARD, Files::Turns(2)),
    ]
}

pub fn cuts(checker: &mut Checker, plan: &Plan) {
    each_cut(plan, &mut |bytes, more| check(checker, bytes, more));
}

pub fn blocks(checker: &mut Checker, plan: &Plan) {
    each_block(plan, &mut |bytes, more| check(checker, bytes, more));
}

pub fn records(checker: &mut Checker, plan: &Plan) {
    each_record(plan, &mut |bytes, more| check(checker, bytes, more));
}

/// Looks at a file, in rooms that are so much longer than needed.
pub type See<'s> = &'s mut dyn FnMut(&[u8], &[isize]);

/// One file cut at every length, and longer by every length up to a block and some.
pub fn each_cut(plan: &Plan, see: See) {
    for shape in shapes(&mut Rng::new(plan.seed, 17)) {
        for length in (0..=shape.bytes.len()).filter(|&length| plan.has(length as u64)) {
            see(&shape.cut(length).bytes, &[0, -1, 9]);
        }
        for more in (1..BLOCK + 20).filter(|&more| plan.has(more as u64)) {
            see(&shape.longer(more).bytes, &[0, -1, 9]);
        }
    }
}

/// Each byte of each block changed, with the sum as it was and put right; and each block lost, doubled, emptied or exchanged.
pub fn each_block(plan: &Plan, see: See) {
    let mut rng = plan.rng(18);
    for shape in shapes(&mut Rng::new(plan.seed, 17)) {
        for at in (0..shape.bytes.len()).filter(|&at| plan.has(at as u64)) {
            let (block, at) = (at / BLOCK, at % BLOCK);
            see(&shape.spoilt(block, at).bytes, &[0]);
            for _ in 0..plan.scale.min(8) {
                let byte = shape.bytes[BLOCK * block + at].wrapping_add(rng.within(1, 255) as u8);
                see(&shape.put(block, at, &[byte]).bytes, &[0]);
            }
        }
        for block in (0..shape.blocks()).filter(|&block| plan.has(block as u64)) {
            whole_block(&shape, block, see);
        }
    }
}

fn whole_block(shape: &Damaged, block: usize, see: See) {
    let place = BLOCK * block..BLOCK * (block + 1);
    let mut seen = |change: &dyn Fn(&mut Vec<u8>)| {
        let mut changed = shape.bytes.clone();
        change(&mut changed);
        see(&changed, &[0, -1, 600]);
    };
    seen(&|bytes| drop(bytes.drain(place.clone())));
    seen(&|bytes| bytes[place.clone()].fill(0));
    seen(&|bytes| bytes[place.start..].fill(0));
    seen(&|bytes| bytes.extend_from_within(place.clone()));
    seen(&|bytes| drop(bytes.splice(place.start..place.start, shape.bytes[place.clone()].to_vec())));
    for other in 0..shape.blocks() {
        seen(&|bytes| bytes[place.clone()].copy_from_slice(&shape.bytes[BLOCK * other..BLOCK * (other + 1)]));
    }
    for number in [0, 1, 2, 3, block + 1, 256 + block, 65_535] {
        see(&shape.put(block, 0, &(number as u16).to_le_bytes()).bytes, &[0]);
    }
    for used in [0u16, 1, 4, 13, 23, 24, 25, 480, 503, 504, 505, 508, 65_535] {
        see(&shape.put(block, 2, &used.to_le_bytes()).bytes, &[0]);
    }
}

/// Each record's size field damaged, in a whole file and in one that is cut or longer; and each record's kind. The sums are put right.
pub fn each_record(plan: &Plan, see: See) {
    // The quick run has a share of the sizes and kinds that changes from record to record.
    let of = if plan.is_long() { 1 } else { 6 };
    for shape in shapes(&mut Rng::new(plan.seed, 17)) {
        let counted = u16::from_le_bytes([shape.bytes[4], shape.bytes[5]]);
        for record in (0..counted).filter(|&record| plan.has(u64::from(record))) {
            let at = usize::from(record);
            for size in damaged_sizes(record, counted, of) {
                let changed = shape.size(at, size);
                see(&changed.bytes, &[0]);
                if (size ^ record) % 4 == 0 || plan.is_long() {
                    see(&changed.cut(shape.bytes.len() - 1).bytes, &[0, -1]);
                    see(&changed.longer(5).bytes, &[0]);
                }
            }
            for other in (0..=65).filter(|other| (other + record) % of == 0) {
                see(&shape.field(at, KIND_AT, &[other as u8]).bytes, &[0]);
            }
        }
    }
}

/// Of all sizes that could be within the table one in a fixed number, those around what is left of it, and some that are far too large.
fn damaged_sizes(record: u16, counted: u16, of: u16) -> Vec<u16> {
    let left = counted - record;
    let inside = (0..=left + 2).filter(|size| (size + record) % of == 0 || *size < 4 || size + 1 >= left);
    inside.chain([255, 256, 2_101, 65_535]).collect()
}

pub fn random(checker: &mut Checker, plan: &Plan) {
    each_random_file(checker, plan, 24_000, &mut |checker, bytes, more| {
        check(checker, bytes, more);
        greedy_is_largest(checker, bytes);
    });
}

/// Random modules, sound and not, small and large, with random damage.
pub fn each_random_file(
    checker: &mut Checker,
    plan: &Plan,
    quick: u64,
    see: &mut dyn FnMut(&mut Checker, &[u8], &[isize]),
) {
    let dialects = dialect::all();
    let grow = |rng: &mut Rng, number| {
        let wild = rng.once_in(3);
        match number % 100 {
            0 => {
                let records = rng.within(300, 2_100);
                grow::large_module(rng, records, wild)
            }
            1..=49 => {
                let records = rng.within(10, 150);
                grow::large_module(rng, records, wild)
            }
            _ => grow::module(rng, wild),
        }
    };
    each_random(checker, plan, 19, quick, grow, |checker, rng, random| {
        let Encoded { mut table, names, .. } = random.encoded.clone();
        if rng.once_in(2) {
            spoil(rng, &mut table);
        }
        let mut dialect = dialects[rng.below(dialects.len())].clone();
        if rng.once_in(30) && !dialect.is_empty() {
            dialect[rng.below(9)] = 3;
        }
        let names_at = BLOCK * (1 + names.len().div_ceil(CONTENT));
        let edition = any_edition(random.number).filter(|&edition| !dialect.is_empty() && (edition < 3 || random.number % 5 == 0));
        let mut bytes = file::write(&Contents { table, names, dialect, edition });
        match rng.below(6) {
            0 => {}
            // The header and the names are whole.
            1 | 2 => bytes.truncate(rng.within(names_at, bytes.len())),
            3 | 4 => {
                let mut nodes = bytes.split_off(names_at);
                damage(rng, &mut nodes);
                bytes.extend(nodes);
            }
            _ => damage(rng, &mut bytes),
        }
        if rng.once_in(4) {
            bytes.extend((0..rng.within(1, 1_100)).map(|at| at as u8));
        }
        let more = rng.pick(&[0, 1, 700, -1, -512]);
        see(checker, &bytes, &[0, more]);
    });
}

/// A record's field that decides about children, or any bit.
fn spoil(rng: &mut Rng, table: &mut [u8]) {
    let record = rng.below(table.len() / RECORD_BYTES) * RECORD_BYTES;
    match rng.below(4) {
        0 => {
            let at = rng.below(table.len());
            table[at] ^= 1 << rng.below(8);
        }
        1 => table[record] = rng.below(66) as u8,
        2 => table[SIZE_AT] = table[SIZE_AT].wrapping_add(rng.pick(&[1, 2, 255, 254, 128])),
        _ => table[record + SIZE_AT] = table[record + SIZE_AT].wrapping_add(rng.pick(&[1, 255])),
    }
}

/// Where more children pass, fewer pass, too.
fn greedy_is_largest(checker: &mut Checker, input: &[u8]) {
    let passing = rescue::passing_cuts(input);
    let first_bad = passing.iter().position(|passes| !passes).unwrap_or(passing.len());
    checker.note(!passing[first_bad..].contains(&true), || "a cut passes, and a smaller one does not".to_owned());
}
