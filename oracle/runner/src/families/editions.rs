//! The editions of the type rules (W-212): edition 1 is the crate's, edition 2 is compared with the model and with edition 1; and block 0 with an edition byte.

use model::dialect::ALL_OPTIONS_INTERNAL;
use model::dialect::EXTENDED;
use model::dialect::STANDARD;
use model::file;
use model::file::Contents;
use model::file::BLOCK;
use model::jobs;
use model::numbers::kind;
use model::numbers::number;
use model::table::RECORD_BYTES;

use super::each_random;
use super::files::compare_output;
use super::files::contents;
use super::Plan;
use crate::cells::Cells;
use crate::cells::Encoded;
use crate::cells::FILE_AT;
use crate::cells::PLAIN;
use crate::cells::TYPE;
use crate::checker::Checker;
use crate::grow;
use crate::port::Job;
use crate::port::Request;
use crate::port::FIRST_EDITION;
use crate::port::NO_EDITION;
use crate::port::SECOND_EDITION;
use crate::rng::Rng;

const USED_AT: usize = 2;
const EDITION_AT: usize = 17;
const MOST: usize = 117 * BLOCK;

/// Names of cells.
const A: u8 = 0;
const B: u8 = 1;
const X: u8 = 23;

/// The request's type in both editions: what edition 1 answers is edition 2's answer, but for 44, which edition 2 never gives.
pub fn check_types_of_editions(checker: &mut Checker, request: &Request) {
    let Request { table, names, job: Job::Type { dialect, node, shapes, .. } } = *request else { return };
    if checker.wants(&request.job) {
        let of = |edition| jobs::type_shape(table, names, dialect, edition, node, shapes);
        let (first, second) = (of(FIRST_EDITION), of(SECOND_EDITION));
        let is_tied = second.number != number::DOT_TYPE_BAN && (first.number == number::DOT_TYPE_BAN || first == second);
        checker.note(is_tied, || format!("edition 1 answers {first:?}, edition 2 {second:?}"));
    }
}

/// A list of edition 1 without 44 is edition 2's, and edition 2's has no 44.
fn check_lists_of_editions(checker: &mut Checker, table: &[u8], names: &[u8], dialect: &[u8]) {
    let of = |edition| jobs::audit(table, names, dialect, edition).audited;
    let (first, second) = (of(FIRST_EDITION), of(SECOND_EDITION));
    let is_banned = |list: &[[u32; 5]]| list.iter().any(|error| error[0] == number::DOT_TYPE_BAN);
    let is_tied = !is_banned(&second) && (is_banned(&first) || first == second);
    checker.note(is_tied, || format!("edition 1 lists {first:?}, edition 2 {second:?}"));
}

/// Numbers that are not editions, those among them that are 1 or 2 in fewer bits.
fn no_editions() -> impl Iterator<Item = u32> {
    let in_fewer_bits = (3..32).flat_map(|bit| [1u32 << bit, (1 << bit) + 1, (1 << bit) + 2, (1 << bit) - 1]);
    [0, 3, NO_EDITION - 1].into_iter().chain(4..=300).chain(in_fewer_bits)
}

pub fn corners(checker: &mut Checker, _plan: &Plan) {
    by_hand(checker);
    numbers(checker);
    writers(checker);
}

/// A type as node 1, in Extended: what each edition answers.
fn expect_types(checker: &mut Checker, answers: [u32; 2], build: impl FnOnce(&mut Cells)) {
    let mut cells = Cells::default();
    cells.tree(kind::SIMPLE, 0, 0, build);
    let mut encoded = Encoded::default();
    encoded.write(&cells, &PLAIN);
    let Encoded { table, names, .. } = &encoded;
    for (edition, number) in [FIRST_EDITION, SECOND_EDITION].into_iter().zip(answers) {
        let job = Job::Type { dialect: &EXTENDED, edition, node: 1, shapes: table.len() / RECORD_BYTES };
        checker.expect(&Request { table, names, job }, number, None);
    }
}

/// A path that ends in `type` is a Path in edition 2, also as the base of an Index2; nothing else is.
fn by_hand(checker: &mut Checker) {
    let name = |cells: &mut Cells| cells.leaf(kind::IDENTIFIER, 0, X);
    let x_type = |cells: &mut Cells| cells.tree(kind::DOT, 0, TYPE, name);
    let int = |cells: &mut Cells| cells.leaf(kind::INT, 0, 0);
    expect_types(checker, [44, 0], x_type);
    expect_types(checker, [44, 0], |cells| cells.tree(kind::DOT, 0, TYPE, x_type));
    expect_types(checker, [0, 0], |cells| cells.tree(kind::DOT, 0, A, x_type));
    expect_types(checker, [42, 42], |cells| cells.tree(kind::DOT, 0, TYPE, int));
    expect_types(checker, [42, 42], |cells| cells.tree(kind::DOT, 0, B, int));
    let indexed = |cells: &mut Cells| {
        x_type(cells);
        cells.leaf(kind::IDENTIFIER, 0, A);
    };
    expect_types(checker, [40, 40], |cells| cells.tree(kind::INDEX, 0, 0, indexed));
    expect_types(checker, [44, 0], |cells| {
        cells.tree(kind::INDEX2, 0, 0, |cells| {
            indexed(cells);
            cells.leaf(kind::IDENTIFIER, 0, B);
        })
    });
    expect_types(checker, [43, 43], |cells| {
        cells.tree(kind::INDEX2, 0, 0, |cells| {
            int(cells);
            cells.leaf(kind::IDENTIFIER, 0, A);
            x_type(cells);
        })
    });
    // The first that is refused counts, so that edition 2 may refuse what is after.
    expect_types(checker, [44, 40], |cells| {
        cells.tree(kind::TUPLE, 0, 0, |cells| {
            x_type(cells);
            int(cells);
        })
    });
    expect_types(checker, [40, 40], |cells| {
        cells.tree(kind::TUPLE, 0, 0, |cells| {
            int(cells);
            x_type(cells);
        })
    });
}

/// A module with a type that edition 1 refuses, as node 3.
fn typed_module() -> Encoded {
    let mut cells = Cells::default();
    cells.tree(kind::STATEMENTS, 0, 0, |cells| {
        cells.tree(kind::ASSIGN, 1, 0, |cells| {
            cells.leaf(kind::IDENTIFIER, 0, A);
            cells.tree(kind::DOT, 0, TYPE, |cells| cells.leaf(kind::IDENTIFIER, 0, X));
            cells.leaf(kind::INT, 0, 0);
        });
    });
    let mut encoded = Encoded::default();
    encoded.write(&cells, &PLAIN);
    encoded
}

/// Anything but 1 and 2 is 5: after the dialect bytes, which are 5 too, and before 6 and 7.
fn numbers(checker: &mut Checker) {
    let Encoded { table, names, .. } = &typed_module();
    let mut unsound = table.clone();
    unsound[RECORD_BYTES + FILE_AT + 1] = 255;
    let mut ask = |table: &[u8], job: Job, number: u32| checker.expect(&Request { table, names, job }, number, None);
    for edition in no_editions().chain([NO_EDITION]) {
        for (node, shapes) in [(3, 9), (3, 0), (0, 9), (400, 0)] {
            ask(table, Job::Type { dialect: &EXTENDED, edition, node, shapes }, number::DIALECT);
        }
        ask(table, Job::Type { dialect: &STANDARD, edition, node: 3, shapes: 9 }, number::DIALECT);
        ask(&unsound, Job::Type { dialect: &EXTENDED, edition, node: 3, shapes: 9 }, number::UNSOUND);
        for dialect in [&EXTENDED[..], &[], &[1; 8]] {
            ask(table, Job::Audit { dialect, edition, errors: 10 }, number::DIALECT);
        }
        ask(&unsound, Job::Audit { dialect: &EXTENDED, edition, errors: 10 }, number::UNSOUND);
    }
    for (edition, list) in [(FIRST_EDITION, &[(44, 4)][..]), (SECOND_EDITION, &[])] {
        let job = Job::Audit { dialect: &EXTENDED, edition, errors: 10 };
        checker.expect_audit(&Request { table, names, job }, list);
    }
}

/// The writer: none, or 1 or 2 after a dialect; 5 comes before 7.
fn writers(checker: &mut Checker) {
    let mut ask = |dialect: &[u8], edition: u32, file: usize, number: u32| {
        let Contents { table, names, .. } = &contents(22, 505, dialect);
        checker.expect(&Request { table, names, job: Job::Write { dialect, edition, file } }, number, None);
    };
    for dialect in [&STANDARD[..], &EXTENDED, &ALL_OPTIONS_INTERNAL] {
        for edition in [1, 2, NO_EDITION] {
            ask(dialect, edition, MOST, 0);
            ask(dialect, edition, 2_560, 0);
            ask(dialect, edition, 2_559, number::SHORT_BUFFER);
        }
    }
    ask(&[], NO_EDITION, MOST, 0);
    for edition in no_editions().chain([1, 2]) {
        ask(&[], edition, MOST, number::DIALECT);
        ask(&[], edition, 0, number::DIALECT);
        ask(&[1; 8], edition, MOST, number::DIALECT);
    }
    no_editions().for_each(|edition| [0, MOST].into_iter().for_each(|file| ask(&STANDARD, edition, file, number::DIALECT)));
    for edition in [1, 2] {
        let held = Contents { edition: Some(edition), ..contents(22, 505, &STANDARD) };
        let written = jobs::write(&held.table, &held.names, &held.dialect, u32::from(edition), MOST).file;
        checker.note(written[..4] == [0, 0, 14, 0] && written[EDITION_AT] == edition, || "the edition is not the 14th used byte".to_owned());
        let read = file::read(&written);
        checker.note(read.as_ref() == Ok(&held), || format!("what is written reads back as {read:?}"));
        let without = jobs::write(&held.table, &held.names, &held.dialect, NO_EDITION, MOST).file;
        checker.note(written != without, || "a file with an edition is that without one".to_owned());
    }
}

/// A file through the reader, the check of a file and the rescue.
fn look(checker: &mut Checker, bytes: &[u8], expected: [u32; 2]) {
    let [of_reader, of_rescue] = expected;
    let request = |job| Request { table: bytes, names: &[], job };
    checker.expect(&request(Job::Read { table: MOST, names: MOST }), of_reader, None);
    checker.expect(&request(Job::CheckFile { errors: 40 }), of_reader, None);
    checker.expect(&request(Job::Rescue { file: MOST }), of_rescue, None);
}

/// A file whose block 0 says the given number of used bytes, has them in `content`, and has its sum put right.
fn with_block_0(used: u16, content: &[u8]) -> Vec<u8> {
    let mut bytes = file::write(&contents(22, 505, &STANDARD));
    bytes[USED_AT..USED_AT + 2].copy_from_slice(&used.to_le_bytes());
    bytes[8..8 + content.len()].copy_from_slice(content);
    bytes[8 + content.len()..508].fill(0);
    file::seal(&mut bytes[..BLOCK]);
    bytes
}

/// Every used count from 0 to 20, and every 14th byte; alone, and with what else is wrong with a file. The program is run on some of them.
pub fn files(checker: &mut Checker, plan: &Plan) {
    const BAD: [u32; 2] = [number::USED_BYTES, number::BAD_HEADER];
    for used in 0..=20u16 {
        for filled in 0..=20 {
            // The dialect's bytes, then an edition, then ones, as many as there are.
            let content: Vec<u8> = STANDARD.into_iter().chain([2]).chain([1; 10]).take(filled).collect();
            let is_padded = usize::from(used) >= 4 + content.iter().rposition(|&byte| byte != 0).map_or(0, |at| at + 1);
            let expected = match used {
                4 if is_padded => [0, 0],
                13 if is_padded => [0, 0],
                14 if is_padded && filled >= 10 => [0, 0],
                14 if is_padded => [number::DIALECT, number::BAD_HEADER],
                _ => BAD,
            };
            let bytes = with_block_0(used, &content);
            look(checker, &bytes, expected);
            if filled + 4 == usize::from(used) {
                compare_output(checker, plan, &bytes, false);
            }
        }
    }
    for byte in 0..=255u8 {
        let good = matches!(byte, 1 | 2);
        let expected = if good { [0, 0] } else { [number::DIALECT, number::BAD_HEADER] };
        for dialect in [STANDARD, EXTENDED, ALL_OPTIONS_INTERNAL] {
            look(checker, &with_block_0(14, &[&dialect[..], &[byte]].concat()), expected);
        }
        compare_output(checker, plan, &with_block_0(14, &[&STANDARD[..], &[byte]].concat()), false);
        look(checker, &with_block_0(14, &[9, 9, 9, 9, 9, 9, 9, 9, 9, byte]), [number::DIALECT, number::BAD_HEADER]);
        let mut both = with_block_0(14, &[&STANDARD[..], &[byte]].concat());
        // A wrong record is 3, and bytes left over are 75, before the edition.
        both[BLOCK * 3 + 4 + RECORD_BYTES + FILE_AT + 1] = 255;
        file::seal(&mut both[BLOCK * 3..BLOCK * 4]);
        look(checker, &both, [number::UNSOUND, if good { number::NOTHING_KEPT } else { number::BAD_HEADER }]);
        let rescued = if good { number::NOTHING_KEPT } else { number::BAD_HEADER };
        look(checker, &[&both[..], &[0]].concat(), [number::BYTES_LEFT_OVER, rescued]);
        let cut = &with_block_0(14, &[&STANDARD[..], &[byte]].concat())[..BLOCK * 4];
        look(checker, cut, [number::SHORT_BLOCK, if good { 0 } else { number::BAD_HEADER }]);
    }
}

/// Random modules, audited by both editions in dialects with types and without.
pub fn audits(checker: &mut Checker, plan: &Plan) {
    let grow = |rng: &mut Rng, number| grow::module(rng, number % 4 == 3);
    each_random(checker, plan, 51, 20_000, grow, |checker, _, random| {
        let Encoded { table, names, .. } = random.encoded;
        let dialect: &[u8] = [&ALL_OPTIONS_INTERNAL[..], &EXTENDED, &[], &STANDARD][(random.number % 4) as usize];
        let errors = table.len() / RECORD_BYTES * 20;
        for edition in [FIRST_EDITION, SECOND_EDITION] {
            checker.check(&Request { table, names, job: Job::Audit { dialect, edition, errors } });
        }
        if checker.wants(&Job::Audit { dialect, edition: FIRST_EDITION, errors }) {
            check_lists_of_editions(checker, table, names, dialect);
        }
    });
}
