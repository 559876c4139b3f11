//! Tables of two and more source files (W-208): with right numbers, and with one that is wrong.

use model::answer::Span;
use model::answer::AUDIT_WORDS;
use model::answer::ERROR_WORDS;
use model::dialect;
use model::dialect::ALL_OPTIONS_INTERNAL as ON;
use model::file;
use model::file::Contents;
use model::file::BLOCK;
use model::jobs;
use model::jobs::NONE;
use model::numbers::kind;
use model::numbers::number;
use model::table::Record;
use model::table::MOST_FILE;
use model::table::MOST_NODES;
use model::table::RECORD_BYTES;

use super::each_random;
use super::modules::every_job;
use super::Plan;
use crate::cells::Cells;
use crate::cells::Encoded;
use crate::cells::Files;
use crate::cells::Style;
use crate::cells::FILE_AT;
use crate::cells::PLAIN;
use crate::checker::Checker;
use crate::grow;
use crate::port::Job;
use crate::port::Request;
use crate::port::FIRST_EDITION;
use crate::port::NO_EDITION;
use crate::rng::Rng;

/// Both sides of each limit, and what a byte more or less makes of them.
const NUMBERS: [u16; 12] = [0, 1, 2, 255, 256, 257, 998, MOST_FILE, MOST_FILE + 1, 1_001, 1_025, 65_535];

/// The most bytes of a file.
const MOST_BYTES: usize = 117 * BLOCK;

/// What a record of a small table is: a root Statements, or in the top-level statement at this node.
#[derive(Clone, Copy)]
enum In {
    Root,
    Statement(usize),
}

/// A small table by hand: its records in preorder, and what each is in.
struct Small {
    cells: Cells,
    within: &'static [In],
}

fn int(cells: &mut Cells) {
    cells.leaf(kind::INT, 0, 0);
}

fn to_break(cells: &mut Cells) {
    cells.leaf(kind::BREAK, 0, 0);
}

fn small(within: &'static [In], build: impl FnOnce(&mut Cells)) -> Small {
    let mut cells = Cells::default();
    build(&mut cells);
    Small { cells, within }
}

/// A root Statements alone, other roots alone and with something below, and root Statements of several statements, one of them a nested
/// Statements, one with records two and three deep.
fn smalls() -> Vec<Small> {
    use In::Root;
    use In::Statement as At;
    let list = |cells: &mut Cells, build: &dyn Fn(&mut Cells)| cells.tree(kind::STATEMENTS, 0, 0, build);
    let value = |cells: &mut Cells| cells.tree(kind::RETURN, 0, 0, int);
    vec![
        small(&[Root], |cells| list(cells, &|_| {})),
        small(&[At(0)], to_break),
        small(&[At(0), At(0)], value),
        small(&[Root, At(1), At(2)], |cells| list(cells, &|cells| [to_break, to_break].iter().for_each(|add| add(cells)))),
        small(&[Root, At(1), At(1), At(3), At(3)], |cells| {
            list(cells, &|cells| {
                value(cells);
                cells.tree(kind::STATEMENTS, 0, 0, to_break);
            })
        }),
        small(&[Root, At(1), At(1), At(1), At(1), At(5)], |cells| {
            list(cells, &|cells| {
                cells.tree(kind::DEF, 0, 0, |cells| {
                    cells.tree(kind::NORMAL, 2, 0, int);
                    to_break(cells);
                });
                to_break(cells);
            })
        }),
        small(&[Root, At(1), At(1), At(1), At(4)], |cells| {
            list(cells, &|cells| {
                cells.tree(kind::STATEMENTS, 0, 0, |cells| cells.tree(kind::STATEMENTS, 0, 0, to_break));
                to_break(cells);
            })
        }),
    ]
}

/// The first record whose number is wrong.
fn first_wrong(within: &[In], numbers: &[u16]) -> Option<usize> {
    let is_wrong = |node: &usize| match within[*node] {
        In::Root => numbers[*node] != 0,
        In::Statement(at) if at == *node => !(1..=MOST_FILE).contains(&numbers[at]),
        In::Statement(at) => numbers[*node] != numbers[at],
    };
    (0..numbers.len()).find(is_wrong)
}

fn put_number(table: &mut [u8], node: usize, number: u16) {
    let at = RECORD_BYTES * node + FILE_AT;
    table[at..at + 2].copy_from_slice(&number.to_le_bytes());
}

fn number_of(table: &[u8], node: usize) -> u16 {
    Record::read(&table[RECORD_BYTES * node..]).file
}

pub fn corners(checker: &mut Checker, _plan: &Plan) {
    every_number(checker);
    children_first(checker);
    old_zeros(checker);
    lists_of_two_files(checker);
    refusals_of_two_files(checker);
    bindings_of_two_files(checker);
}

/// Small tables with every row of these numbers, by hand; those of few records with more numbers.
fn every_number(checker: &mut Checker) {
    for Small { cells, within } in smalls() {
        let numbers: &[u16] = if within.len() <= 3 { &NUMBERS } else { &[0, 1, 2, MOST_FILE, MOST_FILE + 1] };
        let mut encoded = Encoded::default();
        encoded.write(&cells, &PLAIN);
        for code in 0..numbers.len().pow(within.len() as u32) {
            let row: Vec<u16> =
                (0..within.len() as u32).map(|at| numbers[code / numbers.len().pow(at) % numbers.len()]).collect();
            row.iter().enumerate().for_each(|(node, &number)| put_number(&mut encoded.table, node, number));
            let first = first_wrong(within, &row);
            expect_first(checker, &encoded, first);
            if first.is_none() || code % 37 == 0 {
                expect_file(checker, &encoded, first);
            }
        }
    }
}

/// 3 at this record, or no refusal: by the table check, the module pass and the audit.
fn expect_first(checker: &mut Checker, encoded: &Encoded, first: Option<usize>) {
    let Encoded { table, names, .. } = encoded;
    let words: Vec<u32> = first.into_iter().map(|node| node as u32).collect();
    let number = if first.is_some() { number::UNSOUND } else { 0 };
    checker.expect(&Request { table, names, job: Job::Table }, number, Some(&words));
    if number != 0 {
        for job in [Job::Module { dialect: &ON, errors: 9 }, Job::Audit { dialect: &ON, edition: FIRST_EDITION, errors: 9 }] {
            checker.expect(&Request { table, names, job }, number, Some(&words));
        }
    }
    for job in [Job::Target { node: 1 }, Job::Write { dialect: &ON, edition: NO_EDITION, file: MOST_BYTES }] {
        checker.check(&Request { table, names, job });
    }
}

/// The same as a file: 3 with the node where it is read or checked. The rescue is compared.
fn expect_file(checker: &mut Checker, encoded: &Encoded, first: Option<usize>) {
    let Encoded { table, names, .. } = encoded.clone();
    let bytes = file::write(&Contents { table, names, dialect: ON.to_vec(), edition: None });
    let (table, names) = (encoded.table.len(), encoded.names.len());
    let read = Request { table: &bytes, names: &[], job: Job::Read { table, names } };
    let listed = Request { table: &bytes, names: &[], job: Job::CheckFile { errors: 9 } };
    match first {
        Some(node) => [read, listed].iter().for_each(|job| checker.expect(job, number::UNSOUND, Some(&[node as u32]))),
        None => [read, listed].iter().for_each(|job| checker.check(job)),
    }
    checker.check(&Request { table: &bytes, names: &[], job: Job::Rescue { file: MOST_BYTES } });
}

/// A parent whose children do not fill it, or are too many, comes before a child's wrong number.
fn children_first(checker: &mut Checker) {
    let mut cells = Cells::default();
    cells.tree(kind::STATEMENTS, 0, 0, |cells| {
        cells.tree(kind::RETURN, 0, 0, |cells| [int, int].iter().for_each(|add| add(cells)));
        to_break(cells);
    });
    let mut encoded = Encoded::default();
    encoded.write(&cells, &PLAIN);
    for number in [0, 2, MOST_FILE + 1] {
        for node in 2..5 {
            put_number(&mut encoded.table, node, number);
            expect_first(checker, &encoded, Some(1));
        }
        put_number(&mut encoded.table, 1, number);
        expect_first(checker, &encoded, Some(1));
    }
    // The root does not cover the table, and its own number is right: node 0, whatever the others have.
    encoded.table[16] = 4;
    expect_first(checker, &encoded, Some(0));
}

/// Tables without numbers: refused, but for a root Statements alone. Nothing can be rescued of them.
fn old_zeros(checker: &mut Checker) {
    for Small { cells, within } in smalls() {
        let mut encoded = Encoded::default();
        encoded.write(&cells, &Style { files: Files::One(0), ..PLAIN });
        let first = match within {
            [In::Root] => None,
            [In::Root, ..] => Some(1),
            _ => Some(0),
        };
        expect_first(checker, &encoded, first);
        expect_file(checker, &encoded, first);
        let Encoded { table, names, .. } = encoded.clone();
        let bytes = file::write(&Contents { table, names, dialect: Vec::new(), edition: None });
        let request = Request { table: &bytes, names: &[], job: Job::Rescue { file: MOST_BYTES } };
        match first {
            None => checker.expect(&request, 0, Some(&[1_024, 0, 1, 0, 0, 0])),
            Some(_) => checker.expect(&request, number::NOTHING_KEPT, Some(&[])),
        }
    }
}

/// Statements of the source files 7, 5, 7 and 999, in which nearly all is refused.
fn four_statements() -> Encoded {
    let mut cells = Cells::default();
    cells.tree(kind::STATEMENTS, 0, 0, |cells| {
        // 1: def f(a, a=..., /): break
        cells.tree(kind::DEF, 0, 0, |cells| {
            cells.leaf(kind::NORMAL, 0, 0);
            cells.tree(kind::NORMAL, 2, 0, |cells| cells.leaf(kind::ELLIPSIS, 0, 0));
            cells.leaf(kind::SLASH, 0, 0);
            to_break(cells);
        });
        // 7: 0(x=0, x=lambda: 0)
        cells.tree(kind::SIMPLE, 0, 0, |cells| {
            cells.tree(kind::CALL, 0, 0, |cells| {
                int(cells);
                cells.tree(kind::NAMED, 0, 1, int);
                cells.tree(kind::NAMED, 0, 1, |cells| cells.tree(kind::LAMBDA, 0, 0, int));
            })
        });
        // 15: return
        cells.leaf(kind::RETURN, 0, 0);
        // 16: x, x: 0 = 0
        cells.tree(kind::ASSIGN, 1, 0, |cells| {
            cells.tree(kind::TUPLE, 0, 0, |cells| (0..2).for_each(|_| cells.leaf(kind::IDENTIFIER, 0, 1)));
            int(cells);
            int(cells);
        });
    });
    let mut encoded = Encoded::default();
    encoded.write(&cells, &PLAIN);
    for (nodes, number) in [(1..7, 7), (7..15, 5), (15..16, 7), (16..22, 999)] {
        nodes.for_each(|node| put_number(&mut encoded.table, node, number));
    }
    encoded
}

/// Only keyword-only parameters and top-level statements are permitted.
const LITTLE: [u8; 9] = [0, 0, 0, 1, 0, 0, 0, 1, 0];

/// The whole lists by hand: number, file, node. Those of statements in turn, then those of expressions.
fn lists_of_two_files(checker: &mut Checker) {
    let encoded = four_statements();
    let Encoded { table, names, .. } = &encoded;
    let spanned = |&(number, file, node): &(u32, u32, usize)| {
        let Span { begin, end, .. } = Record::read(&table[RECORD_BYTES * node..]).span();
        [number, file, begin, end, node as u32]
    };
    let without_node = |error: [u32; AUDIT_WORDS]| -> [u32; ERROR_WORDS] { [error[0], error[1], error[2], error[3]] };
    let module = [(52, 7, 1), (51, 7, 5), (11, 7, 3), (55, 7, 6), (57, 7, 15), (60, 7, 4), (61, 5, 13)];
    let module: Vec<[u32; ERROR_WORDS]> = module.iter().map(spanned).map(without_node).collect();
    let own = [(52, 7, 1), (51, 7, 5), (55, 7, 6), (57, 7, 15), (60, 7, 4), (61, 5, 13)];
    let refused = [(11, 7, 3), (22, 5, 12), (33, 999, 20), (45, 999, 20)];
    let mut audit: Vec<[u32; AUDIT_WORDS]> = own.iter().chain(&refused).map(spanned).collect();
    // 22 has the name's span.
    audit[7][2..4].copy_from_slice(&[1_003_600, 1_003_601]);
    let listed = jobs::module(table, names, &LITTLE).errors;
    checker.note(listed == module, || format!("the model lists {listed:?}, by hand it is {module:?}"));
    let audited = jobs::audit(table, names, &LITTLE, FIRST_EDITION).audited;
    checker.note(audited == audit, || format!("the model audits {audited:?}, by hand it is {audit:?}"));
    let bytes = file::write(&Contents { table: table.clone(), names: names.clone(), dialect: LITTLE.to_vec(), edition: None });
    let printed = jobs::printed(&bytes);
    let lines: String = module.iter().map(|[number, file, begin, end]| format!("{number} {file} {begin} {end}\n")).collect();
    checker.note(printed == format!("nodes 22\n{lines}errors 7\n"), || format!("the model prints {printed:?}"));
    for errors in 0..=AUDIT_WORDS * audit.len() + 2 {
        checker.check(&Request { table, names, job: Job::Module { dialect: &LITTLE, errors } });
        checker.check(&Request { table, names, job: Job::Audit { dialect: &LITTLE, edition: FIRST_EDITION, errors } });
        checker.check(&Request { table: &bytes, names: &[], job: Job::CheckFile { errors } });
    }
}

/// A refusal by hand: number, node, earlier node or none, file.
type Refused = (u32, usize, u32, u32);

fn expect_refusal(checker: &mut Checker, encoded: &Encoded, job: Job, (number, node, earlier, file): Refused) {
    let Encoded { table, names, .. } = encoded;
    let record = Record::read(&table[RECORD_BYTES * node..]);
    let Span { begin, end, .. } = if number == number::REPEATED_NAMED { record.name_span() } else { record.span() };
    checker.expect(&Request { table, names, job }, number, Some(&[node as u32, begin, end, earlier, file]));
}

/// Each job refuses with the number of its own statement.
fn refusals_of_two_files(checker: &mut Checker) {
    let encoded = four_statements();
    expect_refusal(checker, &encoded, Job::Params { node: 1, modes: 9 }, (11, 3, 2, 7));
    expect_refusal(checker, &encoded, Job::Call { node: 8 }, (22, 12, 10, 5));
    expect_refusal(checker, &encoded, Job::Target { node: 9 }, (30, 9, NONE, 5));
    expect_refusal(checker, &encoded, Job::Target { node: 4 }, (30, 4, NONE, 7));
    expect_refusal(checker, &encoded, Job::Assignment { node: 16 }, (33, 20, NONE, 999));
    for (dialect, number) in [(&LITTLE, 45), (&ON, 40)] {
        expect_refusal(checker, &encoded, Job::Type { dialect, edition: FIRST_EDITION, node: 20, shapes: 9 }, (number, 20, NONE, 999));
        expect_refusal(checker, &encoded, Job::Type { dialect, edition: FIRST_EDITION, node: 9, shapes: 9 }, (number, 9, NONE, 5));
    }
    expect_refusal(checker, &encoded, Job::Bind { call: 8, def: 1, list: 9 }, (11, 3, 2, 7));
}

/// A def of one source file and a call of another: 10 to 19 and 84 with the def's number, 20 to 24 and 80 to 83 with the call's.
fn bindings_of_two_files(checker: &mut Checker) {
    const DEF: u16 = 300;
    const CALL: u16 = 40;
    let (of_def, of_call) = (u32::from(DEF), u32::from(CALL));
    let entry = |cells: &mut Cells, kind: u8, name: u8| cells.leaf(kind, 0, name);
    // The def's parameters; the call's arguments, each with an Int below; the refusal. The def is at node 1, its first parameter at 2.
    type Row<'a> = (&'a [(u8, u8)], &'a [(u8, u8)], u32, usize, u32, u32);
    let a = (kind::NORMAL, 0);
    let b = (kind::NORMAL, 1);
    let by_place = (kind::POSITIONAL, 0);
    let rows: [Row; 8] = [
        (&[a, a], &[by_place], 11, 3, 2, of_def),
        (&[a, (kind::NO_ARGS, 0)], &[by_place], 17, 3, NONE, of_def),
        (&[a, b], &[by_place], 84, 3, NONE, of_def),
        (&[a], &[(kind::NAMED, 0), (kind::NAMED, 0)], 22, 9, 7, of_call),
        (&[a], &[(kind::STAR_ARGUMENT, 0)], 80, 7, NONE, of_call),
        (&[a], &[by_place, by_place], 81, 9, NONE, of_call),
        (&[a], &[(kind::NAMED, 1)], 82, 7, NONE, of_call),
        (&[a], &[by_place, (kind::NAMED, 0)], 83, 9, NONE, of_call),
    ];
    for (list, call, number, node, earlier, file) in rows {
        let mut cells = Cells::default();
        cells.tree(kind::STATEMENTS, 0, 0, |cells| {
            cells.tree(kind::DEF, 0, 0, |cells| {
                list.iter().for_each(|&(kind, name)| entry(cells, kind, name));
                to_break(cells);
            });
            cells.tree(kind::SIMPLE, 0, 0, |cells| {
                cells.tree(kind::CALL, 0, 0, |cells| {
                    int(cells);
                    call.iter().for_each(|&(kind, name)| cells.tree(kind, 0, name, int));
                })
            });
        });
        let mut encoded = Encoded::default();
        encoded.write(&cells, &PLAIN);
        let statement = 3 + list.len();
        (1..statement).for_each(|node| put_number(&mut encoded.table, node, DEF));
        (statement..cells.all.len()).for_each(|node| put_number(&mut encoded.table, node, CALL));
        let job = Job::Bind { call: statement + 1, def: 1, list: 9 };
        expect_refusal(checker, &encoded, job, (number, node, earlier, file));
    }
}

/// Tables of many shapes: breaks alone, up to as many as there can be; statements of many records; one statement; another root; random.
fn shapes(rng: &mut Rng) -> Vec<(Cells, Files)> {
    let breaks = |count: usize| {
        let mut cells = Cells::default();
        cells.tree(kind::STATEMENTS, 0, 0, |cells| (0..count).for_each(|_| to_break(cells)));
        cells
    };
    let blocks = |count: u8| {
        let mut cells = Cells::default();
        cells.tree(kind::STATEMENTS, 0, 0, |cells| {
            (1..=count).for_each(|records| {
                cells.tree(kind::STATEMENTS, 0, 0, |cells| (1..records).for_each(|_| to_break(cells)));
            })
        });
        cells
    };
    let mut other = Cells::default();
    other.tree(kind::DEF, 0, 0, |cells| {
        cells.tree(kind::NORMAL, 2, 1, int);
        cells.tree(kind::STATEMENTS, 0, 0, |cells| (0..20).for_each(|_| to_break(cells)));
    });
    let mut shapes = vec![
        (breaks(40), Files::Turns(2)),
        (breaks(MOST_NODES - 1), Files::Turns(MOST_FILE)),
        (blocks(1), Files::One(MOST_FILE)),
        (blocks(14), Files::Each(1)),
        (blocks(14), Files::Turns(3)),
        (other, Files::One(998)),
    ];
    shapes.extend((0..8).map(|seed| (grow::large_module(rng, 60 + 40 * seed, false), Files::Each(seed as u64))));
    shapes
}

/// Each record of such tables with each number that could pass for right: those at the limits, next to its own, and those of the statements
/// around. Every job on some of them, and the file of some.
pub fn records(checker: &mut Checker, plan: &Plan) {
    let dialects = dialect::all();
    let mut rng = plan.rng(42);
    let mut encoded = Encoded::default();
    let mut turn = 0;
    for (cells, files) in shapes(&mut Rng::new(plan.seed, 42)) {
        encoded.write(&cells, &Style { files, ..PLAIN });
        let count = cells.all.len();
        // Of a table of thousands some records, in the long run all.
        let step = if plan.is_long() { 1 } else { 1 + count / 500 };
        for node in (0..count).step_by(step).filter(|&node| plan.has(node as u64 / step as u64)) {
            let good = number_of(&encoded.table, node);
            let around = [node.saturating_sub(1), (node + 1).min(count - 1), 0, count - 1].map(|at| number_of(&encoded.table, at));
            let next = [good.wrapping_sub(1), good + 1, good ^ 256];
            for number in NUMBERS.into_iter().chain(around).chain(next).filter(|&number| number != good) {
                if checker.is_done() {
                    return;
                }
                put_number(&mut encoded.table, node, number);
                let Encoded { table, names, .. } = &encoded;
                checker.check(&Request { table, names, job: Job::Table });
                turn += 1;
                if turn % 11 == 0 {
                    every_job(checker, &mut rng, table, names, &dialects);
                }
                if turn % 13 == 0 {
                    check_file(checker, &encoded);
                }
            }
            put_number(&mut encoded.table, node, good);
        }
    }
}

/// A table's file: read, checked and rescued.
fn check_file(checker: &mut Checker, encoded: &Encoded) {
    let Encoded { table, names, .. } = encoded.clone();
    let rooms = Job::Read { table: table.len(), names: names.len() };
    let errors = ERROR_WORDS * jobs::module(&table, &names, &ON).errors.len();
    let bytes = file::write(&Contents { table, names, dialect: ON.to_vec(), edition: None });
    for job in [rooms, Job::CheckFile { errors }, Job::Rescue { file: bytes.len() }] {
        checker.check(&Request { table: &bytes, names: &[], job });
    }
}

/// Random modules whose statements are of random source files, half of them with one wrong number: every job, and the file of some.
pub fn random(checker: &mut Checker, plan: &Plan) {
    let dialects = dialect::all();
    let grow = |rng: &mut Rng, number| {
        let wild = rng.once_in(4);
        match number % 20 {
            0 => {
                let records = rng.within(100, 600);
                grow::large_module(rng, records, wild)
            }
            _ => grow::module(rng, wild),
        }
    };
    let mut encoded = Encoded::default();
    each_random(checker, plan, 43, 24_000, grow, |checker, rng, random| {
        encoded.write(random.cells, &Style { files: Files::Each(rng.next()), ..PLAIN });
        if random.number % 2 == 1 {
            let node = rng.below(random.cells.all.len());
            let (good, other) = (number_of(&encoded.table, node), number_of(&encoded.table, rng.below(random.cells.all.len())));
            let number = rng.pick(&[0, 1, MOST_FILE, MOST_FILE + 1, good.wrapping_sub(1), good + 1, other, 65_535]);
            put_number(&mut encoded.table, node, number);
        }
        every_job(checker, rng, &encoded.table, &encoded.names, &dialects);
        if random.number % 7 == 0 {
            check_file(checker, &encoded);
        }
    });
}
