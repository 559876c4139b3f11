//! Each boundary on both sides, and inputs that are wrong in several ways at once.

use model::answer::AUDIT_WORDS;
use model::answer::ERROR_WORDS;
use model::numbers::kind;
use model::numbers::number;
use model::params::MOST_ENTRIES;
use model::table::Record;
use model::table::MOST_NAME_BYTES;
use model::table::MOST_NODES;
use model::table::MOST_POSITION;

use super::write_fitting;
use super::Plan;
use crate::cells::Cells;
use crate::cells::Encoded;
use crate::cells::FILE_AT;
use crate::cells::PLAIN;
use crate::checker::Checker;
use crate::grow;
use crate::port::Job;
use crate::port::Request;
use crate::port::FIRST_EDITION;
use crate::port::NO_EDITION;
use crate::rng::Rng;

pub fn boundaries(checker: &mut Checker, plan: &Plan) {
    let mut rng = plan.rng(13);
    table_lengths(checker);
    name_bytes(checker);
    name_fields(checker);
    positions(checker);
    nodes_and_buffers(checker, &mut rng);
    overlapping(checker);
    error_lists(checker);
    list_entries(checker);
    depths(checker);
    wrong_in_several_ways(checker);
}

/// A root Statements with the given number of records in all.
fn flat_table(records: usize) -> Vec<u8> {
    let mut cells = Cells::default();
    cells.tree(kind::STATEMENTS, 0, 0, |cells| (1..records).for_each(|_| cells.leaf(kind::BREAK, 0, 0)));
    let mut encoded = Encoded::default();
    encoded.write(&cells, &PLAIN);
    encoded.table
}

fn table_lengths(checker: &mut Checker) {
    for records in [1, 2, MOST_NODES - 1, MOST_NODES, MOST_NODES + 1, 2 * MOST_NODES] {
        let whole = flat_table(records);
        for table in [&whole[..], &whole[..whole.len() - 1], &whole[..whole.len() - 24]] {
            all_jobs_at(checker, table, &[], &[], 0, 10_000);
        }
        let longer = [&whole[..], &[0]].concat();
        all_jobs_at(checker, &longer, &[], &[], 0, 10_000);
    }
}

/// Every job at one node, with buffers of one length.
fn all_jobs_at(checker: &mut Checker, table: &[u8], names: &[u8], dialect: &[u8], node: usize, room: usize) {
    all_jobs_in(checker, table, names, dialect, [FIRST_EDITION, NO_EDITION], node, room);
}

/// The same in an edition, and in another one for the writer.
fn all_jobs_in(checker: &mut Checker, table: &[u8], names: &[u8], dialect: &[u8], editions: [u32; 2], node: usize, room: usize) {
    let [edition, written] = editions;
    // Where a job takes two nodes the other is one that it wants, if there is one.
    let first = |kind: u8| table.chunks_exact(24).position(|record| record[0] == kind).unwrap_or(0);
    let jobs = [
        Job::Table,
        Job::Params { node, modes: room },
        Job::Call { node },
        Job::Target { node },
        Job::Assignment { node },
        Job::Type { dialect, edition, node, shapes: room },
        Job::Module { dialect, errors: room },
        Job::Write { dialect, edition: written, file: 512 * room.min(118) },
        Job::Bind { call: node, def: first(kind::DEF), list: room },
        Job::Bind { call: first(kind::CALL), def: node, list: room },
        Job::Audit { dialect, edition, errors: room },
    ];
    for job in jobs {
        checker.check(&Request { table, names, job });
    }
}

fn name_bytes(checker: &mut Checker) {
    let table = flat_table(3);
    for length in [0, 1, MOST_NAME_BYTES - 1, MOST_NAME_BYTES, MOST_NAME_BYTES + 1, 70_000] {
        all_jobs_at(checker, &table, &vec![b'n'; length], &[], 0, 10);
    }
}

/// A table that holds one record of each kind with a name, and the nodes where they are.
fn named_records() -> (Cells, Vec<usize>) {
    let mut cells = Cells::default();
    cells.tree(kind::SIMPLE, 0, 0, |cells| {
        cells.tree(kind::CALL, 0, 0, |cells| {
            cells.tree(kind::DOT, 0, 0, |cells| cells.leaf(kind::IDENTIFIER, 0, 1));
            cells.tree(kind::NAMED, 0, 2, |cells| {
                cells.tree(kind::LAMBDA, 0, 0, |cells| {
                    cells.leaf(kind::NORMAL, 0, 3);
                    cells.leaf(kind::ARGS, 0, 4);
                    cells.leaf(kind::KWARGS, 0, 5);
                    cells.leaf(kind::INT, 0, 0);
                })
            });
        })
    });
    let nodes = (0..cells.all.len()).collect();
    (cells, nodes)
}

/// Changes a record of that table in some way, and runs every job.
fn with_changed_record(checker: &mut Checker, names: &[u8], change: impl Fn(&mut Record)) {
    let (cells, nodes) = named_records();
    let mut encoded = Encoded::default();
    encoded.write(&cells, &PLAIN);
    for &node in &nodes {
        let mut table = encoded.table.clone();
        let bytes = &mut table[24 * node..24 * node + 24];
        let mut record = Record::read(bytes);
        change(&mut record);
        bytes.copy_from_slice(&record.write());
        (0..nodes.len()).for_each(|asked| all_jobs_at(checker, &table, names, &[], asked, 40));
    }
}

fn name_fields(checker: &mut Checker) {
    let names = vec![b'q'; 300];
    for length in [0, 1, 254, 255, 256, 300, 65_535] {
        for start in [0, 1, 44, 45, 46, 299, 300, 301, u32::MAX, u32::MAX - 254, u32::MAX - 255] {
            with_changed_record(checker, &names, |record| {
                record.name_len = length;
                record.name_start = start;
            });
        }
    }
}

fn positions(checker: &mut Checker) {
    let names = vec![b'q'; 300];
    let ends = [0, 1, MOST_POSITION - 1, MOST_POSITION, MOST_POSITION + 1, u32::MAX];
    for begin in ends {
        for end in ends {
            with_changed_record(checker, &names, |record| {
                record.begin = begin;
                record.end = end;
            });
        }
    }
    for source in [0, 1, MOST_POSITION - 2, MOST_POSITION - 1, MOST_POSITION, MOST_POSITION + 1, u32::MAX] {
        with_changed_record(checker, &names, |record| record.source = source);
    }
}

/// The last node and the one after it; buffers just long enough and one short.
fn nodes_and_buffers(checker: &mut Checker, rng: &mut Rng) {
    let mut encoded = Encoded::default();
    for _ in 0..300 {
        let cells = grow::module(rng, true);
        write_fitting(&mut encoded, &cells, &PLAIN);
        let count = cells.all.len();
        let on = [1, 1, 1, 1, 1, 2, 1, 1, 1];
        for node in [0, count - 1, count, count + 1, 1 << 16, 1 << 32, usize::MAX / 24, usize::MAX] {
            all_jobs_at(checker, &encoded.table, &encoded.names, &on, node, count);
        }
        for (node, cell) in cells.all.iter().enumerate() {
            let written = cells.written_parameters(node);
            for room in [usize::from(cell.size) - 1, usize::from(cell.size), written.max(1) - 1, written] {
                all_jobs_at(checker, &encoded.table, &encoded.names, &on, node, room);
            }
        }
    }
}

/// The table passed as its own names, too: what is only read may overlap.
fn overlapping(checker: &mut Checker) {
    // Rows of their own, so that the other jobs stay as they were.
    let mut rng = Rng::new(13, 1);
    let mut encoded = Encoded::default();
    for _ in 0..200 {
        let cells = grow::module(&mut rng, true);
        encoded.write(&cells, &PLAIN);
        let table = &encoded.table[..];
        for node in [0, cells.all.len() / 2, cells.all.len() - 1] {
            all_jobs_at(checker, table, table, &[1, 1, 1, 1, 1, 2, 1, 1, 1], node, cells.all.len());
        }
    }
}

/// A list of the given number of entries: ordinary ones with names of their own, where `marked` with `/` and `*` among them, and one that breaks a rule.
fn add_entries(cells: &mut Cells, count: usize, marked: bool, broken: Broken) {
    for place in 0..count {
        let name = place as u8;
        match (place, broken) {
            (0, Broken::Slash) | (2, _) if place == 0 || marked => cells.leaf(kind::SLASH, 0, 0),
            (1, Broken::Repeated) => cells.leaf(kind::NORMAL, 0, 0),
            (1, Broken::Default) => cells.tree(kind::NORMAL, 2, name, |cells| cells.leaf(kind::INT, 0, 0)),
            (_, Broken::Star) if place + 1 == count => cells.leaf(kind::NO_ARGS, 0, 0),
            (5, _) if marked => cells.leaf(kind::NO_ARGS, 0, 0),
            _ => cells.leaf(kind::NORMAL, 0, name),
        }
    }
}

/// Which rule of its own a list breaks: none, 10, 11, 13, or 17 (14 where there is another star).
#[derive(Clone, Copy)]
enum Broken {
    Nothing,
    Slash,
    Repeated,
    Default,
    Star,
}

/// 47, 48 and 49 entries, with and without marks, of a Def and of a Lambda, that break no other rule or one: by every job, with rooms around
/// what each needs.
fn list_entries(checker: &mut Checker) {
    let mut encoded = Encoded::default();
    for count in [MOST_ENTRIES - 1, MOST_ENTRIES, MOST_ENTRIES + 1, MOST_ENTRIES + 2, 4 * MOST_ENTRIES] {
        for marked in [false, true] {
            for broken in [Broken::Nothing, Broken::Slash, Broken::Repeated, Broken::Default, Broken::Star] {
                let mut cells = Cells::default();
                cells.tree(kind::STATEMENTS, 0, 0, |cells| {
                    cells.tree(kind::DEF, 0, 0, |cells| {
                        add_entries(cells, count, marked, broken);
                        cells.leaf(kind::SIMPLE, 0, 0);
                    });
                    cells.tree(kind::SIMPLE, 0, 0, |cells| {
                        cells.tree(kind::LAMBDA, 0, 0, |cells| {
                            add_entries(cells, count, marked, broken);
                            cells.leaf(kind::INT, 0, 0);
                        });
                        cells.tree(kind::CALL, 0, 0, |cells| cells.leaf(kind::IDENTIFIER, 0, 1));
                    });
                });
                encoded.write(&cells, &PLAIN);
                let lambda = cells.all.iter().position(|cell| cell.kind == kind::LAMBDA).expect("there is one");
                for dialect in [&[1, 1, 1, 1, 1, 2, 1, 1, 1], &[0; 9]] {
                    for room in [0, count - 1, count, count + 1, 6 * AUDIT_WORDS, 2 * count + 9] {
                        all_jobs_at(checker, &encoded.table, &encoded.names, dialect, 1, room);
                        all_jobs_at(checker, &encoded.table, &encoded.names, dialect, lambda, room);
                    }
                }
            }
        }
    }
}

/// Lists from no word to more than enough, for modules of few errors and of the most there can be.
fn error_lists(checker: &mut Checker) {
    let misplaced = flat_table(7);
    for errors in 0..=6 * AUDIT_WORDS + 1 {
        checker.check(&Request { table: &misplaced, names: &[], job: Job::Module { dialect: &[], errors } });
        checker.check(&Request { table: &misplaced, names: &[], job: Job::Audit { dialect: &[], edition: FIRST_EDITION, errors } });
    }
    let full = flat_table(MOST_NODES);
    let total = ERROR_WORDS * (MOST_NODES - 1);
    for errors in [0, 1, 3, 4, total - 5, total - 4, total - 1, total, total + 1, 8 * MOST_NODES] {
        checker.check(&Request { table: &full, names: &[], job: Job::Module { dialect: &[], errors } });
    }
    let total = AUDIT_WORDS * (MOST_NODES - 1);
    for errors in [0, 1, 2, 4, 5, total - 6, total - 5, total - 1, total, total + 1, 15 * MOST_NODES] {
        checker.check(&Request { table: &full, names: &[], job: Job::Audit { dialect: &[], edition: FIRST_EDITION, errors } });
    }
}

/// Ways from an expression to the next one below it: the record between them, or the parent itself, and its detail; then how many records a
/// level has before the next one begins, and how many of the innermost level are before its first expression.
const WAYS: [(u8, u8, usize, usize); 12] = [
    (kind::NOT, 0, 1, 1),
    (kind::CALL, 0, 1, 1),
    (kind::LAMBDA, 0, 2, 2),
    (kind::POSITIONAL, 0, 3, 1),
    (kind::NAMED, 0, 3, 1),
    (kind::STAR_ARGUMENT, 0, 3, 1),
    (kind::STAR_STAR_ARGUMENT, 0, 3, 1),
    (kind::NORMAL, 1, 2, 2),
    (kind::NORMAL, 2, 2, 2),
    (kind::NORMAL, 3, 2, 2),
    (kind::ARGS, 1, 2, 2),
    (kind::KWARGS, 1, 2, 2),
];

/// So many levels of one way, and an Int below them.
fn way_down(cells: &mut Cells, (between, detail): (u8, u8), levels: usize) {
    let next = |cells: &mut Cells| way_down(cells, (between, detail), levels - 1);
    match between {
        _ if levels == 0 => cells.leaf(kind::INT, 0, 0),
        kind::NOT | kind::CALL => cells.tree(between, 0, 0, next),
        kind::LAMBDA => cells.tree(kind::LAMBDA, 0, 0, |cells| {
            cells.leaf(kind::NORMAL, 0, 1);
            next(cells);
        }),
        kind::POSITIONAL..=kind::STAR_STAR_ARGUMENT => cells.tree(kind::CALL, 0, 0, |cells| {
            cells.leaf(kind::IDENTIFIER, 0, 5);
            cells.tree(between, 0, 1, next);
        }),
        _ => cells.tree(kind::LAMBDA, 0, 0, |cells| {
            cells.tree(between, detail, 1, |cells| {
                next(cells);
                (2..detail).for_each(|_| cells.leaf(kind::INT, 0, 0));
            });
            cells.leaf(kind::INT, 0, 0);
        }),
    }
}

/// Each way down, as deep as permitted and one deeper, by hand: under one simple statement 62 levels pass, and of 63 the first expression of
/// the innermost is too deep. Parameters and arguments do not count (W-206). Then every job around the limit.
fn depths(checker: &mut Checker) {
    let mut encoded = Encoded::default();
    for (between, detail, each, before) in WAYS {
        for levels in 60..=65 {
            let mut cells = Cells::default();
            cells.tree(kind::SIMPLE, 0, 0, |cells| way_down(cells, (between, detail), levels));
            encoded.write(&cells, &PLAIN);
            let (table, names) = (&encoded.table[..], &encoded.names[..]);
            let first_deep = [(1 + 62 * each + before) as u32];
            let (number, words): (u32, &[u32]) = if levels < 63 { (0, &[]) } else { (number::DEPTH, &first_deep) };
            checker.expect(&Request { table, names, job: Job::Table }, number, Some(words));
            let count = cells.all.len();
            for node in (0..8).chain(count - 8..count + 1) {
                all_jobs_at(checker, table, names, &[1, 1, 1, 1, 1, 2, 1, 1, 1], node, count);
            }
        }
    }
}

/// All combinations of the eight things that can be wrong before a job begins: the first number counts. Of these the dialect and the edition are both 5.
fn wrong_in_several_ways(checker: &mut Checker) {
    let mut cells = Cells::default();
    // Node 1 is a Def, node 2 its parameter, node 5 a Call, node 6 its callee.
    cells.tree(kind::STATEMENTS, 0, 0, |cells| {
        cells.tree(kind::DEF, 0, 0, |cells| {
            cells.leaf(kind::NORMAL, 0, 0);
            cells.leaf(kind::BREAK, 0, 0);
        });
        cells.tree(kind::ASSIGN, 0, 0, |cells| {
            cells.leaf(kind::IDENTIFIER, 0, 1);
            cells.tree(kind::CALL, 0, 0, |cells| cells.leaf(kind::IDENTIFIER, 0, 2));
        });
    });
    let shallow = cells.clone();
    cells.clear();
    cells.tree(kind::STATEMENTS, 0, 0, |cells| {
        cells.append(&shallow.all[1..]);
        cells.tree(kind::SIMPLE, 0, 0, |cells| {
            let opened: Vec<usize> = (0..70).map(|_| cells.open(kind::NOT, 0, 0)).collect();
            cells.leaf(kind::INT, 0, 0);
            opened.into_iter().rev().for_each(|at| cells.close(at));
        });
    });
    for wrong in 0..256u32 {
        let is = |bit: u32| wrong >> bit & 1 == 1;
        let mut encoded = Encoded::default();
        encoded.write(if is(3) { &cells } else { &shallow }, &PLAIN);
        if is(2) {
            let last = encoded.table.len() - 24;
            encoded.table[last + FILE_AT + 1] = 255;
        }
        if is(0) {
            encoded.table.push(0);
        }
        if is(1) {
            encoded.names.resize(MOST_NAME_BYTES + 1, b'n');
        }
        let dialect: &[u8] = if is(4) { &[1; 8] } else { &[1, 1, 1, 1, 1, 1, 1, 1, 1] };
        let room = if is(6) { 0 } else { 9 };
        for node in 0..8 {
            let node = if is(5) { node + 1_000 } else { node };
            let editions = if is(7) { [0, 3] } else { [FIRST_EDITION, NO_EDITION] };
            all_jobs_in(checker, &encoded.table, &encoded.names, dialect, editions, node, room);
        }
    }
}
