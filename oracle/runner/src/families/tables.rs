//! Soundness: rules of children, damaged tables, depth.

use model::dialect;
use model::numbers::kind;
use model::table::class;
use model::table::has_name;
use model::table::most_detail;
use model::table::Class;
use model::table::Record;
use model::table::MOST_DEPTH;
use model::table::MOST_FILE;
use model::table::MOST_POSITION;

use super::each_random;
use super::modules::every_job;
use super::Plan;
use crate::cells::Cells;
use crate::cells::Encoded;
use crate::cells::FILE_AT;
use crate::cells::PLAIN;
use crate::checker::Checker;
use crate::grow;
use crate::port::Job;
use crate::port::Request;
use crate::rng::Rng;

fn check_table(checker: &mut Checker, table: &[u8], names: &[u8]) {
    checker.check(&Request { table, names, job: Job::Table });
}

/// The smallest sound record of each class.
fn smallest(cells: &mut Cells, class: Class) {
    match class {
        Class::Statement => cells.leaf(kind::BREAK, 0, 0),
        Class::Expression => cells.leaf(kind::INT, 0, 0),
        Class::Parameter => cells.leaf(kind::NO_ARGS, 0, 0),
        Class::Argument => cells.tree(kind::POSITIONAL, 0, 0, |cells| cells.leaf(kind::INT, 0, 0)),
    }
}

/// A record in a place for its class, in a table that is sound if it is.
fn placed(cells: &mut Cells, kind: u8, record: impl FnOnce(&mut Cells)) {
    cells.clear();
    match class(kind) {
        Some(Class::Statement) => cells.tree(kind::STATEMENTS, 0, 0, record),
        Some(Class::Parameter) => cells.tree(kind::SIMPLE, 0, 0, |cells| {
            cells.tree(kind::LAMBDA, 0, 0, |cells| {
                record(cells);
                cells.leaf(kind::INT, 0, 0);
            })
        }),
        Some(Class::Argument) => cells.tree(kind::SIMPLE, 0, 0, |cells| {
            cells.tree(kind::CALL, 0, 0, |cells| {
                cells.leaf(kind::IDENTIFIER, 0, 0);
                record(cells);
            })
        }),
        _ => cells.tree(kind::SIMPLE, 0, 0, record),
    }
}

/// Each kind and detail, known or not, with every row of up to five children of the four classes.
pub fn children(checker: &mut Checker, plan: &Plan) {
    const CLASSES: [Class; 4] = [Class::Statement, Class::Expression, Class::Parameter, Class::Argument];
    let kinds: Vec<u8> = kind::all().chain([0, 13, 19, 44, 49, 55, 59, 64, 255]).collect();
    let mut cells = Cells::default();
    let mut encoded = Encoded::default();
    let mut number = 0;
    for length in 0..=5 {
        for code in 0..4usize.pow(length) {
            let row = (0..length).map(|at| CLASSES[code / 4usize.pow(at) % 4]);
            for (&kind, detail) in kinds.iter().flat_map(|kind| (0..=4).map(move |detail| (kind, detail))) {
                number += 1;
                if !plan.has(number) || checker.is_done() {
                    continue;
                }
                placed(&mut cells, kind, |cells| {
                    cells.tree(kind, detail, 0, |cells| row.clone().for_each(|class| smallest(cells, class)))
                });
                encoded.write(&cells, &PLAIN);
                check_table(checker, &encoded.table, &encoded.names);
            }
        }
    }
}

/// A table that has each kind with each detail.
fn sampler() -> Cells {
    let mut cells = Cells::default();
    cells.tree(kind::STATEMENTS, 0, 0, |cells| {
        for kind in kind::STATEMENTS..=kind::ASSIGN_MODIFY {
            (0..=most_detail(kind)).for_each(|detail| sample(cells, kind, detail));
        }
        cells.tree(kind::SIMPLE, 0, 0, |cells| {
            for kind in kind::TUPLE..=kind::FSTRING {
                (0..=most_detail(kind)).for_each(|detail| sample(cells, kind, detail));
            }
        });
    });
    cells
}

fn sample(cells: &mut Cells, kind: u8, detail: u8) {
    let name = if has_name(kind) { kind + detail } else { 0 };
    cells.tree(kind, detail, name, |cells| {
        if kind == kind::LAMBDA {
            for parameter in kind::NORMAL..=kind::KWARGS {
                (0..=most_detail(parameter)).for_each(|detail| sample(cells, parameter, detail));
            }
        }
        for part in model::table::children_rule(kind, detail) {
            (0..part.least).for_each(|_| smallest(cells, part.class));
        }
        if kind == kind::CALL {
            (kind::POSITIONAL..=kind::STAR_STAR_ARGUMENT).for_each(|argument| sample(cells, argument, 0));
        }
    });
}

/// Every byte of that table changed to every other value.
pub fn every_byte(checker: &mut Checker, plan: &Plan) {
    let mut rng = plan.rng(10);
    let dialects = dialect::all();
    let mut encoded = Encoded::default();
    encoded.write(&sampler(), &PLAIN);
    let Encoded { mut table, names, .. } = encoded;
    check_table(checker, &table, &names);
    for at in 0..table.len() {
        let good = table[at];
        for value in 0..=255u8 {
            let number = at as u64 * 256 + u64::from(value);
            if value == good || !plan.has(number) || checker.is_done() {
                continue;
            }
            table[at] = value;
            check_table(checker, &table, &names);
            if rng.once_in(40) {
                every_job(checker, &mut rng, &table, &names, &dialects);
            }
        }
        table[at] = good;
    }
}

/// Random tables with one to three things wrong, or nothing: every job.
pub fn damaged(checker: &mut Checker, plan: &Plan) {
    let dialects = dialect::all();
    let grow = |rng: &mut Rng, _| {
        let wild = rng.once_in(3);
        grow::module(rng, wild)
    };
    each_random(checker, plan, 11, 120_000, grow, |checker, rng, random| {
        let Encoded { mut table, mut names, .. } = random.encoded.clone();
        for _ in 0..rng.pick(&[0, 1, 1, 1, 2, 3]) {
            damage(rng, &mut table, &mut names);
        }
        every_job(checker, rng, &table, &names, &dialects);
    });
}

fn damage(rng: &mut Rng, table: &mut Vec<u8>, names: &mut Vec<u8>) {
    let nodes = table.len() / 24;
    if nodes == 0 {
        return table.resize(rng.below(50), 1);
    }
    let node = rng.below(nodes);
    let at = rng.below(table.len());
    match rng.below(12) {
        0 => table[at] = rng.next() as u8,
        1 => table[at] ^= 1 << rng.below(8),
        2..=5 => change_field(rng, table, node, names.len()),
        6 => table[24 * node] = rng.pick(&kind::all().collect::<Vec<u8>>()),
        7 => swap_records(table, node, rng.below(nodes)),
        8 => drop(table.drain(24 * node..24 * node + 24)),
        9 => {
            let record = table[24 * node..24 * node + 24].to_vec();
            let place = 24 * rng.below(nodes + 1);
            drop(table.splice(place..place, record));
        }
        10 => table.truncate(at),
        _ => names.truncate(rng.below(names.len() + 1)),
    }
}

fn swap_records(table: &mut [u8], one: usize, other: usize) {
    for at in 0..24 {
        table.swap(24 * one + at, 24 * other + at);
    }
}

/// One field set to a value at, or next to, one of its limits.
fn change_field(rng: &mut Rng, table: &mut [u8], node: usize, names: usize) {
    let bytes = &mut table[24 * node..24 * node + 24];
    let mut record = Record::read(bytes);
    let names = names as u32;
    match rng.below(8) {
        0 => record.detail = rng.below(5) as u8,
        1 => record.name_len = rng.pick(&[0, 1, 2, 255, 256, 65_535]),
        2 => {
            let last = names.saturating_sub(u32::from(record.name_len));
            record.name_start = rng.pick(&[0, 1, last, last + 1, names, u32::MAX, u32::MAX - 3]);
        }
        3 => record.begin = rng.pick(&[0, record.end, record.end.wrapping_add(1), MOST_POSITION, u32::MAX]),
        4 => record.end = rng.pick(&[0, record.begin, MOST_POSITION, MOST_POSITION + 1, u32::MAX]),
        5 => {
            let size = record.size;
            record.size = rng.pick(&[0, 1, size.wrapping_sub(1), size.wrapping_add(1), 65_535]);
        }
        6 => {
            let file = record.file;
            record.file = rng.pick(&[0, 1, MOST_FILE, MOST_FILE + 1, file.wrapping_sub(1), file.wrapping_add(1), 65_535]);
        }
        _ => {
            let last = MOST_POSITION - u32::from(record.name_len).min(MOST_POSITION);
            record.source = rng.pick(&[0, 1, last, last + 1, MOST_POSITION, MOST_POSITION + 1, u32::MAX]);
        }
    }
    bytes.copy_from_slice(&record.write());
}

/// Chains of statements and expressions one below the other, around the limit of depth, with parameters and arguments between.
pub fn depth(checker: &mut Checker, plan: &Plan) {
    let dialects = dialect::all();
    let grow = |rng: &mut Rng, _| {
        let depth = rng.within(MOST_DEPTH - 3, MOST_DEPTH + 3);
        chain(rng, depth)
    };
    each_random(checker, plan, 12, 20_000, grow, |checker, rng, random| {
        let Encoded { mut table, names, .. } = random.encoded.clone();
        if rng.once_in(4) {
            // Too deep and unsound: the unsound record is what counts, wherever it is.
            let node = rng.below(random.cells.all.len());
            table[24 * node + FILE_AT + 1] |= 0x80;
        }
        every_job(checker, rng, &table, &names, &dialects);
    });
}

/// A table as deep as said: each record below has one child that goes on, and perhaps others. Parameters and arguments add nothing.
pub fn chain(rng: &mut Rng, depth: usize) -> Cells {
    let mut cells = Cells::default();
    let below = rng.within(0, depth - 2);
    statement_chain(rng, &mut cells, below, depth);
    cells
}

fn statement_chain(rng: &mut Rng, cells: &mut Cells, statements: usize, depth: usize) {
    if statements == 0 || depth <= 2 {
        if depth > 2 && rng.once_in(2) {
            return cells.tree(kind::DEF, 0, 0, |cells| {
                parameter_chain(rng, cells, depth - 1);
                cells.leaf(kind::BREAK, 0, 0);
            });
        }
        return cells.tree(kind::SIMPLE, 0, 0, |cells| {
            if depth > 1 {
                expression_chain(rng, cells, depth - 1);
            }
        });
    }
    let next = |rng: &mut Rng, cells: &mut Cells| statement_chain(rng, cells, statements - 1, depth - 1);
    match rng.below(5) {
        0 => cells.tree(kind::DEF, 0, 0, |cells| next(rng, cells)),
        1 => cells.tree(kind::IF_STATEMENT, 0, 0, |cells| {
            cells.leaf(kind::INT, 0, 0);
            next(rng, cells);
        }),
        2 => cells.tree(kind::FOR, 0, 0, |cells| {
            cells.leaf(kind::IDENTIFIER, 0, 0);
            cells.leaf(kind::INT, 0, 0);
            next(rng, cells);
        }),
        3 => cells.tree(kind::DEF, 0, 0, |cells| {
            cells.leaf(kind::NORMAL, 0, 3);
            next(rng, cells);
        }),
        _ => cells.tree(kind::STATEMENTS, 0, 0, |cells| {
            next(rng, cells);
            cells.leaf(kind::BREAK, 0, 0);
        }),
    }
}

fn expression_chain(rng: &mut Rng, cells: &mut Cells, depth: usize) {
    if depth == 1 {
        return cells.leaf(rng.pick(&[kind::INT, kind::ELLIPSIS, kind::IDENTIFIER]), 0, 0);
    }
    let choice = rng.below(10);
    let next = |rng: &mut Rng, cells: &mut Cells| expression_chain(rng, cells, depth - 1);
    match choice {
        0 => cells.tree(kind::NOT, 0, 0, |cells| next(rng, cells)),
        1 => cells.tree(kind::TUPLE, 0, 0, |cells| next(rng, cells)),
        2 => cells.tree(kind::DOT, 0, 1, |cells| next(rng, cells)),
        3 => cells.tree(kind::LAMBDA, 0, 0, |cells| next(rng, cells)),
        4 => cells.tree(kind::INDEX, 0, 0, |cells| {
            cells.leaf(kind::IDENTIFIER, 0, 0);
            next(rng, cells);
        }),
        5 | 6 => cells.tree(kind::CALL, 0, 0, |cells| {
            cells.leaf(kind::IDENTIFIER, 0, 0);
            argument_chain(rng, cells, depth - 1);
        }),
        7 | 8 => cells.tree(kind::LAMBDA, 0, 0, |cells| {
            parameter_chain(rng, cells, depth - 1);
            cells.leaf(kind::INT, 0, 0);
        }),
        _ => cells.tree(kind::LIST, 0, 0, |cells| {
            next(rng, cells);
            cells.leaf(kind::INT, 0, 0);
        }),
    }
}

/// An argument of some kind, with an expression so deep.
fn argument_chain(rng: &mut Rng, cells: &mut Cells, depth: usize) {
    let kind = rng.pick(&[kind::POSITIONAL, kind::NAMED, kind::STAR_ARGUMENT, kind::STAR_STAR_ARGUMENT]);
    cells.tree(kind, 0, 2, |cells| expression_chain(rng, cells, depth));
}

/// A parameter whose default or type is so deep.
fn parameter_chain(rng: &mut Rng, cells: &mut Cells, depth: usize) {
    let (kind, detail) =
        rng.pick(&[(kind::NORMAL, 1), (kind::NORMAL, 2), (kind::NORMAL, 3), (kind::ARGS, 1), (kind::KWARGS, 1)]);
    cells.tree(kind, detail, 2, |cells| {
        expression_chain(rng, cells, depth);
        if detail == 3 {
            cells.leaf(kind::INT, 0, 0);
        }
    });
}
