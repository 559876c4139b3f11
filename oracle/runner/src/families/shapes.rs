//! Types, targets and assignments.

use model::numbers::kind;
use model::table::Class;

use super::each_random;
use super::editions::check_types_of_editions;
use super::style;
use super::Plan;
use super::Random;
use crate::cells::Cell;
use crate::cells::Cells;
use crate::cells::Encoded;
use crate::checker::Checker;
use crate::grow;
use crate::grow::Grower;
use crate::port::Job;
use crate::port::Request;
use crate::port::FIRST_EDITION;
use crate::port::SECOND_EDITION;
use crate::rng::Rng;
use crate::small::Small;

const WITH_TYPES: [u8; 9] = [1, 1, 1, 1, 1, 2, 1, 1, 1];
const PARSE_ONLY: [u8; 9] = [0, 0, 0, 0, 0, 1, 0, 0, 0];
const WITHOUT_TYPES: [u8; 9] = [1, 1, 1, 1, 1, 0, 1, 1, 1];

/// Most often a dialect with types.
fn dialect(number: u64) -> &'static [u8] {
    match number % 16 {
        0 => &WITHOUT_TYPES,
        1 => &[],
        2..=6 => &PARSE_ONLY,
        _ => &WITH_TYPES,
    }
}

/// Calls `see` with every expression of up to five records, as node 1 of a table.
fn each_small_expression(plan: &Plan, see: &mut dyn FnMut(&Encoded, u64)) {
    const RECORDS: usize = 5;
    let small = Small::up_to(RECORDS - 1);
    let mut cells = Cells::default();
    let mut encoded = Encoded::default();
    let mut number = 0;
    for size in 1..=RECORDS {
        small.each(Class::Expression, size, &mut |tree: &[Cell]| {
            number += 1;
            if plan.has(number) {
                cells.clear();
                cells.tree(kind::SIMPLE, 0, 0, |cells| cells.append(tree));
                encoded.write(&cells, &style(number / plan.parts));
                see(&encoded, number / plan.parts);
            }
        });
    }
}

/// The type by both editions, with a buffer that is just long enough, longer, and now and then one short.
fn check_type(checker: &mut Checker, encoded: &Encoded, node: usize, number: u64) {
    let Encoded { table, names, .. } = encoded;
    let size = usize::from(table[24 * node + 16]) + 256 * usize::from(table[24 * node + 17]);
    let mut ask = |shapes: usize| {
        let dialect = dialect(number);
        for edition in [FIRST_EDITION, SECOND_EDITION] {
            checker.check(&Request { table, names, job: Job::Type { dialect, edition, node, shapes } });
        }
        check_types_of_editions(checker, &Request { table, names, job: Job::Type { dialect, edition: FIRST_EDITION, node, shapes } });
    };
    ask(size + [0, 2][(number / 16 % 2) as usize]);
    if number % 31 == 0 {
        ask(size - 1);
    }
}

pub fn small_types(checker: &mut Checker, plan: &Plan) {
    each_small_expression(plan, &mut |encoded, number| check_type(checker, encoded, 1, number));
}

pub fn random_types(checker: &mut Checker, plan: &Plan) {
    let grow = |rng: &mut Rng, _| {
        let wild = rng.once_in(20);
        grow::around_expression(rng, wild, |grower| grower.type_expression())
    };
    each_random(checker, plan, 3, 400_000, grow, |checker, rng, random| {
        check_type(checker, random.encoded, 1, random.number);
        check_type(checker, random.encoded, any_expression(rng, random), random.number);
    });
}

fn any_expression(rng: &mut Rng, random: &Random) -> usize {
    rng.pick(&grow::nodes_of(random.cells, Class::Expression))
}

fn check_target(checker: &mut Checker, encoded: &Encoded, node: usize) {
    let Encoded { table, names, .. } = encoded;
    checker.check(&Request { table, names, job: Job::Target { node } });
}

pub fn small_targets(checker: &mut Checker, plan: &Plan) {
    each_small_expression(plan, &mut |encoded, _| check_target(checker, encoded, 1));
}

pub fn random_targets(checker: &mut Checker, plan: &Plan) {
    let grow = |rng: &mut Rng, _| {
        let wild = rng.once_in(20);
        grow::around_expression(rng, wild, nearly_target)
    };
    each_random(checker, plan, 4, 150_000, grow, |checker, rng, random| {
        check_target(checker, random.encoded, 1);
        check_target(checker, random.encoded, any_expression(rng, random));
    });
}

/// A tuple of targets, with something else in it now and then.
fn nearly_target(grower: &mut Grower) {
    let at = grower.cells.open(if grower.rng.once_in(2) { kind::TUPLE } else { kind::LIST }, 0, 0);
    for _ in 0..grower.rng.below(6) {
        match grower.rng.below(8) {
            0 => grower.any_of(Class::Expression),
            1 => nearly_target(grower),
            _ => grower.target(),
        }
    }
    grower.cells.close(at);
}

/// Every target of up to four records, in both assignments, with and without a type.
pub fn small_assignments(checker: &mut Checker, plan: &Plan) {
    let records = if plan.is_long() { 5 } else { 4 };
    let small = Small::up_to(records - 1);
    let mut cells = Cells::default();
    let mut encoded = Encoded::default();
    let mut number = 0;
    for size in 1..=records {
        small.each(Class::Expression, size, &mut |tree: &[Cell]| {
            for (kind, detail) in [(11, 0), (11, 1), (12, 0), (12, 1)] {
                number += 1;
                if plan.has(number) && !checker.is_done() {
                    assignment_of(&mut cells, kind, detail, tree);
                    encoded.write(&cells, &style(number));
                    check_assignment(checker, &encoded, 0);
                }
            }
        });
    }
}

fn assignment_of(cells: &mut Cells, kind: u8, detail: u8, target: &[Cell]) {
    cells.clear();
    cells.tree(kind, detail, 0, |cells| {
        cells.append(target);
        if detail == 1 {
            cells.leaf(kind::FLOAT, 0, 0);
        }
        cells.leaf(kind::INT, 0, 0);
    });
}

fn check_assignment(checker: &mut Checker, encoded: &Encoded, node: usize) {
    let Encoded { table, names, .. } = encoded;
    checker.check(&Request { table, names, job: Job::Assignment { node } });
}

pub fn random_assignments(checker: &mut Checker, plan: &Plan) {
    each_random(checker, plan, 5, 150_000, random_assignment, |checker, _, random| {
        check_assignment(checker, random.encoded, 0);
    });
}

fn random_assignment(rng: &mut Rng, number: u64) -> Cells {
    let mut grower = Grower::new(rng, true);
    let detail = grower.rng.below(2) as u8;
    let kind = [kind::ASSIGN, kind::ASSIGN_MODIFY][(number % 2) as usize];
    let at = grower.cells.open(kind, detail, 0);
    if grower.rng.once_in(2) { nearly_target(&mut grower) } else { grower.any_of(Class::Expression) }
    (0..=detail).for_each(|_| grower.any_of(Class::Expression));
    grower.cells.close(at);
    grower.cells
}
