//! The module pass, and all jobs on tables that no tree of the crate can be.

use model::answer::ERROR_WORDS;
use model::dialect;
use model::jobs;
use model::table::is_expression;
use model::table::Class;
use model::table::MOST_NODES;

use super::bindings::bindings_of_module;
use super::each_random;
use super::lists::lists_of_module;
use super::lists::random_list_tree;
use super::style;
use super::Plan;
use super::Random;
use crate::cells::Cell;
use crate::cells::Cells;
use crate::cells::Encoded;
use crate::cells::Spelling;
use crate::cells::Style;
use crate::checker::Checker;
use crate::grow;
use crate::port::Job;
use crate::port::Request;
use crate::port::FIRST_EDITION;
use crate::port::NO_EDITION;
use crate::rng::Rng;
use crate::small::Small;

/// Room for every error, since there are never more than two a record.
fn room_for_all(table: &[u8]) -> usize {
    table.len() / 24 * 2 * ERROR_WORDS + 2
}

/// A list that holds all errors, or ends before, in or after one.
fn list_length(rng: &mut Rng, encoded: &Encoded, dialect: &[u8]) -> usize {
    if rng.once_in(2) {
        return room_for_all(&encoded.table);
    }
    let total = jobs::module(&encoded.table, &encoded.names, dialect).errors.len();
    let words = ERROR_WORDS * total;
    let near = (ERROR_WORDS * rng.within(0, total) + rng.below(ERROR_WORDS)).saturating_sub(rng.below(2));
    rng.pick(&[near, near, 0, words, words.saturating_sub(1)])
}

pub fn small(checker: &mut Checker, plan: &Plan) {
    let records = if plan.is_long() { 5 } else { 4 };
    let small = Small::up_to(records - 1);
    let dialects = dialect::all();
    let mut cells = Cells::default();
    let mut encoded = Encoded::default();
    let mut number = 0;
    for size in 1..=records {
        small.each(Class::Statement, size, &mut |tree: &[Cell]| {
            number += 1;
            if !plan.has(number) || checker.is_done() {
                return;
            }
            cells.clear();
            cells.append(tree);
            encoded.write(&cells, &style(number));
            // The dialect with everything off, no dialect, and two that change from tree to tree.
            let chosen = [0, 768, number as usize * 5 % 769, number as usize * 331 % 769];
            let errors = room_for_all(&encoded.table);
            let chosen = chosen.iter().map(|&at| (dialects[at].as_slice(), errors));
            checker.check_dialects(&encoded.table, &encoded.names, chosen);
        });
    }
}

/// Each random module under all 769 dialects.
pub fn all_dialects(checker: &mut Checker, plan: &Plan) {
    let dialects = dialect::all();
    let grow = |rng: &mut Rng, _| grow::module(rng, false);
    each_random(checker, plan, 6, 600, grow, |checker, rng, random| {
        check_dialects(checker, rng, random, dialects.iter());
    });
}

/// The module pass under these dialects, with lists of any length.
fn check_dialects<'a>(
    checker: &mut Checker,
    rng: &mut Rng,
    random: &Random,
    dialects: impl Iterator<Item = &'a Vec<u8>>,
) {
    let encoded = random.encoded;
    let asked = dialects.map(|dialect| (dialect.as_slice(), list_length(rng, encoded, dialect)));
    checker.check_dialects(&encoded.table, &encoded.names, asked);
}

/// So many of all dialects, by chance.
pub fn some<'a>(rng: &mut Rng, dialects: &'a [Vec<u8>], count: usize) -> Vec<&'a Vec<u8>> {
    (0..count).map(|_| &dialects[rng.below(dialects.len())]).collect()
}

/// Random modules, each under a few random dialects; their lists are looked at too.
pub fn random(checker: &mut Checker, plan: &Plan) {
    let dialects = dialect::all();
    let grow = |rng: &mut Rng, _| grow::module(rng, false);
    each_random(checker, plan, 7, 100_000, grow, |checker, rng, random| {
        let chosen = some(rng, &dialects, 3);
        check_dialects(checker, rng, random, chosen.into_iter());
        if random.number % 4 == 0 {
            lists_of_module(checker, random);
            bindings_of_module(checker, random);
        }
    });
}

/// Modules of hundreds of records, up to the limit.
pub fn large(checker: &mut Checker, plan: &Plan) {
    let dialects = dialect::all();
    let grow = |rng: &mut Rng, _| {
        let records = rng.pick(&[200, 500, 1_000, MOST_NODES, MOST_NODES]);
        grow::large_module(rng, records, false)
    };
    each_random(checker, plan, 8, 300, grow, |checker, rng, random| {
        let chosen = some(rng, &dialects, 4);
        check_dialects(checker, rng, random, chosen.into_iter());
        if random.number % 10 == 0 {
            lists_of_module(checker, random);
            bindings_of_module(checker, random);
        }
    });
}

/// Sound tables with targets that are not targets, names that are not text, and so on: every job on them.
pub fn no_trees(checker: &mut Checker, plan: &Plan) {
    let dialects = dialect::all();
    let mut not_text = Encoded::default();
    let grow = |rng: &mut Rng, _| match rng.below(3) {
        0 => random_list_tree(rng, true),
        _ => grow::module(rng, true),
    };
    each_random(checker, plan, 9, 60_000, grow, |checker, rng, random| {
        let chosen = some(rng, &dialects, 2);
        check_dialects(checker, rng, random, chosen.into_iter());
        every_job(checker, rng, &random.encoded.table, &random.encoded.names, &dialects);
        not_text.write(random.cells, &Style { spelling: Spelling::NotText, ..style(random.number) });
        every_job(checker, rng, &not_text.table, &not_text.names, &dialects);
    });
}

/// Each job once, on a node that it wants if a random search finds one.
pub fn every_job(checker: &mut Checker, rng: &mut Rng, table: &[u8], names: &[u8], dialects: &[Vec<u8>]) {
    let nodes = table.len() / 24;
    let mut node_like = |wanted: fn(u8) -> bool| {
        let found = (0..24).map(|_| rng.below(nodes + 1)).find(|&n| n < nodes && wanted(table[24 * n]));
        found.unwrap_or(rng.below(nodes + 2))
    };
    let owner = node_like(|kind| kind == 2 || kind == 27);
    let call = node_like(|kind| kind == 22);
    let assignment = node_like(|kind| kind == 11 || kind == 12);
    let target = node_like(is_expression);
    let ty = node_like(is_expression);
    let dialect = dialects[rng.below(dialects.len())].as_slice();
    // It takes no number of the row, so that the other jobs stay as they were.
    let audited = [0, 4, 5, 9, 10, 30, 200][(nodes + target) % 7];
    let jobs = [
        Job::Table,
        Job::Params { node: owner, modes: rng.pick(&[0, 1, 2, 4, 8, 16, 64]) },
        Job::Call { node: call },
        Job::Target { node: target },
        Job::Assignment { node: assignment },
        Job::Type { dialect, edition: FIRST_EDITION, node: ty, shapes: rng.pick(&[0, 1, 2, 4, 8, 30, 100]) },
        Job::Module { dialect, errors: rng.pick(&[0, 1, 4, 6, 8, 20, 100]) },
        Job::Write { dialect, edition: NO_EDITION, file: rng.pick(&[0, 1_023, 1_024, 1_535, 1_536, 2_048, 4_096]) },
        Job::Bind { call, def: owner, list: rng.pick(&[0, 1, 2, 4, 8, 16, 64]) },
        Job::Audit { dialect, edition: FIRST_EDITION, errors: audited },
    ];
    for job in jobs {
        checker.check(&Request { table, names, job });
    }
}
