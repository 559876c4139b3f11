//! Table files that the writer makes: every byte of the buffer is the model's, and what is written reads back.

use model::dialect;
use model::file;
use model::file::Contents;
use model::file::BLOCK;

use super::each_random;
use super::files::any_edition;
use super::files::contents;
use super::Plan;
use crate::cells::Encoded;
use crate::checker::Checker;
use crate::grow;
use crate::port::Job;
use crate::port::Request;
use crate::port::NO_EDITION;
use crate::rng::Rng;

/// The most bytes of a file.
const MOST: usize = 117 * BLOCK;

pub fn written(checker: &mut Checker, plan: &Plan) {
    if plan.has(0) {
        every_room(checker);
    }
    counts(checker, plan);
    random(checker, plan);
}

/// A writer's job, and its file read back by the model.
fn check(checker: &mut Checker, contents: &Contents, room: usize) {
    let Contents { table, names, dialect, edition } = contents;
    let edition = edition.map_or(NO_EDITION, u32::from);
    let request = Request { table, names, job: Job::Write { dialect, edition, file: room } };
    if checker.wants(&request.job) {
        checker.check(&request);
        let written = model::jobs::write(table, names, dialect, edition, room);
        if written.number == 0 {
            let read = file::read(&written.file);
            checker.note(read.as_ref() == Ok(contents), || format!("what is written reads back as {read:?}"));
        }
    }
}

/// Room from none to a block more than is needed, and a few rooms of larger files.
fn every_room(checker: &mut Checker) {
    let on = dialect::ALL_OPTIONS_INTERNAL;
    for (records, names) in [(1, 0), (1, 1), (22, 505)] {
        let held = contents(records, names, &on);
        let needed = file::write(&held).len();
        (0..=needed + BLOCK).for_each(|room| check(checker, &held, room));
    }
}

/// Names and nodes that just fill blocks, and one less and more, in good and bad dialects, in rooms around what is needed.
fn counts(checker: &mut Checker, plan: &Plan) {
    let dialects: [&[u8]; 6] = [&[], &dialect::STANDARD, &dialect::ALL_OPTIONS_INTERNAL, &[1; 8], &[1; 10], &[9; 9]];
    let mut number = 0;
    for names in [0, 1, 503, 504, 505, 1_007, 1_008, 1_009, 8_063, 8_064, 8_065] {
        for records in [1, 20, 21, 22, 41, 42, 43, 2_099, 2_100, 2_101] {
            for dialect in dialects {
                number += 1;
                if plan.has(number) {
                    around(checker, &contents(records, names, dialect));
                }
            }
        }
    }
}

fn around(checker: &mut Checker, held: &Contents) {
    let needed = file::write(held).len();
    for room in [0, needed - BLOCK, needed - 1, needed, needed + 1, MOST, MOST + 1] {
        check(checker, held, room);
    }
}

/// Random modules, sound and not.
fn random(checker: &mut Checker, plan: &Plan) {
    let dialects = dialect::all();
    let grow = |rng: &mut Rng, _| {
        let wild = rng.once_in(2);
        grow::module(rng, wild)
    };
    each_random(checker, plan, 16, 60_000, grow, |checker, rng, random| {
        let Encoded { mut table, names, .. } = random.encoded.clone();
        if rng.once_in(6) {
            let at = rng.below(table.len());
            table[at] ^= 1 << rng.below(8);
        }
        let mut dialect = dialects[rng.below(dialects.len())].clone();
        if rng.once_in(8) && !dialect.is_empty() {
            dialect[rng.below(9)] = 3;
        }
        let held = Contents { table, names, dialect, edition: any_edition(random.number) };
        let needed = file::write(&held).len();
        let room = rng.pick(&[needed, needed, needed + 1, needed + 700, needed - 1, needed - BLOCK]);
        check(checker, &held, room);
    });
}
