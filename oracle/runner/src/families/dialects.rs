//! The named dialects, and dialects that are none.

use model::dialect::ALL_OPTIONS_INTERNAL;
use model::dialect::BYTES;
use model::dialect::EXTENDED;
use model::dialect::STANDARD;
use model::numbers::kind;

use super::Plan;
use crate::cells::Cells;
use crate::cells::Encoded;
use crate::cells::PLAIN;
use crate::checker::Checker;
use crate::port::Job;
use crate::port::Request;
use crate::port::FIRST_EDITION;

pub fn rows_and_bytes(checker: &mut Checker, plan: &Plan) {
    let rows = [STANDARD, EXTENDED, ALL_OPTIONS_INTERNAL, STANDARD];
    for ((name, of_crate), row) in judge::dialects::named().into_iter().zip(rows) {
        checker.note(of_crate == row, || format!("dialect {name}: the crate has {of_crate:?}, the row is {row:?}"));
    }
    if let Some(source) = &plan.rows {
        rows_of_source(checker, source);
    }
    let encoded = telling_module();
    none_is_extended(checker, &encoded);
    for dialect in judge::dialects::named() {
        ask(checker, &encoded, &dialect.1);
    }
    for length in 0..=20 {
        (0..=3).for_each(|value| ask(checker, &encoded, &vec![value; length]));
    }
    for at in 0..9 {
        for value in 0..=255 {
            let mut dialect = STANDARD;
            dialect[at] = value;
            ask(checker, &encoded, &dialect);
        }
    }
}

/// No bytes: the crate's Extended by its own constant, in the model too, and neither of the other rows.
fn none_is_extended(checker: &mut Checker, encoded: &Encoded) {
    let audited = |dialect: &[u8]| model::jobs::audit(&encoded.table, &encoded.names, dialect, FIRST_EDITION).audited;
    let [_, (_, of_crate), ..] = judge::dialects::named();
    checker.note(audited(&[]) == audited(&of_crate), || "no dialect is not Extended".to_owned());
    for (name, row) in [("Standard", STANDARD), ("AllOptionsInternal", ALL_OPTIONS_INTERNAL)] {
        checker.note(audited(&[]) != audited(&row), || format!("the module does not tell no dialect from {name}"));
    }
}

fn ask(checker: &mut Checker, encoded: &Encoded, dialect: &[u8]) {
    let Encoded { table, names, .. } = encoded;
    checker.check(&Request { table, names, job: Job::Module { dialect, errors: 60 } });
    checker.check(&Request { table, names, job: Job::Audit { dialect, edition: FIRST_EDITION, errors: 80 } });
    for node in [0, 1, 12, 400] {
        checker.check(&Request { table, names, job: Job::Type { dialect, edition: FIRST_EDITION, node, shapes: 20 } });
    }
}

/// A module whose errors show every switch of a dialect that the pass looks at.
fn telling_module() -> Encoded {
    let mut cells = Cells::default();
    cells.tree(kind::STATEMENTS, 0, 0, |cells| {
        cells.leaf(kind::LOAD, 0, 0);
        cells.tree(kind::DEF, 0, 0, |cells| {
            cells.leaf(kind::NORMAL, 0, 0);
            cells.leaf(kind::SLASH, 0, 0);
            cells.leaf(kind::NO_ARGS, 0, 0);
            cells.leaf(kind::NORMAL, 0, 1);
            cells.leaf(kind::LOAD, 0, 0);
        });
        cells.tree(kind::FOR, 0, 0, |cells| {
            cells.leaf(kind::IDENTIFIER, 0, 0);
            cells.leaf(kind::ELLIPSIS, 0, 0);
            cells.leaf(kind::RETURN, 0, 0);
        });
        cells.tree(kind::SIMPLE, 0, 0, |cells| {
            cells.tree(kind::LAMBDA, 0, 0, |cells| {
                cells.leaf(kind::NO_ARGS, 0, 0);
                cells.leaf(kind::INT, 0, 0);
            })
        });
        cells.tree(kind::IF_STATEMENT, 0, 0, |cells| {
            cells.leaf(kind::INT, 0, 0);
            cells.leaf(kind::LOAD, 0, 0);
        });
    });
    let mut encoded = Encoded::default();
    encoded.write(&cells, &PLAIN);
    encoded
}

/// The C interface has no function that returns the rows, so they are read from the port's own source: the
/// first three arrays of nine numbers in it.
fn rows_of_source(checker: &mut Checker, source: &str) {
    let text = std::fs::read_to_string(source).unwrap_or_else(|error| panic!("{source}: {error}"));
    let of_crate: Vec<Vec<u8>> = judge::dialects::named()[..3].iter().map(|(_, row)| row.to_vec()).collect();
    let of_port: Vec<Vec<u8>> = arrays_of_nine(&text).into_iter().take(3).collect();
    checker.note(of_port == of_crate, || format!("{source} has the rows {of_port:?}, the crate {of_crate:?}"));
}

fn arrays_of_nine(text: &str) -> Vec<Vec<u8>> {
    let inner = text.split('[').filter_map(|after| after.split_once(']'));
    let numbers = |(inside, _): (&str, &str)| -> Option<Vec<u8>> {
        let items = inside.trim().trim_end_matches(',').split(',');
        items.map(|item| item.trim().trim_end_matches("u8").parse().ok()).collect()
    };
    inner.filter_map(numbers).filter(|row| row.len() == BYTES).collect()
}
