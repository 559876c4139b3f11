//! The table of examples, whose answers are given.

use model::file;
use model::jobs;
use model::jobs::NONE;
use model::numbers::kind;
use model::table::Record;

use super::files::compare_output;
use super::Plan;
use crate::cells::Cells;
use crate::cells::Encoded;
use crate::cells::PLAIN;
use crate::cells::TYPE;
use crate::checker::Checker;
use crate::port::Job;
use crate::port::Request;
use crate::port::FIRST_EDITION;

const A: u8 = 0;
const B: u8 = 1;
const C: u8 = 2;
const K: u8 = 10;
const X: u8 = 23;

/// A parameter: kind, detail, name.
type Entry = (u8, u8, u8);

const STAR: Entry = (kind::NO_ARGS, 0, 0);
const SLASH: Entry = (kind::SLASH, 0, 0);

const fn plain(name: u8) -> Entry {
    (kind::NORMAL, 0, name)
}

const fn with_default(name: u8) -> Entry {
    (kind::NORMAL, 2, name)
}

const fn args(name: u8) -> Entry {
    (kind::ARGS, 0, name)
}

const fn kwargs(name: u8) -> Entry {
    (kind::KWARGS, 0, name)
}

pub fn rows(checker: &mut Checker, plan: &Plan) {
    accepted_lists(checker);
    refused_lists(checker);
    call(checker);
    repeated(checker);
    types(checker);
    program(checker, plan);
}

fn with_table(cells: &Cells, see: impl FnOnce(&[u8], &[u8])) {
    let mut encoded = Encoded::default();
    encoded.write(cells, &PLAIN);
    see(&encoded.table, &encoded.names);
}

fn expect_list(checker: &mut Checker, list: &[Entry], number: u32, words: Option<&[u32]>) {
    let mut cells = Cells::default();
    cells.tree(kind::DEF, 0, 0, |cells| {
        for &(kind, detail, name) in list {
            cells.tree(kind, detail, name, |cells| (0..detail / 2).for_each(|_| cells.leaf(kind::INT, 0, 0)));
        }
        cells.leaf(kind::BREAK, 0, 0);
    });
    with_table(&cells, |table, names| {
        let job = Job::Params { node: 0, modes: list.len() };
        checker.expect(&Request { table, names, job }, number, words);
    });
}

fn accepted_lists(checker: &mut Checker) {
    expect_list(checker, &[], 0, Some(&[0; 11]));
    let marks = [plain(A), SLASH, plain(B), STAR, plain(C), kwargs(K)];
    expect_list(checker, &marks, 0, Some(&[0, 1, 1, 2, 2, 2, 2, 3, 3, 4, 4]));
    expect_list(checker, &[args(X), plain(A)], 0, Some(&[0, 0, 0, 0, 0, 1, 1, 2, 2, 2, 2]));
}

fn refused_lists(checker: &mut Checker) {
    expect_list(checker, &[with_default(A), SLASH, plain(B)], 13, None);
    expect_list(checker, &[SLASH, plain(A)], 10, None);
    expect_list(checker, &[STAR, SLASH], 15, None);
    expect_list(checker, &[STAR], 17, None);
    expect_list(checker, &[STAR, kwargs(K)], 18, None);
    // The first name that is equal is at node 1.
    expect_list(checker, &[kwargs(K), plain(K)], 11, Some(&[2, 23, 26, 1, 1]));
    expect_list(checker, &[STAR, kwargs(K), plain(X)], 12, None);
}

/// `f(*x, a=1)`, and without the named argument.
fn call(checker: &mut Checker) {
    for (named, number, words) in [(true, 21, None), (false, 0, Some([0, 0, 0, NONE]))] {
        let mut cells = Cells::default();
        cells.tree(kind::SIMPLE, 0, 0, |cells| {
            cells.tree(kind::CALL, 0, 0, |cells| {
                cells.leaf(kind::IDENTIFIER, 0, 5);
                cells.tree(kind::STAR_ARGUMENT, 0, 0, |cells| cells.leaf(kind::IDENTIFIER, 0, X));
                if named {
                    cells.tree(kind::NAMED, 0, A, |cells| cells.leaf(kind::INT, 0, 0));
                }
            })
        });
        with_table(&cells, |table, names| {
            let request = Request { table, names, job: Job::Call { node: 1 } };
            checker.expect(&request, number, words.as_ref().map(|words| words.as_slice()));
        });
    }
}

/// `f(1, a=2, b=3, a=4)`: 22 at the last argument, with its name's span, and the first `a=`.
fn repeated(checker: &mut Checker) {
    let mut cells = Cells::default();
    cells.tree(kind::SIMPLE, 0, 0, |cells| {
        cells.tree(kind::CALL, 0, 0, |cells| {
            cells.leaf(kind::IDENTIFIER, 0, 5);
            cells.tree(kind::POSITIONAL, 0, 0, |cells| cells.leaf(kind::INT, 0, 0));
            [A, B, A].into_iter().for_each(|name| cells.tree(kind::NAMED, 0, name, |cells| cells.leaf(kind::INT, 0, 0)));
        })
    });
    with_table(&cells, |table, names| {
        let request = Request { table, names, job: Job::Call { node: 1 } };
        checker.expect(&request, 22, Some(&[9, 1_002_700, 1_002_701, 5, 1]));
    });
}

fn expect_type(checker: &mut Checker, number: u32, build: impl FnOnce(&mut Cells)) {
    let mut cells = Cells::default();
    cells.tree(kind::SIMPLE, 0, 0, build);
    with_table(&cells, |table, names| {
        let dialect = &model::dialect::EXTENDED;
        let job = Job::Type { dialect, edition: FIRST_EDITION, node: 1, shapes: table.len() / 24 };
        checker.expect(&Request { table, names, job }, number, None);
    });
}

fn types(checker: &mut Checker) {
    let a_b = |cells: &mut Cells| cells.tree(kind::DOT, 0, B, |cells| cells.leaf(kind::IDENTIFIER, 0, A));
    let x_type = |cells: &mut Cells| cells.tree(kind::DOT, 0, TYPE, |cells| cells.leaf(kind::IDENTIFIER, 0, X));
    expect_type(checker, 40, |cells| {
        cells.tree(kind::INDEX, 0, 0, |cells| {
            a_b(cells);
            cells.leaf(kind::IDENTIFIER, 0, 8);
        })
    });
    expect_type(checker, 0, |cells| {
        cells.tree(kind::INDEX2, 0, 0, |cells| {
            a_b(cells);
            cells.leaf(kind::IDENTIFIER, 0, 8);
            cells.leaf(kind::IDENTIFIER, 0, 9);
        })
    });
    expect_type(checker, 44, x_type);
    expect_type(checker, 0, |cells| cells.tree(kind::DOT, 0, 24, x_type));
}

/// The table of `def f(a, b=1, c):` with `break` below, indented by two spaces. Its names are `abc`.
pub fn example_table() -> Vec<u8> {
    let record = |kind, detail, name: Option<u32>, begin, end, size| Record {
        kind,
        detail,
        name_len: u16::from(name.is_some()),
        name_start: name.unwrap_or(0),
        begin,
        end,
        size,
        file: 1,
        source: 0,
    };
    let records = [
        record(kind::DEF, 0, None, 0, 25, 6),
        record(kind::NORMAL, 0, Some(0), 6, 7, 1),
        record(kind::NORMAL, 2, Some(1), 9, 12, 2),
        record(kind::INT, 0, None, 11, 12, 1),
        record(kind::NORMAL, 0, Some(2), 14, 15, 1),
        record(kind::BREAK, 0, None, 20, 25, 1),
    ];
    records.iter().flat_map(Record::write).collect()
}

/// That module without a dialect and with Standard.
fn program(checker: &mut Checker, plan: &Plan) {
    let table = example_table();
    for dialect in [&[][..], &model::dialect::STANDARD] {
        let contents = file::Contents { table: table.clone(), names: b"abc".to_vec(), dialect: dialect.to_vec(), edition: None };
        let written = file::write(&contents);
        let printed = jobs::printed(&written);
        let expected = "nodes 6\n13 1 14 15\n55 1 20 25\nerrors 2\n";
        checker.note(printed == expected, || format!("the model prints {printed:?}"));
        compare_output(checker, plan, &written, true);
    }
}
