//! The audit: the module pass and every job on every node that it fits, in one list.

use model::answer::AUDIT_WORDS;
use model::dialect;
use model::dialect::ALL_OPTIONS_INTERNAL as ON;
use model::dialect::STANDARD;
use model::jobs;
use model::numbers::kind;
use model::numbers::number;
use model::table::Class;
use model::table::MOST_NAME_BYTES;
use model::table::MOST_NODES;
use model::table::RECORD_BYTES;

use super::each_random;
use super::examples::example_table;
use super::modules::some;
use super::style;
use super::Plan;
use super::Random;
use crate::cells::Cell;
use crate::cells::Cells;
use crate::cells::Encoded;
use crate::cells::FILE_AT;
use crate::cells::PLAIN;
use crate::cells::TYPE;
use crate::checker::Checker;
use crate::grow;
use crate::port::Job;
use crate::port::Request;
use crate::port::FIRST_EDITION;
use crate::rng::Rng;
use crate::small::Small;

/// Everything is off; everything but types is on.
const OFF: [u8; 9] = [0; 9];
const NO_TYPES: [u8; 9] = [1, 1, 1, 1, 1, 0, 1, 1, 1];

/// An error by hand: its number, and the node whose span it has.
type At = (u32, usize);

pub fn corners(checker: &mut Checker, _plan: &Plan) {
    type_positions(checker);
    refused_types(checker);
    assignments(checker);
    for_targets(checker);
    two_at_one_record(checker);
    nested_lambdas(checker);
    calls(checker);
    own_errors(checker);
    other_roots(checker);
    names_span(checker);
    refusals(checker);
}

/// A module of statements from node 1 on, and its whole list; in lists from no word to more than enough.
fn expect(checker: &mut Checker, dialect: &[u8], list: &[At], build: impl FnOnce(&mut Cells)) {
    let mut cells = Cells::default();
    cells.tree(kind::STATEMENTS, 0, 0, build);
    expect_of(checker, dialect, list, &cells);
}

fn expect_of(checker: &mut Checker, dialect: &[u8], list: &[At], cells: &Cells) {
    let mut encoded = Encoded::default();
    encoded.write(cells, &PLAIN);
    let words = AUDIT_WORDS * list.len();
    for errors in [0, 4, 5, words.saturating_sub(1), words, words + 1, words + 7] {
        let job = Job::Audit { dialect, edition: FIRST_EDITION, errors };
        checker.expect_audit(&Request { table: &encoded.table, names: &encoded.names, job }, list);
    }
}

fn int(cells: &mut Cells) {
    cells.leaf(kind::INT, 0, 0);
}

fn name(cells: &mut Cells) {
    cells.leaf(kind::IDENTIFIER, 0, 0);
}

/// `f(a=1, 2)`, six records: 20 at the fifth.
fn bad_call(cells: &mut Cells) {
    cells.tree(kind::CALL, 0, 0, |cells| {
        name(cells);
        cells.tree(kind::NAMED, 0, 1, int);
        cells.tree(kind::POSITIONAL, 0, 0, int);
    });
}

/// `lambda a, a: 1`, four records: 11 at the third.
fn bad_lambda(cells: &mut Cells) {
    cells.tree(kind::LAMBDA, 0, 0, |cells| {
        cells.leaf(kind::NORMAL, 0, 1);
        cells.leaf(kind::NORMAL, 0, 1);
        int(cells);
    });
}

/// An assignment with a type.
fn typed(cells: &mut Cells, kind: u8, target: impl FnOnce(&mut Cells), ty: impl FnOnce(&mut Cells)) {
    cells.tree(kind, 1, 0, |cells| {
        target(cells);
        ty(cells);
        int(cells);
    });
}

/// `def f(a: 1, b: 1 = 1, c=1, *d: 1, e, **f: 1) -> 1: return`, and the same types in a lambda: no default is a type.
fn type_positions(checker: &mut Checker) {
    let def = |cells: &mut Cells| {
        cells.tree(kind::DEF, 1, 0, |cells| {
            cells.tree(kind::NORMAL, 1, 1, int);
            cells.tree(kind::NORMAL, 3, 2, |cells| [int, int].iter().for_each(|add| add(cells)));
            cells.tree(kind::NORMAL, 2, 3, int);
            cells.tree(kind::ARGS, 1, 4, int);
            cells.leaf(kind::NORMAL, 0, 5);
            cells.tree(kind::KWARGS, 1, 6, int);
            int(cells);
            cells.leaf(kind::RETURN, 0, 0);
        });
    };
    expect(checker, &ON, &[(40, 3), (40, 5), (40, 10), (40, 13), (40, 14)], def);
    expect(checker, &NO_TYPES, &[(45, 3), (45, 5), (45, 10), (45, 13), (45, 14)], def);
    expect(checker, &[], &[(40, 3), (40, 5), (40, 10), (40, 13), (40, 14)], def);
    expect(checker, &STANDARD, &[(45, 3), (45, 5), (45, 10), (45, 13), (45, 14)], def);
    expect(checker, &OFF, &[(52, 1), (45, 3), (45, 5), (45, 10), (45, 13), (45, 14)], def);
    let lambda = |cells: &mut Cells| {
        cells.tree(kind::SIMPLE, 0, 0, |cells| {
            cells.tree(kind::LAMBDA, 0, 0, |cells| {
                cells.tree(kind::NORMAL, 1, 1, int);
                cells.tree(kind::ARGS, 1, 2, int);
                cells.tree(kind::KWARGS, 1, 3, int);
                int(cells);
            })
        });
    };
    expect(checker, &ON, &[(40, 4), (40, 6), (40, 8)], lambda);
    expect(checker, &OFF, &[(61, 2), (45, 4), (45, 6), (45, 8)], lambda);
    // None has a type.
    let without = |cells: &mut Cells| {
        cells.tree(kind::DEF, 0, 0, |cells| {
            cells.leaf(kind::NORMAL, 0, 1);
            cells.tree(kind::NORMAL, 2, 2, int);
            cells.leaf(kind::ARGS, 0, 3);
            cells.leaf(kind::KWARGS, 0, 4);
            cells.tree(kind::SIMPLE, 0, 0, int);
        });
    };
    expect(checker, &NO_TYPES, &[], without);
}

/// Each number of a type, at the node that the type job gives.
fn refused_types(checker: &mut Checker) {
    let mut of_type = |number: u32, node: usize, ty: &dyn Fn(&mut Cells)| {
        expect(checker, &ON, &[(number, node)], |cells| typed(cells, kind::ASSIGN, name, ty));
        expect(checker, &NO_TYPES, &[(45, 3)], |cells| typed(cells, kind::ASSIGN, name, ty));
    };
    of_type(40, 3, &|cells| cells.tree(kind::LIST, 0, 0, name));
    of_type(41, 3, &|cells| cells.leaf(kind::LIST, 0, 0));
    of_type(42, 4, &|cells| cells.tree(kind::DOT, 0, 1, int));
    of_type(43, 4, &|cells| {
        cells.tree(kind::INDEX2, 0, 0, |cells| [int, name, name].iter().for_each(|add| add(cells)))
    });
    of_type(44, 4, &|cells| cells.tree(kind::DOT, 0, TYPE, name));
    expect(checker, &ON, &[], |cells| typed(cells, kind::ASSIGN, name, name));
}

/// A type's own refusal is beside the assignment's: 32 and 33 say nothing of the type itself.
fn assignments(checker: &mut Checker) {
    let tuple = |cells: &mut Cells| cells.tree(kind::TUPLE, 0, 0, name);
    expect(checker, &ON, &[(32, 3), (40, 3)], |cells| typed(cells, kind::ASSIGN_MODIFY, name, int));
    expect(checker, &ON, &[(32, 3)], |cells| typed(cells, kind::ASSIGN_MODIFY, name, name));
    expect(checker, &NO_TYPES, &[(32, 3), (45, 3)], |cells| typed(cells, kind::ASSIGN_MODIFY, name, name));
    expect(checker, &ON, &[(31, 2), (40, 4)], |cells| typed(cells, kind::ASSIGN_MODIFY, tuple, int));
    expect(checker, &ON, &[(33, 4), (40, 4)], |cells| typed(cells, kind::ASSIGN, tuple, int));
    expect(checker, &ON, &[(30, 2), (40, 3)], |cells| typed(cells, kind::ASSIGN, int, int));
    let plain = |kind: u8| {
        move |cells: &mut Cells| {
            cells.tree(kind, 0, 0, |cells| {
                tuple(cells);
                int(cells);
            })
        }
    };
    expect(checker, &ON, &[(31, 2)], plain(kind::ASSIGN_MODIFY));
    expect(checker, &ON, &[], plain(kind::ASSIGN));
    // `f(a=1, 2).x: 1 += 0`: the assignment, then the call in its target, then the type.
    let dot = |cells: &mut Cells| cells.tree(kind::DOT, 0, 2, bad_call);
    expect(checker, &ON, &[(32, 9), (20, 7), (40, 9)], |cells| typed(cells, kind::ASSIGN_MODIFY, dot, int));
}

fn for_statement(cells: &mut Cells, target: impl FnOnce(&mut Cells), body: impl FnOnce(&mut Cells)) {
    cells.tree(kind::FOR, 0, 0, |cells| {
        target(cells);
        name(cells);
        body(cells);
    });
}

/// A refused For is not entered by the module pass, and its target and what is in it are looked at all the same. The target of a
/// comprehension is not.
fn for_targets(checker: &mut Checker) {
    let to_break = |cells: &mut Cells| cells.leaf(kind::BREAK, 0, 0);
    expect(checker, &ON, &[(30, 2)], |cells| for_statement(cells, int, to_break));
    expect(checker, &STANDARD, &[(53, 1), (30, 2)], |cells| for_statement(cells, int, to_break));
    let mixed = |cells: &mut Cells| {
        cells.tree(kind::TUPLE, 0, 0, |cells| [name, int, int].iter().for_each(|add| add(cells)));
    };
    expect(checker, &ON, &[(30, 4)], |cells| for_statement(cells, mixed, to_break));
    let call = |cells: &mut Cells| cells.tree(kind::SIMPLE, 0, 0, bad_call);
    expect(checker, &STANDARD, &[(53, 1), (20, 9)], |cells| for_statement(cells, name, call));
    let inner = |cells: &mut Cells| for_statement(cells, int, to_break);
    expect(checker, &STANDARD, &[(53, 1), (30, 2), (30, 5)], |cells| for_statement(cells, int, inner));
    for (kind, items) in [(kind::LIST_COMPREHENSION, 3), (kind::DICT_COMPREHENSION, 4)] {
        expect(checker, &ON, &[], |cells| {
            cells.tree(kind::SIMPLE, 0, 0, |cells| {
                cells.tree(kind, 0, 0, |cells| (0..items).for_each(|_| int(cells)));
            })
        });
    }
}

/// A call or a lambda that is a target or a type: its own refusal first, then the other's, then what is below it.
fn two_at_one_record(checker: &mut Checker) {
    let nested = |cells: &mut Cells| {
        cells.tree(kind::CALL, 0, 0, |cells| {
            name(cells);
            cells.tree(kind::NAMED, 0, 1, int);
            cells.tree(kind::POSITIONAL, 0, 0, bad_call);
        });
    };
    let to_continue = |cells: &mut Cells| cells.leaf(kind::CONTINUE, 0, 0);
    expect(checker, &ON, &[(20, 6), (30, 2), (20, 11)], |cells| for_statement(cells, nested, to_continue));
    expect(checker, &ON, &[(11, 4), (30, 2)], |cells| for_statement(cells, bad_lambda, to_continue));
    let refused = [(53, 1), (61, 2), (11, 4), (30, 2)];
    expect(checker, &OFF, &refused, |cells| for_statement(cells, bad_lambda, to_continue));
    expect(checker, &ON, &[(20, 7), (40, 3), (20, 12)], |cells| typed(cells, kind::ASSIGN, name, nested));
    expect(checker, &NO_TYPES, &[(20, 7), (45, 3)], |cells| typed(cells, kind::ASSIGN, name, bad_call));
    expect(checker, &ON, &[(11, 5), (40, 3)], |cells| typed(cells, kind::ASSIGN, name, bad_lambda));
    expect(checker, &OFF, &[(61, 3), (11, 5), (45, 3)], |cells| typed(cells, kind::ASSIGN, name, bad_lambda));
}

/// `def f(a=lambda b=lambda /: 1, b: 1): break`, and a lambda in a parameter's type.
fn nested_lambdas(checker: &mut Checker) {
    let in_default = |cells: &mut Cells| {
        cells.tree(kind::DEF, 0, 0, |cells| {
            cells.tree(kind::NORMAL, 2, 1, |cells| {
                cells.tree(kind::LAMBDA, 0, 0, |cells| {
                    cells.tree(kind::NORMAL, 2, 2, |cells| {
                        cells.tree(kind::LAMBDA, 0, 0, |cells| {
                            cells.leaf(kind::SLASH, 0, 0);
                            int(cells);
                        })
                    });
                    cells.leaf(kind::NORMAL, 0, 2);
                    int(cells);
                })
            });
            cells.leaf(kind::BREAK, 0, 0);
        });
    };
    expect(checker, &ON, &[(55, 10), (11, 8), (10, 6)], in_default);
    let refused = [(52, 1), (55, 10), (61, 3), (61, 5), (51, 6), (11, 8), (10, 6)];
    expect(checker, &OFF, &refused, in_default);
    let in_type = |cells: &mut Cells| {
        cells.tree(kind::DEF, 1, 0, |cells| {
            cells.tree(kind::NORMAL, 1, 1, bad_lambda);
            cells.tree(kind::KWARGS, 1, 2, bad_lambda);
            bad_lambda(cells);
            cells.leaf(kind::RETURN, 0, 0);
        });
    };
    expect(checker, &ON, &[(11, 5), (40, 3), (11, 10), (40, 8), (11, 14), (40, 12)], in_type);
}

/// Each number of a call but 22.
fn calls(checker: &mut Checker) {
    for (kinds, number) in [([62, 61], 21), ([62, 62], 23), ([63, 62], 23), ([63, 63], 24), ([61, 60], 20)] {
        expect(checker, &ON, &[(number, 6)], |cells| {
            cells.tree(kind::SIMPLE, 0, 0, |cells| {
                cells.tree(kind::CALL, 0, 0, |cells| {
                    name(cells);
                    kinds.into_iter().for_each(|kind| cells.tree(kind, 0, u8::from(kind == kind::NAMED), int));
                })
            })
        });
    }
}

/// The module pass's own errors are in front, in its order, without 10 to 19; those of lists stay where the list is.
fn own_errors(checker: &mut Checker) {
    expect(checker, &OFF, &[], |_| {});
    let list = |cells: &mut Cells| {
        cells.tree(kind::DEF, 0, 0, |cells| {
            cells.leaf(kind::NORMAL, 0, 1);
            cells.leaf(kind::SLASH, 0, 0);
            cells.leaf(kind::NO_ARGS, 0, 0);
            cells.leaf(kind::RETURN, 0, 0);
        });
    };
    expect(checker, &ON, &[(17, 4)], list);
    expect(checker, &STANDARD, &[(50, 4), (51, 3), (17, 4)], list);
    let ellipsis = |cells: &mut Cells| cells.leaf(kind::ELLIPSIS, 0, 0);
    expect(checker, &NO_TYPES, &[(55, 3), (60, 2)], |cells| {
        cells.tree(kind::SIMPLE, 0, 0, ellipsis);
        cells.leaf(kind::BREAK, 0, 0);
    });
    expect(checker, &NO_TYPES, &[(60, 3), (45, 3)], |cells| typed(cells, kind::ASSIGN, name, ellipsis));
    // A call of the first statement is after the last expression's error.
    expect(checker, &NO_TYPES, &[(57, 8), (60, 10), (20, 6)], |cells| {
        cells.tree(kind::SIMPLE, 0, 0, bad_call);
        cells.leaf(kind::RETURN, 0, 0);
        cells.tree(kind::SIMPLE, 0, 0, ellipsis);
    });
    expect(checker, &OFF, &[(54, 1), (59, 4)], |cells| {
        cells.tree(kind::IF_STATEMENT, 0, 0, |cells| {
            int(cells);
            cells.leaf(kind::LOAD, 0, 0);
        });
        cells.leaf(kind::LOAD, 0, 0);
    });
}

/// A root that is itself an assignment, a For or a Def.
fn other_roots(checker: &mut Checker) {
    let mut cells = Cells::default();
    typed(&mut cells, kind::ASSIGN, int, int);
    expect_of(checker, &ON, &[(30, 1), (40, 2)], &cells);
    cells.clear();
    for_statement(&mut cells, int, |cells| cells.leaf(kind::BREAK, 0, 0));
    expect_of(checker, &OFF, &[(53, 0), (30, 1)], &cells);
    cells.clear();
    cells.tree(kind::DEF, 1, 0, |cells| {
        cells.leaf(kind::SLASH, 0, 0);
        int(cells);
        cells.leaf(kind::RETURN, 0, 0);
    });
    expect_of(checker, &ON, &[(10, 1), (40, 2)], &cells);
}

/// 22 has the name's span, and the sample `example` its own words.
fn names_span(checker: &mut Checker) {
    let mut cells = Cells::default();
    cells.tree(kind::SIMPLE, 0, 0, |cells| {
        cells.tree(kind::CALL, 0, 0, |cells| {
            name(cells);
            (0..2).for_each(|_| cells.tree(kind::NAMED, 0, 1, int));
        })
    });
    let mut encoded = Encoded::default();
    encoded.write(&cells, &PLAIN);
    expect_words(checker, &encoded.table, &encoded.names, &[[22, 1, 1_001_500, 1_001_501, 5]]);
    expect_words(checker, &example_table(), b"abc", &[[55, 1, 20, 25, 5], [13, 1, 14, 15, 4]]);
}

fn expect_words(checker: &mut Checker, table: &[u8], names: &[u8], list: &[[u32; AUDIT_WORDS]]) {
    let audited = jobs::audit(table, names, &STANDARD, FIRST_EDITION).audited;
    checker.note(audited == list, || format!("the model audits {audited:?}, by hand it is {list:?}"));
    for errors in 0..=AUDIT_WORDS * list.len() + 1 {
        checker.check(&Request { table, names, job: Job::Audit { dialect: &STANDARD, edition: FIRST_EDITION, errors } });
    }
}

/// 1 to 5 before anything is stored, in their order.
fn refusals(checker: &mut Checker) {
    let mut cells = Cells::default();
    cells.tree(kind::STATEMENTS, 0, 0, |cells| {
        cells.tree(kind::SIMPLE, 0, 0, bad_call);
        cells.leaf(kind::BREAK, 0, 0);
    });
    let mut encoded = Encoded::default();
    encoded.write(&cells, &PLAIN);
    let Encoded { table, names, .. } = encoded;
    let mut unsound = table.clone();
    unsound[RECORD_BYTES * 6 + FILE_AT] = 2;
    cells.clear();
    cells.tree(kind::SIMPLE, 0, 0, |cells| {
        let opened: Vec<usize> = (0..70).map(|_| cells.open(kind::NOT, 0, 0)).collect();
        int(cells);
        opened.into_iter().rev().for_each(|at| cells.close(at));
    });
    let mut deep = Encoded::default();
    deep.write(&cells, &PLAIN);
    let long = vec![0; RECORD_BYTES * (MOST_NODES + 1)];
    let many = vec![b'n'; MOST_NAME_BYTES + 1];
    let mut refuse = |table: &[u8], names: &[u8], dialect: &[u8], number: u32, words: &[u32]| {
        for errors in [0, 4, 5, 40] {
            checker.expect(&Request { table, names, job: Job::Audit { dialect, edition: FIRST_EDITION, errors } }, number, Some(words));
        }
    };
    for table in [&[][..], &table[1..], &table[..table.len() - 1], &long] {
        refuse(table, &many, &[7], number::TABLE_LENGTH, &[]);
    }
    refuse(&unsound, &many, &[7], number::NAME_BYTES, &[]);
    refuse(&unsound, &names, &[7], number::UNSOUND, &[6]);
    refuse(&deep.table, &[], &[7], number::DEPTH, &[64]);
    for dialect in [&[7][..], &[1; 8], &[1; 10], &[2; 9], &[1, 1, 1, 1, 1, 3, 1, 1, 1]] {
        refuse(&table, &names, dialect, number::DIALECT, &[]);
    }
}

/// Room for every error, since there are never more than three a record.
fn room_for_all(table: &[u8]) -> usize {
    table.len() / RECORD_BYTES * 3 * AUDIT_WORDS + 3
}

/// A list that holds all errors, or ends before, in or after one.
fn list_length(rng: &mut Rng, encoded: &Encoded, dialect: &[u8]) -> usize {
    if rng.once_in(2) {
        return room_for_all(&encoded.table);
    }
    let total = jobs::audit(&encoded.table, &encoded.names, dialect, FIRST_EDITION).audited.len();
    let words = AUDIT_WORDS * total;
    let near = (AUDIT_WORDS * rng.within(0, total) + rng.below(AUDIT_WORDS)).saturating_sub(rng.below(2));
    rng.pick(&[near, near, 0, 4, 5, words, words.saturating_sub(1)])
}

/// Every statement of few records, with everything off, no dialect, everything on, and a dialect that changes from tree to tree.
pub fn small(checker: &mut Checker, plan: &Plan) {
    let records = if plan.is_long() { 5 } else { 4 };
    let small = Small::up_to(records - 1);
    let dialects = dialect::all();
    let mut cells = Cells::default();
    let mut encoded = Encoded::default();
    let mut number = 0;
    for size in 1..=records {
        small.each(Class::Statement, size, &mut |tree: &[Cell]| {
            number += 1;
            if !plan.has(number) || checker.is_done() {
                return;
            }
            cells.clear();
            cells.append(tree);
            encoded.write(&cells, &style(number));
            let chosen = [0, 768, 767, number as usize * 331 % 769];
            let errors = room_for_all(&encoded.table);
            let chosen = chosen.iter().map(|&at| (dialects[at].as_slice(), errors));
            checker.check_audits(&encoded.table, &encoded.names, FIRST_EDITION, chosen);
        });
    }
}

/// The audit under these dialects, with lists of any length.
fn check_dialects<'a>(
    checker: &mut Checker,
    rng: &mut Rng,
    random: &Random,
    dialects: impl Iterator<Item = &'a Vec<u8>>,
) {
    let encoded = random.encoded;
    let asked = dialects.map(|dialect| (dialect.as_slice(), list_length(rng, encoded, dialect)));
    checker.check_audits(&encoded.table, &encoded.names, FIRST_EDITION, asked);
}

/// Each random module under all 769 dialects.
pub fn all_dialects(checker: &mut Checker, plan: &Plan) {
    let dialects = dialect::all();
    let grow = |rng: &mut Rng, number| grow::module(rng, number % 4 == 3);
    each_random(checker, plan, 20, 80, grow, |checker, rng, random| {
        check_dialects(checker, rng, random, dialects.iter());
    });
}

/// Random modules, half of them no trees of the crate, each under a few random dialects.
pub fn random(checker: &mut Checker, plan: &Plan) {
    let dialects = dialect::all();
    let grow = |rng: &mut Rng, number| grow::module(rng, number % 2 == 1);
    each_random(checker, plan, 21, 50_000, grow, |checker, rng, random| {
        let chosen = some(rng, &dialects, 2);
        check_dialects(checker, rng, random, chosen.into_iter());
    });
}

/// Modules of hundreds of records, up to the limit.
pub fn large(checker: &mut Checker, plan: &Plan) {
    let dialects = dialect::all();
    let grow = |rng: &mut Rng, number| {
        let records = rng.pick(&[200, 500, 1_000, MOST_NODES, MOST_NODES]);
        grow::large_module(rng, records, number % 2 == 1)
    };
    each_random(checker, plan, 22, 160, grow, |checker, rng, random| {
        let chosen = some(rng, &dialects, 3);
        check_dialects(checker, rng, random, chosen.into_iter());
    });
}
