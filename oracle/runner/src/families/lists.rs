//! Parameter lists and call lists.

use model::numbers::kind;
use model::table::Class;

use super::each_random;
use super::style;
use super::write_fitting;
use super::Plan;
use super::Random;
use crate::cells::Cells;
use crate::cells::Encoded;
use crate::checker::Checker;
use crate::grow;
use crate::grow::Grower;
use crate::port::Job;
use crate::port::Request;
use crate::rng::Rng;

/// An entry of a list: its kind, its detail, and whether it has a name.
#[derive(Clone, Copy)]
pub struct Form {
    pub kind: u8,
    pub detail: u8,
    pub named: bool,
}

/// An entry with its name.
pub type Listed = (Form, u8);

const fn form(kind: u8, detail: u8, named: bool) -> Form {
    Form { kind, detail, named }
}

pub const PARAMETERS: [Form; 6] = [
    form(kind::NORMAL, 0, true),
    form(kind::NORMAL, 2, true),
    form(kind::NO_ARGS, 0, false),
    form(kind::SLASH, 0, false),
    form(kind::ARGS, 0, true),
    form(kind::KWARGS, 0, true),
];

pub const ARGUMENTS: [Form; 4] = [
    form(kind::POSITIONAL, 0, false),
    form(kind::NAMED, 0, true),
    form(kind::STAR_ARGUMENT, 0, false),
    form(kind::STAR_STAR_ARGUMENT, 0, false),
];

/// Every list of the given number of forms, with every pattern of equal names.
pub fn each_list(forms: &[Form], length: usize, see: &mut dyn FnMut(&[Listed])) {
    with_known_names(forms, length, 0, see)
}

/// The same where the given number of names are known before.
pub fn with_known_names(forms: &[Form], length: usize, names: u8, see: &mut dyn FnMut(&[Listed])) {
    extend_list(forms, length, names, &mut Vec::with_capacity(length), see)
}

fn extend_list(
    forms: &[Form],
    length: usize,
    names: u8,
    list: &mut Vec<Listed>,
    see: &mut dyn FnMut(&[Listed]),
) {
    if list.len() == length {
        return see(list);
    }
    for &form in forms {
        // A name is one of those before it, or the next new one.
        let last = if form.named { names } else { 0 };
        for name in 0..=last {
            list.push((form, name));
            let names = if form.named { names.max(name + 1) } else { names };
            extend_list(forms, length, names, list, see);
            list.pop();
        }
    }
}

/// A Def at node 0 for an even number, a Lambda at node 1 for an odd one, with these parameters.
fn parameter_table(cells: &mut Cells, list: &[Listed], number: u64) {
    cells.clear();
    let in_lambda = number % 2 == 1;
    let add = |cells: &mut Cells| {
        for (at, &(form, name)) in list.iter().enumerate() {
            let typed = form.named && (number / 2 + at as u64) % 3 == 0;
            parameter(cells, form, name, typed);
        }
        cells.leaf(if in_lambda { kind::INT } else { kind::BREAK }, 0, 0);
    };
    if in_lambda {
        cells.tree(kind::SIMPLE, 0, 0, |cells| cells.tree(kind::LAMBDA, 0, 0, add));
    } else {
        cells.tree(kind::DEF, 0, 0, add);
    }
}

fn parameter(cells: &mut Cells, form: Form, name: u8, typed: bool) {
    let detail = form.detail + u8::from(typed);
    cells.tree(form.kind, detail, name, |cells| {
        if typed {
            cells.leaf(kind::IDENTIFIER, 0, 7);
        }
        if form.detail == 2 {
            cells.leaf(kind::ELLIPSIS, 0, 0);
        }
    });
}

/// Every order of marks and names up to six parameters, with all patterns of equal names.
pub fn parameter_orders(checker: &mut Checker, plan: &Plan) {
    let mut cells = Cells::default();
    let mut encoded = Encoded::default();
    let mut number = 0;
    for length in 0..=if plan.is_long() { 7 } else { 6 } {
        each_list(&PARAMETERS, length, &mut |list| {
            number += 1;
            if !plan.has(number) || checker.is_done() {
                return;
            }
            let number = number / plan.parts;
            parameter_table(&mut cells, list, number);
            write_fitting(&mut encoded, &cells, &style(number));
            check_parameters(checker, &encoded, (number % 2) as usize, length, number);
        });
    }
}

/// The list with a buffer that is just long enough, longer, and now and then one short.
fn check_parameters(checker: &mut Checker, encoded: &Encoded, node: usize, length: usize, number: u64) {
    let Encoded { table, names, .. } = encoded;
    let mut ask = |modes: usize| {
        let request = Request { table, names, job: Job::Params { node, modes } };
        // Trying every cut of a long list takes too long.
        if length <= 12 { checker.check_list(&request) } else { checker.check(&request) }
    };
    ask(length + [0, 3][(number / 11 % 2) as usize]);
    if number % 29 == 0 && length > 0 {
        ask(length - 1);
    }
}

/// Longer lists, most of them nearly good.
pub fn random_parameters(checker: &mut Checker, plan: &Plan) {
    let grow = |rng: &mut Rng, number: u64| {
        let most = if number % 400 == 0 { 600 } else { rng.pick(&[8, 8, 12, 20, 48]) };
        let mut cells = Cells::default();
        let disturbed = rng.below(3);
        parameter_table(&mut cells, &nearly_good_list(rng, most, disturbed), number);
        cells
    };
    each_random(checker, plan, 1, 400_000, grow, |checker, _, random| {
        let node = (random.number % 2) as usize;
        let length = random.cells.written_parameters(node);
        check_parameters(checker, random.encoded, node, length, random.number);
    });
}

/// A good list with the given number of entries put in, taken out or changed.
pub fn nearly_good_list(rng: &mut Rng, most: usize, disturbed: usize) -> Vec<Listed> {
    let [plain, with_default, star, slash, args, kwargs] = PARAMETERS;
    let count = rng.within(0, most);
    let mut list = Vec::new();
    let mut next_name = 0u8;
    let mut named = |list: &mut Vec<Listed>, form: Form| {
        list.push((form, next_name));
        next_name = (next_name + 1) % 250;
    };
    let first_default = rng.within(0, count);
    let slash_at = if rng.once_in(2) { rng.within(0, count) } else { 0 };
    for at in 0..count {
        named(&mut list, if at < first_default { plain } else { with_default });
        if at + 1 == slash_at {
            list.push((slash, 0));
        }
    }
    let after = rng.within(0, 3);
    match rng.below(4) {
        0 if after > 0 => list.push((star, 0)),
        1 | 2 => named(&mut list, args),
        _ => {}
    }
    for _ in 0..after {
        named(&mut list, rng.pick(&[plain, with_default]));
    }
    if rng.once_in(2) {
        named(&mut list, kwargs);
    }
    for _ in 0..disturbed {
        disturb(rng, &mut list, &PARAMETERS);
    }
    list
}

pub fn disturb(rng: &mut Rng, list: &mut Vec<Listed>, forms: &[Form]) {
    let at = rng.below(list.len() + 1);
    let entry = (rng.pick(forms), rng.below(list.len().min(200) + 2) as u8);
    match rng.below(3) {
        0 => list.insert(at, entry),
        1 if at < list.len() => {
            list.remove(at);
        }
        _ if at < list.len() => list[at] = entry,
        _ => list.push(entry),
    }
}

/// A call at node 1 with these arguments.
fn argument_table(cells: &mut Cells, list: &[Listed], number: u64) {
    cells.clear();
    cells.tree(kind::SIMPLE, 0, 0, |cells| {
        cells.tree(kind::CALL, 0, 0, |cells| {
            cells.leaf(kind::IDENTIFIER, 0, 9);
            for (at, &(form, name)) in list.iter().enumerate() {
                let value = if (number + at as u64) % 3 == 0 { kind::TUPLE } else { kind::INT };
                cells.tree(form.kind, 0, name, |cells| cells.leaf(value, 0, 0));
            }
        })
    });
}

fn check_arguments(checker: &mut Checker, encoded: &Encoded) {
    let Encoded { table, names, .. } = encoded;
    checker.check(&Request { table, names, job: Job::Call { node: 1 } });
}

pub fn argument_orders(checker: &mut Checker, plan: &Plan) {
    let mut cells = Cells::default();
    let mut encoded = Encoded::default();
    let mut number = 0;
    for length in 0..=if plan.is_long() { 9 } else { 7 } {
        each_list(&ARGUMENTS, length, &mut |list| {
            number += 1;
            if plan.has(number) && !checker.is_done() {
                argument_table(&mut cells, list, number);
                write_fitting(&mut encoded, &cells, &style(number));
                check_arguments(checker, &encoded);
            }
        });
    }
}

pub fn random_arguments(checker: &mut Checker, plan: &Plan) {
    let grow = |rng: &mut Rng, number: u64| {
        let mut cells = Cells::default();
        argument_table(&mut cells, &nearly_good_arguments(rng), number);
        cells
    };
    each_random(checker, plan, 2, 200_000, grow, |checker, _, random| {
        check_arguments(checker, random.encoded);
    });
}

fn nearly_good_arguments(rng: &mut Rng) -> Vec<Listed> {
    let [positional, named, star, star_star] = ARGUMENTS;
    let mut list = vec![(positional, 0); rng.pick(&[0, 1, 3, 10, 40])];
    list.extend((0..rng.pick(&[0, 1, 3, 10, 40])).map(|name| (named, name)));
    list.extend(rng.once_in(2).then_some((star, 0)));
    list.extend(rng.once_in(2).then_some((star_star, 0)));
    for _ in 0..rng.below(3) {
        disturb(rng, &mut list, &ARGUMENTS);
    }
    list
}

/// Every list of a random module: parameters with types and defaults that are trees, calls inside calls.
pub fn lists_of_module(checker: &mut Checker, random: &Random) {
    for (node, cell) in random.cells.all.iter().enumerate() {
        match cell.kind {
            kind::DEF | kind::LAMBDA => {
                let modes = usize::from(cell.size);
                checker.check(&random.request(Job::Params { node, modes }));
            }
            kind::CALL => checker.check(&random.request(Job::Call { node })),
            _ => {}
        }
    }
}

/// A random call or lambda with subtrees, for the wild.
pub fn random_list_tree(rng: &mut Rng, wild: bool) -> Cells {
    grow::around_expression(rng, wild, |grower: &mut Grower| {
        if grower.rng.once_in(2) {
            grower.record(kind::CALL)
        } else if grower.rng.once_in(2) {
            grower.record(kind::LAMBDA)
        } else {
            grower.any_of(Class::Expression)
        }
    })
}
