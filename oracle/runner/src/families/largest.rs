//! The largest of everything: names, lists, trees, error lists and files of each size that is next to a power of two or a limit. A fault
//! that begins at some size shows here, whatever the size is.

use model::answer::AUDIT_WORDS;
use model::answer::ERROR_WORDS;
use model::dialect::ALL_OPTIONS_INTERNAL;
use model::file;
use model::file::BLOCK;
use model::file::CONTENT;
use model::jobs;
use model::numbers::kind;
use model::params::MOST_ENTRIES;
use model::table::Record;
use model::table::MOST_DEPTH;
use model::table::MOST_NAME_BYTES;
use model::table::MOST_NODES;
use model::table::RECORD_BYTES;

use super::files::contents;
use super::names::check_pair;
use super::Plan;
use crate::cells::write_files;
use crate::cells::Files;
use crate::checker::Checker;
use crate::port::Job;
use crate::port::Request;
use crate::port::FIRST_EDITION;
use crate::port::NO_EDITION;
use crate::rng::Rng;

/// Nothing is permitted, and there are no types.
const NOTHING: [u8; 9] = [0; 9];

/// The records in a full node block.
const IN_A_BLOCK: usize = CONTENT / RECORD_BYTES;

/// From 1 to `most`: each power of two, the numbers next to it, and the two largest.
fn sizes(most: usize) -> Vec<usize> {
    let powers = (0..usize::BITS).map(|bit| 1 << bit).take_while(|&power| power <= most);
    let mut all: Vec<usize> = powers.flat_map(|power| [power - 1, power, power + 1]).chain([most - 1, most]).collect();
    all.retain(|&size| 1 <= size && size <= most);
    all.sort();
    all.dedup();
    all
}

/// A length, and the lengths next to it.
fn around(length: usize) -> [usize; 3] {
    [length.max(1) - 1, length, length + 1]
}

/// Counts inputs, so that the parts of a family can share them.
struct Turns<'p> {
    plan: &'p Plan,
    number: u64,
}

impl Turns<'_> {
    fn of(plan: &Plan) -> Turns<'_> {
        Turns { plan, number: 0 }
    }

    /// Whether the next input is this part's, and the run goes on.
    fn next(&mut self, checker: &Checker) -> bool {
        self.number += 1;
        self.plan.has(self.number) && !checker.is_done()
    }
}

/// A table that grows record by record; a record's size is put right when it is closed, and the source file numbers when the root is.
#[derive(Default)]
struct Growing {
    table: Vec<u8>,
    names: Vec<u8>,
}

impl Growing {
    fn nodes(&self) -> usize {
        self.table.len() / RECORD_BYTES
    }

    fn open(&mut self, kind: u8, detail: u8, name: &[u8]) -> usize {
        let node = self.nodes();
        let begin = 9 * node as u32;
        let name_start = if name.is_empty() { 0 } else { self.names.len() as u32 };
        let source = if kind == kind::NAMED { 1_000_000 + 300 * node as u32 } else { 0 };
        let name_len = name.len() as u16;
        let record = Record { kind, detail, name_len, name_start, begin, end: begin + 4, size: 1, file: 0, source };
        self.table.extend_from_slice(&record.write());
        self.names.extend_from_slice(name);
        node
    }

    fn leaf(&mut self, kind: u8, name: &[u8]) {
        self.open(kind, 0, name);
    }

    fn close(&mut self, node: usize) {
        let size = (self.nodes() - node) as u16;
        let at = RECORD_BYTES * node + 16;
        self.table[at..at + 2].copy_from_slice(&size.to_le_bytes());
        if node == 0 {
            write_files(&mut self.table, Files::Each(u64::from(size)));
        }
    }

    fn tree(&mut self, kind: u8, detail: u8, below: impl FnOnce(&mut Growing)) {
        let node = self.open(kind, detail, b"");
        below(self);
        self.close(node);
    }

    fn ask(&self, checker: &mut Checker, job: Job) {
        checker.check(&Request { table: &self.table, names: &self.names, job });
    }
}

/// A name of two letters: the first 3,844 numbers have different ones.
fn short(number: usize) -> [u8; 2] {
    const LETTERS: &[u8; 62] = b"abcdefghijklmnopqrstuvwxyzABCDEFGHIJKLMNOPQRSTUVWXYZ0123456789";
    [LETTERS[number / 62 % 62], LETTERS[number % 62]]
}

/// From here on names have no order, so that some of a list meet wherever names are noted.
const WITHOUT_ORDER: usize = 10_000;

/// The name of a number.
fn spelled(number: usize) -> Vec<u8> {
    let mut name = short(number).to_vec();
    if WITHOUT_ORDER <= number {
        let mut rng = Rng::new(number as u64, 31);
        let letters = rng.within(1, 9);
        name.extend((0..letters).map(|_| b'a' + rng.below(26) as u8));
    }
    name
}

/// Names that are nearly equal, bit by bit, and fields that are nearly `type`.
pub fn names(checker: &mut Checker, plan: &Plan) {
    let mut turns = Turns::of(plan);
    for length in 1..=255 {
        if turns.next(checker) {
            each_bit(checker, length);
        }
    }
    for field in nearly_type() {
        if turns.next(checker) {
            check_field(checker, &field);
        }
    }
    for length in sizes(255).into_iter().filter(|&length| 2 <= length) {
        if turns.next(checker) {
            full_names(checker, length);
        }
    }
}

/// Parameters whose names have one length, and arguments whose names fill the name bytes as far as the records go; the last name once more, or
/// not.
fn full_names(checker: &mut Checker, length: usize) {
    let long = |name: usize| [&vec![b'n'; length - 2][..], &short(name)].concat();
    let audit = Job::Audit { dialect: &ALL_OPTIONS_INTERNAL, edition: FIRST_EDITION, errors: 9 };
    let count = (MOST_NAME_BYTES / length).min(MOST_ENTRIES);
    for last in [count - 1, count - 2, 0] {
        let mut growing = Growing::default();
        growing.tree(kind::DEF, 0, |growing| {
            (0..count - 1).chain([last]).for_each(|name| growing.leaf(kind::NORMAL, &long(name)));
            growing.leaf(kind::SIMPLE, b"");
        });
        growing.names.resize(MOST_NAME_BYTES, b'n');
        growing.ask(checker, Job::Params { node: 0, modes: count });
        growing.ask(checker, audit);
    }
    let count = ((MOST_NAME_BYTES - 1) / length).min((MOST_NODES - 3) / 2);
    for last in [count - 1, count - 2, 0] {
        let mut growing = Growing::default();
        let named: Vec<Vec<u8>> = (0..count - 1).chain([last]).map(long).collect();
        let node = add_named(&mut growing, &named);
        growing.names.resize(MOST_NAME_BYTES, b'n');
        growing.ask(checker, Job::Call { node });
        growing.ask(checker, audit);
    }
}

/// A statement that calls with arguments of these names, and the Call's node.
fn add_named(growing: &mut Growing, names: &[Vec<u8>]) -> usize {
    let node = growing.nodes() + 1;
    growing.tree(kind::SIMPLE, 0, |growing| {
        growing.tree(kind::CALL, 0, |growing| {
            growing.leaf(kind::IDENTIFIER, b"f");
            for name in names {
                let node = growing.open(kind::NAMED, 0, name);
                growing.leaf(kind::INT, b"");
                growing.close(node);
            }
        });
    });
    node
}

/// Two names of a length that differ in one bit: of the first byte, or of one of the last eight.
fn each_bit(checker: &mut Checker, length: usize) {
    let name: Vec<u8> = (0..length).map(|at| b'a' + (at * 7 % 26) as u8).collect();
    for at in (0..length).filter(|at| *at == 0 || at + 8 >= length) {
        for bit in 0..8 {
            let mut other = name.clone();
            other[at] ^= 1 << bit;
            check_pair(checker, 2, &name, &other);
        }
    }
}

/// `type` with each byte changed to each value, taken out, or put in; and with more and more after it.
fn nearly_type() -> Vec<Vec<u8>> {
    let name = b"type".to_vec();
    let mut fields = vec![name.clone()];
    for at in 0..=name.len() {
        for byte in 0..=255 {
            let mut longer = name.clone();
            longer.insert(at, byte);
            fields.push(longer);
            if let Some(place) = name.clone().get_mut(at) {
                *place = byte;
                fields.push([&name[..at], &[byte], &name[at + 1..]].concat());
            }
        }
        fields.push(name.iter().enumerate().filter(|(place, _)| *place != at).map(|(_, byte)| *byte).collect());
    }
    fields.extend((5..=255).map(|length| (0..length).map(|place| name[place % 4]).collect()));
    fields
}

/// `x: y.FIELD = 0` by the type job, and by the audit.
fn check_field(checker: &mut Checker, field: &[u8]) {
    let mut growing = Growing::default();
    growing.tree(kind::ASSIGN, 1, |growing| {
        growing.leaf(kind::IDENTIFIER, b"x");
        let dot = growing.open(kind::DOT, 0, field);
        growing.leaf(kind::IDENTIFIER, b"y");
        growing.close(dot);
        growing.leaf(kind::INT, b"");
    });
    growing.ask(checker, Job::Type { dialect: &ALL_OPTIONS_INTERNAL, edition: FIRST_EDITION, node: 2, shapes: 2 });
    growing.ask(checker, Job::Audit { dialect: &ALL_OPTIONS_INTERNAL, edition: FIRST_EDITION, errors: 8 });
}

/// Parameter lists, calls and bindings.
pub fn lists(checker: &mut Checker, plan: &Plan) {
    let mut turns = Turns::of(plan);
    for count in sizes(MOST_ENTRIES).into_iter().chain(too_many(MOST_NODES - 2)) {
        for form in 0..4 {
            if turns.next(checker) {
                check_parameters(checker, count, form);
            }
        }
    }
    for count in sizes((MOST_NODES - 3) / 2) {
        for form in 0..4 {
            if turns.next(checker) {
                check_arguments(checker, count, form);
            }
        }
    }
    repeated_names(checker, &mut turns);
    bindings(checker, &mut turns);
}

/// Sizes of parameter lists that are not permitted, up to `most`.
fn too_many(most: usize) -> impl Iterator<Item = usize> {
    sizes(most).into_iter().chain([MOST_ENTRIES + 1, MOST_ENTRIES + 2]).filter(|&size| MOST_ENTRIES < size)
}

/// What is at a place of a list of the given number of parameters: all ordinary; half of them before `/`; after `*args`; after `*`, with
/// `**kwargs` at the end.
fn parameter(form: usize, place: usize, count: usize) -> u8 {
    match form {
        1 if place == count / 2 && 0 < place => kind::SLASH,
        2 if place == count / 2 => kind::ARGS,
        3 if place == count / 2 && place + 2 < count => kind::NO_ARGS,
        3 if place + 1 == count => kind::KWARGS,
        _ => kind::NORMAL,
    }
}

fn add_parameters(growing: &mut Growing, names: &[usize], form: usize) {
    for (place, &name) in names.iter().enumerate() {
        match parameter(form, place, names.len()) {
            mark @ (kind::SLASH | kind::NO_ARGS) => growing.leaf(mark, b""),
            named => growing.leaf(named, &spelled(name)),
        }
    }
}

fn parameters(names: &[usize], form: usize) -> Growing {
    let mut growing = Growing::default();
    growing.tree(kind::DEF, 0, |growing| {
        add_parameters(growing, names, form);
        growing.leaf(kind::SIMPLE, b"");
    });
    growing
}

fn check_parameters(checker: &mut Checker, count: usize, form: usize) {
    let growing = parameters(&(0..count).collect::<Vec<_>>(), form);
    for modes in around(count) {
        growing.ask(checker, Job::Params { node: 0, modes });
    }
    growing.ask(checker, Job::Module { dialect: &ALL_OPTIONS_INTERNAL, errors: 9 });
    growing.ask(checker, Job::Audit { dialect: &ALL_OPTIONS_INTERNAL, edition: FIRST_EDITION, errors: 9 });
}

/// What is at a place of a call: all positional; all named; half and half; a star and a double star at the end.
fn argument(form: usize, place: usize, count: usize) -> u8 {
    match form {
        0 => kind::POSITIONAL,
        1 => kind::NAMED,
        3 if place + 2 == count => kind::STAR_ARGUMENT,
        3 if place + 1 == count => kind::STAR_STAR_ARGUMENT,
        _ if place < count / 2 => kind::POSITIONAL,
        _ => kind::NAMED,
    }
}

/// A statement that calls with the given number of arguments, and the Call's node.
fn add_call(growing: &mut Growing, names: &[usize], form: usize) -> usize {
    let node = growing.nodes() + 1;
    growing.tree(kind::SIMPLE, 0, |growing| {
        growing.tree(kind::CALL, 0, |growing| {
            growing.leaf(kind::IDENTIFIER, b"f");
            for (place, &name) in names.iter().enumerate() {
                let kind = argument(form, place, names.len());
                let name = if kind == kind::NAMED { spelled(name) } else { Vec::new() };
                let node = growing.open(kind, 0, &name);
                growing.leaf(kind::INT, b"");
                growing.close(node);
            }
        });
    });
    node
}

fn check_arguments(checker: &mut Checker, count: usize, form: usize) {
    let mut growing = Growing::default();
    let node = add_call(&mut growing, &(0..count).collect::<Vec<_>>(), form);
    growing.ask(checker, Job::Call { node });
    growing.ask(checker, Job::Audit { dialect: &ALL_OPTIONS_INTERNAL, edition: FIRST_EDITION, errors: 9 });
}

/// A name that is repeated at the end of a list: of long lists every earlier place is tried, so that whatever a check notes of the names
/// between the two is tried too. The numbers of a list differ by less than 3,844, so that its names do.
fn repeated_names(checker: &mut Checker, turns: &mut Turns) {
    for from in (1..=12).map(|set| set * WITHOUT_ORDER) {
        for count in [20, 40, MOST_ENTRIES - 1] {
            for place in 0..count {
                if turns.next(checker) {
                    let names: Vec<usize> = (from..from + count).chain([from + place]).collect();
                    parameters(&names, 0).ask(checker, Job::Params { node: 0, modes: count + 1 });
                }
            }
        }
    }
    for from in [1, 2, 3].map(|set| set * WITHOUT_ORDER) {
        for count in [120, 250, 260] {
            for place in 0..count {
                if turns.next(checker) {
                    let names: Vec<usize> = (from..from + count).chain([from + place]).collect();
                    check_repeated(checker, &names);
                }
            }
        }
    }
    for count in sizes((MOST_NODES - 5) / 2).into_iter().filter(|&count| 1 < count) {
        for place in [0, count / 2, count - 1] {
            if turns.next(checker) {
                check_repeated(checker, &(0..count).chain([place]).collect::<Vec<_>>());
            }
        }
    }
    for count in too_many(MOST_NODES - 3) {
        for place in [0, count / 2, count - 1] {
            if turns.next(checker) {
                let names: Vec<usize> = (0..count).chain([place]).collect();
                parameters(&names, 0).ask(checker, Job::Params { node: 0, modes: count + 1 });
            }
        }
    }
}

/// A call whose arguments have these names.
fn check_repeated(checker: &mut Checker, names: &[usize]) {
    let mut call = Growing::default();
    let node = add_call(&mut call, names, 1);
    call.ask(checker, Job::Call { node });
}

/// Defs and calls, with as many arguments as parameters, and with all arguments for `*args` or `**kwargs`.
fn bindings(checker: &mut Checker, turns: &mut Turns) {
    for count in sizes(MOST_ENTRIES).into_iter().chain(too_many((MOST_NODES - 6) / 3)) {
        for form in 0..3 {
            if turns.next(checker) {
                check_binding(checker, &(0..count).collect::<Vec<_>>(), 0, count, form);
            }
        }
    }
    for count in sizes((MOST_NODES - 7) / 2) {
        for (parameters, form) in [(2, 0), (3, 1)] {
            if turns.next(checker) {
                check_binding(checker, &[3_000], parameters, count, form);
            }
        }
    }
}

fn check_binding(checker: &mut Checker, names: &[usize], parameters: usize, count: usize, arguments: usize) {
    let mut growing = Growing::default();
    let root = growing.open(kind::STATEMENTS, 0, b"");
    growing.tree(kind::DEF, 0, |growing| {
        add_parameters(growing, names, parameters);
        growing.leaf(kind::SIMPLE, b"");
    });
    let call = add_call(&mut growing, &(0..count).collect::<Vec<_>>(), arguments);
    growing.close(root);
    for list in around(names.len() + count) {
        growing.ask(checker, Job::Bind { call, def: 1, list });
    }
}

/// Targets of many leaves, types of many nodes, and jobs at nodes far from the start.
pub fn trees(checker: &mut Checker, plan: &Plan) {
    let mut turns = Turns::of(plan);
    for (leaf, records) in [(kind::IDENTIFIER, 1), (kind::DOT, 2), (kind::INDEX, 3)] {
        for count in sizes((MOST_NODES - 3) / records) {
            for group in [kind::TUPLE, kind::LIST] {
                if turns.next(checker) {
                    check_leaves(checker, group, leaf, count);
                }
            }
        }
    }
    for count in sizes(MOST_NODES - 5) {
        for group in [kind::TUPLE, kind::LIST] {
            if turns.next(checker) {
                check_types(checker, group, count);
            }
        }
    }
    for before in sizes(MOST_NODES - 13) {
        if turns.next(checker) {
            check_far_nodes(checker, before);
        }
    }
}

fn add_leaf(growing: &mut Growing, leaf: u8) {
    let name: &[u8] = if leaf == kind::INDEX { b"" } else { b"a" };
    let node = growing.open(leaf, 0, name);
    let below = [kind::IDENTIFIER, kind::INT];
    let records = [(kind::DOT, 1), (kind::INDEX, 2)].iter().find(|(kind, _)| *kind == leaf).map_or(0, |(_, records)| *records);
    below[..records].iter().for_each(|&kind| growing.leaf(kind, if kind == kind::INT { b"" } else { b"a" }));
    growing.close(node);
}

/// A target of the given number of leaves, alone, in an assignment and in a for; and one with a leaf less that is refused at its last.
fn check_leaves(checker: &mut Checker, group: u8, leaf: u8, count: usize) {
    for refused in [false, true] {
        let add_group = |growing: &mut Growing| {
            growing.tree(group, 0, |growing| {
                (usize::from(refused)..count).for_each(|_| add_leaf(growing, leaf));
                if refused {
                    growing.leaf(kind::INT, b"");
                }
            });
        };
        let mut assignment = Growing::default();
        assignment.tree(kind::ASSIGN, 0, |growing| {
            add_group(growing);
            growing.leaf(kind::INT, b"");
        });
        assignment.ask(checker, Job::Target { node: 1 });
        assignment.ask(checker, Job::Assignment { node: 0 });
        let mut repeated = Growing::default();
        repeated.tree(kind::FOR, 0, |growing| {
            add_group(growing);
            growing.leaf(kind::INT, b"");
            growing.leaf(kind::SIMPLE, b"");
        });
        if repeated.nodes() <= MOST_NODES {
            repeated.ask(checker, Job::Audit { dialect: &ALL_OPTIONS_INTERNAL, edition: FIRST_EDITION, errors: 9 });
        }
    }
}

/// A type of many types, and `x[a, [..]]` with many arguments; in buffers around what is needed.
fn check_types(checker: &mut Checker, group: u8, count: usize) {
    let items = |growing: &mut Growing| (0..count).for_each(|_| growing.leaf(kind::IDENTIFIER, b"a"));
    let mut growing = Growing::default();
    growing.tree(kind::SIMPLE, 0, |growing| growing.tree(group, 0, items));
    let mut index = Growing::default();
    index.tree(kind::SIMPLE, 0, |growing| {
        growing.tree(kind::INDEX2, 0, |growing| {
            growing.leaf(kind::IDENTIFIER, b"x");
            growing.leaf(kind::IDENTIFIER, b"a");
            growing.tree(group, 0, items);
        });
    });
    for growing in [growing, index] {
        for shapes in around(growing.nodes() - 1) {
            growing.ask(checker, Job::Type { dialect: &ALL_OPTIONS_INTERNAL, edition: FIRST_EDITION, node: 1, shapes });
        }
    }
}

/// Every job at nodes after the given number of others.
fn check_far_nodes(checker: &mut Checker, before: usize) {
    let dialect = &ALL_OPTIONS_INTERNAL[..];
    let mut growing = Growing::default();
    let root = growing.open(kind::STATEMENTS, 0, b"");
    (1..before).for_each(|_| growing.leaf(kind::SIMPLE, b""));
    let def = growing.nodes();
    growing.tree(kind::DEF, 0, |growing| {
        add_parameters(growing, &[0, 1, 1], 0);
        growing.leaf(kind::SIMPLE, b"");
    });
    let call = add_call(&mut growing, &[0, 1], 1);
    let last = growing.nodes();
    growing.leaf(kind::BREAK, b"");
    growing.close(root);
    growing.ask(checker, Job::Table);
    growing.ask(checker, Job::Module { dialect, errors: 9 });
    growing.ask(checker, Job::Audit { dialect, edition: FIRST_EDITION, errors: 9 });
    for node in [def, call, call + 1, call + 3, last, last + 1] {
        growing.ask(checker, Job::Params { node, modes: 3 });
        growing.ask(checker, Job::Call { node });
        growing.ask(checker, Job::Target { node });
        growing.ask(checker, Job::Assignment { node });
        growing.ask(checker, Job::Type { dialect, edition: FIRST_EDITION, node, shapes: 9 });
        growing.ask(checker, Job::Bind { call, def: node, list: 9 });
        growing.ask(checker, Job::Bind { call: node, def, list: 9 });
    }
}

/// The table of the most errors that is known: defs within defs, each with a `/` at the front and `...` for its type, of which nothing is
/// permitted.
fn most_errors() -> Growing {
    let mut growing = Growing::default();
    let root = growing.open(kind::STATEMENTS, 0, b"");
    while growing.nodes() + 4 <= MOST_NODES {
        let left = (MOST_NODES - growing.nodes() - 1) / 3;
        let opened: Vec<usize> = (0..left.min(MOST_DEPTH - 2))
            .map(|_| {
                let def = growing.open(kind::DEF, 1, b"");
                growing.leaf(kind::SLASH, b"");
                growing.leaf(kind::ELLIPSIS, b"");
                def
            })
            .collect();
        growing.leaf(kind::BREAK, b"");
        opened.into_iter().rev().for_each(|def| growing.close(def));
    }
    growing.close(root);
    growing
}

/// Lists of errors, from one error to the most there are, in lists of words of each size.
pub fn errors(checker: &mut Checker, plan: &Plan) {
    let mut turns = Turns::of(plan);
    for count in sizes(MOST_NODES - 1) {
        if turns.next(checker) {
            let table = contents(count + 1, 0, &[]).table;
            for errors in around(ERROR_WORDS * count) {
                checker.check(&Request { table: &table, names: &[], job: Job::Module { dialect: &NOTHING, errors } });
            }
            for errors in around(AUDIT_WORDS * count) {
                checker.check(&Request { table: &table, names: &[], job: Job::Audit { dialect: &NOTHING, edition: FIRST_EDITION, errors } });
            }
        }
    }
    let growing = most_errors();
    let total = jobs::audit(&growing.table, &[], &NOTHING, FIRST_EDITION).audited.len();
    checker.note(total > 3_400, || format!("the table of the most errors has {total}"));
    let held = file::Contents { table: growing.table.clone(), names: Vec::new(), dialect: NOTHING.to_vec(), edition: None };
    let bytes = file::write(&held);
    for errors in [0].into_iter().chain(sizes(AUDIT_WORDS * total)).chain([AUDIT_WORDS * total + 1, 16 * MOST_NODES]) {
        if turns.next(checker) {
            growing.ask(checker, Job::Module { dialect: &NOTHING, errors });
            growing.ask(checker, Job::Audit { dialect: &NOTHING, edition: FIRST_EDITION, errors });
            checker.check(&Request { table: &bytes, names: &[], job: Job::CheckFile { errors } });
        }
    }
}

/// Files of many names and nodes: written, read, checked and rescued; whole, and damaged so that the last statement or block is lost.
pub fn files(checker: &mut Checker, plan: &Plan) {
    let mut turns = Turns::of(plan);
    let blocks = |most: usize, full: usize| sizes(most / full).into_iter().flat_map(move |count| around(count * full));
    let names = sizes(MOST_NAME_BYTES).into_iter().chain(blocks(MOST_NAME_BYTES, CONTENT));
    let records = sizes(MOST_NODES).into_iter().chain(blocks(MOST_NODES, IN_A_BLOCK));
    let of_names = names.flat_map(|names| [1, IN_A_BLOCK, MOST_NODES].map(|records| (records, names)));
    let of_records = records.flat_map(|records| [0, CONTENT, MOST_NAME_BYTES].map(|names| (records, names)));
    for (records, names) in of_names.chain(of_records) {
        if turns.next(checker) && names <= MOST_NAME_BYTES && records <= MOST_NODES {
            check_file(checker, records, names);
        }
    }
}

fn check_file(checker: &mut Checker, records: usize, names: usize) {
    let held = contents(records, names, &ALL_OPTIONS_INTERNAL);
    let file::Contents { table, names: name_bytes, dialect, .. } = &held;
    let whole = file::write(&held);
    for file in around(whole.len()) {
        checker.check(&Request { table, names: name_bytes, job: Job::Write { dialect, edition: NO_EDITION, file } });
    }
    let of_file = |bytes: &[u8], checker: &mut Checker| {
        checker.check(&Request { table: bytes, names: &[], job: Job::Read { table: table.len(), names } });
        checker.check(&Request { table: bytes, names: &[], job: Job::CheckFile { errors: ERROR_WORDS * records } });
        for file in around(whole.len()) {
            checker.check(&Request { table: bytes, names: &[], job: Job::Rescue { file } });
        }
    };
    of_file(&whole, checker);
    // The last record is not a record, in a block whose sum is right; the last block is cut; a byte is after it.
    let mut unsound = whole.clone();
    let last = unsound.len() - BLOCK;
    unsound[last + 4 + (records - 1) % IN_A_BLOCK * RECORD_BYTES] = 0;
    file::seal(&mut unsound[last..]);
    of_file(&unsound, checker);
    of_file(&whole[..whole.len() - 1], checker);
    of_file(&[&whole[..], &[0]].concat(), checker);
}
