//! Names that are nearly equal: those that share all bytes but one, and those of which one is the beginning of the other.

use model::numbers::kind;
use model::params::MOST_ENTRIES;
use model::table::Record;
use model::table::MOST_FILE;

use super::Plan;
use crate::cells::write_files;
use crate::cells::Files;
use crate::checker::Checker;
use crate::port::Job;
use crate::port::Request;

/// How many entries a list has: as few as can be, and enough that the port notes names in few marks, and in many.
const ENTRIES: [usize; 3] = [2, 30, 300];

/// The longest name.
const LONGEST: usize = 255;

/// Bytes that do not repeat soon.
fn word(length: usize) -> Vec<u8> {
    (0..length).map(|at| b'a' + ((at * 5 + at / 26 + length) % 26) as u8).collect()
}

/// The same but for one byte.
fn other(name: &[u8], at: usize) -> Vec<u8> {
    let mut bytes = name.to_vec();
    bytes[at] = b'A' + bytes[at] % 26;
    bytes
}

/// A name that is none of these.
fn filler(number: usize) -> Vec<u8> {
    vec![b'0', b'a' + (number % 26) as u8, b'a' + (number / 26 % 26) as u8]
}

/// A table with one list, record by record.
struct List {
    table: Vec<u8>,
    names: Vec<u8>,
    node: u32,
}

impl List {
    fn new() -> List {
        List { table: Vec::new(), names: Vec::new(), node: 0 }
    }

    fn record(&mut self, kind: u8, name: &[u8], size: usize) {
        self.record_of(kind, 0, name, size)
    }

    fn record_of(&mut self, kind: u8, detail: u8, name: &[u8], size: usize) {
        let begin = 9 * self.node;
        let name_start = if name.is_empty() { 0 } else { self.names.len() as u32 };
        let source = if kind == kind::NAMED { 1_000_000 + 300 * self.node } else { 0 };
        let (name_len, size) = (name.len() as u16, size as u16);
        let record =
            Record { kind, detail, name_len, name_start, begin, end: begin + 4, size, file: 0, source };
        self.table.extend_from_slice(&record.write());
        self.names.extend_from_slice(name);
        self.node += 1;
    }

    /// The list itself, with source file numbers; where there are two statements each has its own.
    fn with_files(mut self) -> List {
        write_files(&mut self.table, Files::Turns(MOST_FILE));
        self
    }

    fn parameters(names: &[Vec<u8>]) -> List {
        let mut list = List::new();
        list.record(kind::DEF, b"", names.len() + 2);
        names.iter().for_each(|name| list.record(kind::NORMAL, name, 1));
        list.record(kind::SIMPLE, b"", 1);
        list.with_files()
    }

    fn arguments(names: &[Vec<u8>]) -> List {
        let mut list = List::new();
        list.record(kind::SIMPLE, b"", 2 * names.len() + 3);
        list.record(kind::CALL, b"", 2 * names.len() + 2);
        list.record(kind::IDENTIFIER, b"f", 1);
        for name in names {
            list.record(kind::NAMED, name, 2);
            list.record(kind::INT, b"", 1);
        }
        list.with_files()
    }
}

/// The Def of a binding; its Call is after it.
const BOUND_DEF: usize = 1;

impl List {
    /// A def whose parameters have these names and defaults, and a call that names one; and the call's node.
    fn binding(names: &[Vec<u8>], called: &[u8]) -> (List, usize) {
        let mut list = List::new();
        let def = 2 * names.len() + 2;
        list.record(kind::STATEMENTS, b"", def + 6);
        list.record(kind::DEF, b"", def);
        for name in names {
            list.record_of(kind::NORMAL, 2, name, 2);
            list.record(kind::INT, b"", 1);
        }
        list.record(kind::SIMPLE, b"", 1);
        list.record(kind::SIMPLE, b"", 5);
        let call = list.node as usize;
        list.record(kind::CALL, b"", 4);
        list.record(kind::IDENTIFIER, b"f", 1);
        list.record(kind::NAMED, called, 2);
        list.record(kind::INT, b"", 1);
        (list.with_files(), call)
    }
}

/// A list of the given number of names: one in front, one at the end, and others between them.
fn between(entries: usize, first: &[u8], second: &[u8]) -> Vec<Vec<u8>> {
    let mut names = vec![first.to_vec()];
    names.extend((2..entries).map(filler));
    names.push(second.to_vec());
    names
}

/// Two names in lists of both kinds, the first of them in front and the second at the end; and in a binding, the first a parameter's and the
/// second an argument's. A parameter list has no more entries than are permitted.
pub fn check_pair(checker: &mut Checker, entries: usize, first: &[u8], second: &[u8]) {
    let listed = entries.min(MOST_ENTRIES);
    let names = between(listed, first, second);
    let List { table, names: bytes, .. } = List::parameters(&names);
    checker.check(&Request { table: &table, names: &bytes, job: Job::Params { node: 0, modes: listed } });
    let (List { table, names: bytes, .. }, call) = List::binding(&names[..listed - 1], second);
    let job = Job::Bind { call, def: BOUND_DEF, list: listed };
    checker.check(&Request { table: &table, names: &bytes, job });
    let List { table, names: bytes, .. } = List::arguments(&between(entries, first, second));
    checker.check(&Request { table: &table, names: &bytes, job: Job::Call { node: 1 } });
}

/// Every length, equal names, one byte more, and each byte that can differ. The longer lists take every length in the long run, and else those
/// next to multiples of eight.
pub fn byte_by_byte(checker: &mut Checker, plan: &Plan) {
    let mut number = 0;
    for entries in ENTRIES {
        for length in 1..=LONGEST {
            let near = matches!(length % 8, 0 | 1 | 7);
            number += 1;
            if !plan.has(number) || checker.is_done() || !(near || entries == 2 || plan.is_long()) {
                continue;
            }
            let name = word(length);
            check_pair(checker, entries, &name, &name);
            if length > 1 {
                check_pair(checker, entries, &name, &name[..length - 1]);
                check_pair(checker, entries, &name[..length - 1], &name);
            }
            for at in 0..length {
                check_pair(checker, entries, &name, &other(&name, at));
            }
        }
    }
}
