//! Bindings once more, judged by Python 3: the same parameter lists as defs, the same arguments as calls that are really made.

use std::io::Write;
use std::process::Command;
use std::process::Stdio;

use model::answer::Answer;
use model::jobs;
use model::numbers::kind;
use model::numbers::number;
use model::table::Class;
use model::table::Table;

use super::bindings::each_call;
use super::bindings::is_accepted;
use super::bindings::random_pair;
use super::bindings::Nodes;
use super::bindings::Pair;
use super::lists::each_list;
use super::lists::Listed;
use super::lists::PARAMETERS;
use super::Plan;
use crate::cells::letters;
use crate::cells::Cells;
use crate::cells::Encoded;
use crate::cells::PLAIN;
use crate::checker::Checker;
use crate::port::Job;
use crate::port::Request;

/// So many calls are put to one process of Python.
const AT_ONCE: usize = 20_000;

/// What Python must say, by the model's answer.
#[derive(Debug)]
enum Expected {
    NoDef,
    NoCall,
    /// A number, and the name that the message has if it reports the same fault.
    Refused(u32, String),
    Reached(String),
}

impl Expected {
    fn is(&self, said: &str) -> bool {
        match self {
            Expected::NoDef => said == "def refused",
            Expected::NoCall => said == "call refused",
            Expected::Refused(number, name) => match said.split(' ').collect::<Vec<_>>()[..] {
                ["refused", "?", _] => true,
                ["refused", told, by] if told == number.to_string() => by == name || by == "?",
                // Python looks at the names before it counts the positionals.
                ["refused", "82" | "83", _] => *number == number::TOO_MANY_POSITIONAL,
                _ => false,
            },
            Expected::Reached(text) => said == text,
        }
    }
}

/// A def and a call as a line for Python, and what it must say.
struct Put {
    line: String,
    expected: Expected,
}

/// The calls that are not put to Python yet.
struct Calls<'a> {
    script: Option<&'a str>,
    waiting: Vec<Put>,
    cells: Cells,
    encoded: Encoded,
}

/// Every list of up to four parameters, with every call of up to three arguments (long: four) where it is accepted; and longer ones by
/// chance. Calls with `*` and `**` are left out: what they hold is not known before they run, which is why they are refused with 80.
pub fn calls(checker: &mut Checker, plan: &Plan) {
    let mut calls = Calls {
        script: plan.python.as_deref(),
        waiting: Vec::new(),
        cells: Cells::default(),
        encoded: Encoded::default(),
    };
    let most = if plan.is_long() { 4 } else { 3 };
    let mut number = 0;
    for length in 0..=4 {
        each_list(&PARAMETERS, length, &mut |list| {
            each_call(list, if is_accepted(list) { most } else { 0 }, &mut |call| {
                number += 1;
                if plan.has(number) {
                    calls.put(checker, &Pair { list, call, number });
                }
            });
        });
    }
    let mut rng = plan.rng(18);
    for number in 0..plan.share(20_000) {
        let (list, call) = random_pair(&mut rng, number);
        calls.put(checker, &Pair { list: &list, call: &call, number });
    }
    calls.ask(checker);
}

impl Calls<'_> {
    /// The pair as a job of the archive, and put to Python with others like it.
    fn put(&mut self, checker: &mut Checker, pair: &Pair) {
        let starred = |&(form, _): &Listed| form.kind == kind::STAR_ARGUMENT || form.kind == kind::STAR_STAR_ARGUMENT;
        if pair.call.iter().any(starred) || checker.is_done() {
            return;
        }
        let nodes = pair.table(&mut self.cells);
        self.encoded.write(&self.cells, &PLAIN);
        let Encoded { table, names, .. } = &self.encoded;
        let job = Job::Bind { call: nodes.call, def: nodes.def, list: pair.needed() };
        checker.check(&Request { table, names, job });
        if self.script.is_some() && checker.wants(&job) {
            let answer = jobs::bind(table, names, nodes.call, nodes.def, pair.needed());
            // Python has no limit of parameters.
            if answer.number == number::TOO_MANY_PARAMETERS {
                return;
            }
            let expected = expected(&self.encoded, nodes, &answer);
            self.waiting.push(Put { line: line(pair), expected });
            if self.waiting.len() == AT_ONCE {
                self.ask(checker);
            }
        }
    }

    fn ask(&mut self, checker: &mut Checker) {
        let Some(script) = self.script else { return };
        let said = said(script, &self.waiting).unwrap_or_else(|error| panic!("{script} cannot be run: {error}"));
        let said: Vec<&str> = said.lines().collect();
        assert_eq!(said.len(), self.waiting.len(), "Python answers every call");
        for (Put { line, expected }, said) in self.waiting.drain(..).zip(said) {
            checker.python_call(expected.is(said), || {
                format!("Python says \"{said}\" and the model {expected:?} of: {}", line.replace('\t', " | "))
            });
        }
    }
}

/// What the script says of these calls, a line for each.
fn said(script: &str, calls: &[Put]) -> std::io::Result<String> {
    let mut child = Command::new(script).stdin(Stdio::piped()).stdout(Stdio::piped()).spawn()?;
    let mut input = child.stdin.take().expect("the input is a pipe");
    let lines: String = calls.iter().map(|put| put.line.as_str()).collect();
    std::thread::scope(|scope| {
        let written = scope.spawn(move || input.write_all(lines.as_bytes()));
        let output = child.wait_with_output()?;
        written.join().expect("no thread has panicked")?;
        assert!(output.status.success(), "{script} ends well");
        Ok(String::from_utf8(output.stdout).expect("Python's answers are text"))
    })
}

/// The line for Python: the parameters, their names, and the arguments as the numbers of their places.
fn line(pair: &Pair) -> String {
    let parameters = pair.list.iter().map(|&(form, name)| match form.kind {
        kind::NO_ARGS => "*".to_owned(),
        kind::SLASH => "/".to_owned(),
        kind::ARGS => format!("*{}", letters(name)),
        kind::KWARGS => format!("**{}", letters(name)),
        _ if form.detail == 2 => format!("{}=...", letters(name)),
        _ => letters(name),
    });
    let names = pair.list.iter().filter(|(form, _)| form.named).map(|&(_, name)| letters(name));
    let arguments = pair.call.iter().enumerate().map(|(at, &(form, name))| match form.kind {
        kind::NAMED => format!("{}={at}", letters(name)),
        _ => at.to_string(),
    });
    let joined = |parts: Vec<String>, by: &str| parts.join(by);
    let (parameters, names) = (joined(parameters.collect(), ", "), joined(names.collect(), " "));
    format!("{parameters}\t{names}\t{}\n", joined(arguments.collect(), ", "))
}

/// What the model's answer says of Python's.
fn expected(encoded: &Encoded, nodes: Nodes, answer: &Answer) -> Expected {
    let table = Table::check(&encoded.table, &encoded.names).expect("the generated tables are sound");
    let name = |node: usize| String::from_utf8_lossy(table.name(node)).into_owned();
    match answer.number {
        0 => Expected::Reached(reached(&table, nodes, answer)),
        number::SLASH_FIRST..=number::STAR_NOT_FOLLOWED => Expected::NoDef,
        number::POSITIONAL_AFTER_NON_POSITIONAL..=number::MULTIPLE_STAR_STAR => Expected::NoCall,
        number => Expected::Refused(number, name(answer.words[0] as usize)),
    }
}

/// What each parameter gets, in the words of the script.
fn reached(table: &Table, nodes: Nodes, answer: &Answer) -> String {
    let arguments: Vec<usize> = table.children_of(nodes.call, Class::Argument).collect();
    let marks = [kind::NO_ARGS, kind::SLASH];
    let flat = table.children_of(nodes.def, Class::Parameter).filter(|&node| !marks.contains(&table.kind(node)));
    let (takes, reaches) = answer.list.split_at(answer.words[0] as usize);
    let mut text = "reached".to_owned();
    for (at, parameter) in flat.enumerate() {
        let collected = (0..arguments.len()).filter(|&place| reaches[place] == at as u32);
        let named = |place: usize| format!("{}={place}", String::from_utf8_lossy(table.name(arguments[place])));
        let got = match table.kind(parameter) {
            kind::ARGS => format!("({})", collected.map(|place| place.to_string()).collect::<Vec<_>>().join(",")),
            kind::KWARGS => format!("{{{}}}", collected.map(named).collect::<Vec<_>>().join(",")),
            _ if takes[at] == 0 => "-".to_owned(),
            _ => arguments.iter().position(|&node| node as u32 == takes[at]).map_or("?".to_owned(), |place| place.to_string()),
        };
        text.push(' ');
        text.push_str(&got);
    }
    text
}
