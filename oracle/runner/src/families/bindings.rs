//! Bindings: which argument of a call reaches which parameter of a def.

use model::bind::At;
use model::jobs;
use model::numbers::kind;
use model::numbers::number;
use model::params;
use model::params::Entry;
use model::table::Record;

use super::lists::disturb;
use super::lists::each_list;
use super::lists::nearly_good_list;
use super::lists::with_known_names;
use super::lists::Listed;
use super::lists::ARGUMENTS;
use super::lists::PARAMETERS;
use super::style;
use super::write_fitting;
use super::Plan;
use crate::cells::Cells;
use crate::cells::Encoded;
use crate::cells::Files;
use crate::cells::Style;
use crate::cells::PLAIN;
use crate::checker::Checker;
use crate::port::Job;
use crate::port::Request;
use crate::rng::Rng;

/// A def's parameters and a call's arguments, as written.
#[derive(Clone, Copy)]
pub struct Pair<'a> {
    pub list: &'a [Listed],
    pub call: &'a [Listed],
    /// Chooses where the call is, and what is below parameters and arguments.
    pub number: u64,
}

/// Where the two are in their table.
#[derive(Clone, Copy, Debug, Default)]
pub struct Nodes {
    pub call: usize,
    pub def: usize,
}

/// Where the call is.
#[derive(Clone, Copy, PartialEq, Eq)]
enum Place {
    Behind,
    Before,
    Body,
    ReturnType,
    Default,
}

impl Pair<'_> {
    /// How many words the list needs.
    pub fn needed(&self) -> usize {
        self.list.len() + self.call.len()
    }

    fn place(&self) -> Place {
        let has_default = self.list.iter().any(|(form, _)| form.detail == 2);
        match self.number % 7 {
            0 | 1 => Place::Behind,
            2 | 3 => Place::Before,
            4 => Place::Body,
            5 => Place::ReturnType,
            _ if has_default => Place::Default,
            _ => Place::Body,
        }
    }

    /// The table of the two: a root Statements with the def, and the call beside or within it.
    pub fn table(&self, cells: &mut Cells) -> Nodes {
        let mut nodes = Nodes::default();
        let place = self.place();
        cells.clear();
        cells.tree(kind::STATEMENTS, 0, 0, |cells| {
            if place == Place::Before {
                self.statement(cells, &mut nodes);
            }
            self.def(cells, place, &mut nodes);
            if place == Place::Behind {
                self.statement(cells, &mut nodes);
            }
        });
        nodes
    }

    fn statement(&self, cells: &mut Cells, nodes: &mut Nodes) {
        cells.tree(kind::SIMPLE, 0, 0, |cells| self.call(cells, nodes));
    }

    fn call(&self, cells: &mut Cells, nodes: &mut Nodes) {
        nodes.call = cells.all.len();
        cells.tree(kind::CALL, 0, 0, |cells| {
            cells.leaf(kind::IDENTIFIER, 0, 9);
            for (at, &(form, name)) in self.call.iter().enumerate() {
                let below = (self.number as usize / 3 + at) % 3;
                cells.tree(form.kind, 0, name, |cells| {
                    cells.tree(kind::TUPLE, 0, 0, |cells| (0..below).for_each(|_| cells.leaf(kind::INT, 0, 0)))
                });
            }
        });
    }

    fn def(&self, cells: &mut Cells, place: Place, nodes: &mut Nodes) {
        nodes.def = cells.all.len();
        let first_default = self.list.iter().position(|(form, _)| form.detail == 2);
        cells.tree(kind::DEF, u8::from(place == Place::ReturnType), 0, |cells| {
            for (at, &(form, name)) in self.list.iter().enumerate() {
                let typed = form.named && (self.number / 2 + at as u64) % 3 == 0;
                cells.tree(form.kind, form.detail + u8::from(typed), name, |cells| {
                    if typed {
                        cells.leaf(kind::IDENTIFIER, 0, 7);
                    }
                    if place == Place::Default && first_default == Some(at) {
                        self.call(cells, nodes);
                    } else if form.detail == 2 {
                        cells.leaf(kind::ELLIPSIS, 0, 0);
                    }
                });
            }
            match place {
                Place::ReturnType => {
                    self.call(cells, nodes);
                    cells.leaf(kind::BREAK, 0, 0);
                }
                Place::Body => self.statement(cells, nodes),
                _ => cells.leaf(kind::BREAK, 0, 0),
            }
        });
    }
}

/// Memory that is used from pair to pair.
#[derive(Default)]
struct Room {
    cells: Cells,
    encoded: Encoded,
}

impl Room {
    /// The pair in a list that is just long enough, or longer; now and then one word short, none, and with the two nodes exchanged.
    fn check(&mut self, checker: &mut Checker, pair: &Pair) {
        let nodes = pair.table(&mut self.cells);
        write_fitting(&mut self.encoded, &self.cells, &style(pair.number));
        let Encoded { table, names, .. } = &self.encoded;
        let mut ask = |Nodes { call, def }: Nodes, list: usize| {
            checker.check(&Request { table, names, job: Job::Bind { call, def, list } });
        };
        ask(nodes, pair.needed() + [0, 3][(pair.number / 11 % 2) as usize]);
        if pair.number % 29 == 0 && pair.needed() > 0 {
            ask(nodes, pair.needed() - 1);
            ask(nodes, 0);
        }
        if pair.number % 61 == 0 {
            ask(Nodes { call: nodes.def, def: nodes.call }, pair.needed());
        }
    }
}

/// Whether a list is accepted by itself.
pub fn is_accepted(list: &[Listed]) -> bool {
    let names: Vec<[u8; 1]> = list.iter().map(|&(_, name)| [name]).collect();
    let entry = |(&(form, _), name): (&Listed, _)| Entry { kind: form.kind, name, has_default: form.detail == 2 };
    let entries: Vec<Entry> = list.iter().zip(names.iter().map(|name| name.as_slice())).map(entry).collect();
    params::unpack(&entries).is_ok()
}

/// Every order of marks and names up to four parameters that is accepted (long: five), against every call of up to four arguments
/// (long: five); an argument's name is one of the def's, or one of those before it, or a new one. Of the calls to lists up to four
/// that are refused, one in 199 (long: all).
pub fn orders(checker: &mut Checker, plan: &Plan) {
    let most = if plan.is_long() { 5 } else { 4 };
    let mut room = Room::default();
    let mut number = 0;
    for length in 0..=most {
        each_list(&PARAMETERS, length, &mut |list| {
            let accepted = is_accepted(list);
            if checker.is_done() || !accepted && length > 4 {
                return;
            }
            let one_in = if accepted || plan.is_long() { 1 } else { 199 };
            let most = if accepted { most } else { 4 };
            each_call(list, most, &mut |call| {
                number += 1;
                if number % one_in == 0 && plan.has(number / one_in) && !checker.is_done() {
                    room.check(checker, &Pair { list, call, number: number / one_in / plan.parts });
                }
            });
        });
    }
}

/// Every call of up to the given number of arguments, with the names of a list.
pub fn each_call(list: &[Listed], most: usize, see: &mut dyn FnMut(&[Listed])) {
    let names = list.iter().filter(|(form, _)| form.named).map(|&(_, name)| name + 1).max();
    for length in 0..=most {
        with_known_names(&ARGUMENTS, length, names.unwrap_or(0), see);
    }
}

/// Longer lists and calls, most of them nearly good.
pub fn random(checker: &mut Checker, plan: &Plan) {
    let mut rng = plan.rng(17);
    let mut room = Room::default();
    for number in 0..plan.share(200_000) {
        if checker.is_done() {
            return;
        }
        let (list, call) = random_pair(&mut rng, number);
        room.check(checker, &Pair { list: &list, call: &call, number });
    }
}

/// A list that is nearly good, and a call that nearly suits it.
pub fn random_pair(rng: &mut Rng, number: u64) -> (Vec<Listed>, Vec<Listed>) {
    let most = if number % 400 == 0 { 200 } else { rng.pick(&[2, 4, 8, 12, 20, 48]) };
    let disturbed = rng.pick(&[0, 0, 0, 1, 2]);
    let list = nearly_good_list(rng, most, disturbed);
    let call = suiting_call(rng, &list);
    (list, call)
}

fn suiting_call(rng: &mut Rng, list: &[Listed]) -> Vec<Listed> {
    let [positional, named, ..] = ARGUMENTS;
    let is_star = |&(form, _): &Listed| form.kind == kind::NO_ARGS || form.kind == kind::ARGS;
    let before_star = list.iter().take_while(|entry| !is_star(entry)).filter(|(form, _)| form.kind == kind::NORMAL);
    let too_many = rng.pick(&[0, 0, 1, 5]);
    let by_place = rng.within(0, before_star.count() + too_many);
    let normals: Vec<Listed> = list.iter().copied().filter(|(form, _)| form.kind == kind::NORMAL).collect();
    let mut call = vec![(positional, 0); by_place];
    let mut called: Vec<u8> = Vec::new();
    for &(form, name) in normals.iter().skip(by_place) {
        if form.detail != 2 && !rng.once_in(20) || rng.once_in(2) {
            called.push(name);
        }
    }
    for at in (1..called.len()).rev() {
        called.swap(at, rng.below(at + 1));
    }
    // One more name: one that may be filled already, a star's, or an unknown one.
    if rng.once_in(3) {
        let other = if rng.once_in(2) { 240 } else { list.get(rng.below(list.len() + 1)).map_or(241, |entry| entry.1) };
        called.insert(rng.below(called.len() + 1), other);
    }
    call.extend(called.into_iter().map(|name| (named, name)));
    for _ in 0..rng.pick(&[0, 0, 0, 0, 1, 2]) {
        disturb(rng, &mut call, &ARGUMENTS);
    }
    call
}

/// Each call of a random module with one of its defs and lambdas.
pub fn bindings_of_module(checker: &mut Checker, random: &super::Random) {
    let of = |wanted: fn(u8) -> bool| -> Vec<usize> {
        let all = random.cells.all.iter().enumerate();
        all.filter(|(_, cell)| wanted(cell.kind)).map(|(node, _)| node).collect()
    };
    let owners = of(|kind| kind == kind::DEF || kind == kind::LAMBDA);
    for call in of(|kind| kind == kind::CALL) {
        if let Some(&def) = owners.get(call % owners.len().max(1)) {
            let list = usize::from(random.cells.all[def].size) + usize::from(random.cells.all[call].size);
            checker.check(&random.request(Job::Bind { call, def, list }));
        }
    }
}

/// What a row of the corner cases must answer. An argument is given by its place in the call, from 0, a parameter by its place in
/// the written list.
enum Expected<'a> {
    /// For each flat parameter the argument that it takes; for each argument the flat index that it reaches.
    Reached(&'a [Option<usize>], &'a [u32]),
    Refused(u32, At),
}

/// The corner cases, answered by hand: parameters, arguments, answer.
const CORNERS: &[(&str, &str, Expected)] = {
    use At::Argument;
    use At::Parameter;
    use Expected::Reached;
    use Expected::Refused;
    &[
        ("", "", Reached(&[], &[])),
        ("a b", "b= a=", Reached(&[Some(1), Some(0)], &[1, 0])),
        ("a b", "_ _", Reached(&[Some(0), Some(1)], &[0, 1])),
        // The names of PosOnly parameters, of `*args` and of `**kwargs` are unknown.
        ("a b /", "b= a=", Refused(number::UNKNOWN_NAMED, Argument(0))),
        ("*a", "a=", Refused(number::UNKNOWN_NAMED, Argument(0))),
        ("*a **k", "a=", Reached(&[None, None], &[1])),
        ("**k", "k=", Reached(&[None], &[0])),
        // A PosOnly name in `**kwargs` does not fill the parameter.
        ("a / **k", "a=", Refused(number::LEFT_EMPTY, Parameter(0))),
        ("a= / **k", "a=", Reached(&[None, None], &[1])),
        ("a / **k", "_ a=", Reached(&[Some(0), None], &[0, 1])),
        // 83 against a positional, with `**kwargs` too.
        ("a", "_ a=", Refused(number::FILLED_ALREADY, Argument(1))),
        ("a **k", "_ a=", Refused(number::FILLED_ALREADY, Argument(1))),
        // 82 and 83: the first named argument that offends.
        ("a b", "_ c= a=", Refused(number::UNKNOWN_NAMED, Argument(1))),
        ("a b", "_ a= c=", Refused(number::FILLED_ALREADY, Argument(1))),
        // 80 before 81 before what is named, and all before 84.
        ("a b", "_ _ _ c= *", Refused(number::STAR_IN_CALL, Argument(4))),
        ("a b", "_ **", Refused(number::STAR_IN_CALL, Argument(1))),
        ("a b * c", "_ _ _ d=", Refused(number::TOO_MANY_POSITIONAL, Argument(2))),
        ("a * c", "_ d=", Refused(number::UNKNOWN_NAMED, Argument(1))),
        // 84 at the lowest, whose place in the written list counts marks.
        ("a / b * c", "", Refused(number::LEFT_EMPTY, Parameter(0))),
        ("a / b= * c", "_", Refused(number::LEFT_EMPTY, Parameter(4))),
        // The rest of the positionals go to `*args`.
        ("a / b= *c d= **e", "_ _ _ _ d= x= a=", Reached(&[Some(0), Some(1), None, Some(4), None], &[0, 1, 2, 2, 3, 4, 4])),
        ("*a", "_ _", Reached(&[None], &[0, 0])),
        // The Def's numbers before the call's.
        ("* **k", "a= _", Refused(number::STAR_NOT_FOLLOWED, Parameter(1))),
        ("a", "a= _", Refused(number::POSITIONAL_AFTER_NON_POSITIONAL, Argument(1))),
    ]
};

fn name(text: &str) -> u8 {
    text.bytes().find(u8::is_ascii_lowercase).map_or(0, |letter| letter - b'a')
}

fn parameter(text: &str) -> Listed {
    let [plain, with_default, star, slash, args, kwargs] = PARAMETERS;
    let form = match text {
        "*" => star,
        "/" => slash,
        _ if text.starts_with("**") => kwargs,
        _ if text.starts_with('*') => args,
        _ if text.ends_with('=') => with_default,
        _ => plain,
    };
    (form, name(text))
}

fn argument(text: &str) -> Listed {
    let [positional, named, star, star_star] = ARGUMENTS;
    let form = match text {
        "_" => positional,
        "*" => star,
        "**" => star_star,
        _ => named,
    };
    (form, name(text))
}

fn read(text: &str, entry: fn(&str) -> Listed) -> Vec<Listed> {
    text.split_whitespace().map(entry).collect()
}

/// The corner cases, wherever the call is: in a list that just suffices, one that is longer, one that is a word short.
pub fn corners(checker: &mut Checker, _plan: &Plan) {
    for (list, call, expected) in CORNERS {
        let (list, call) = (read(list, parameter), read(call, argument));
        for number in 0..28 {
            let pair = Pair { list: &list, call: &call, number };
            corner(checker, &pair, expected);
        }
    }
    wrong_nodes(checker);
}

fn corner(checker: &mut Checker, pair: &Pair, expected: &Expected) {
    let mut cells = Cells::default();
    let Nodes { call, def } = pair.table(&mut cells);
    let mut encoded = Encoded::default();
    // The def and a call beside it are of two source files.
    encoded.write(&cells, &Style { files: Files::Turns(2), ..PLAIN });
    let Encoded { table, names, .. } = &encoded;
    let request = |list: usize| Request { table, names, job: Job::Bind { call, def, list } };
    let needed = pair.needed();
    for room in [needed, needed + 2] {
        let (number, words, list) = answer(&encoded, call, def, expected);
        let told = jobs::bind(table, names, call, def, room);
        checker.note(told.list == list, || format!("the model's words are {:?}, by hand {list:?}", told.list));
        checker.expect(&request(room), number, Some(&words));
    }
    if needed > 0 {
        checker.expect(&request(needed - 1), number::SHORT_BUFFER, Some(&[]));
    }
}

/// A row's answer in the table's nodes: number, words of `out`, words of the list.
fn answer(encoded: &Encoded, call: usize, def: usize, expected: &Expected) -> (u32, Vec<u32>, Vec<u32>) {
    let table = model::table::Table::check(&encoded.table, &encoded.names).expect("the generated tables are sound");
    let below = |owner: usize, class| -> Vec<usize> { table.children_of(owner, class).collect() };
    let arguments = below(call, model::table::Class::Argument);
    match expected {
        Expected::Reached(takes, reaches) => {
            let taken = takes.iter().map(|place| place.map_or(0, |place| arguments[place] as u32));
            let list = taken.chain(reaches.iter().copied()).collect();
            (0, vec![takes.len() as u32, reaches.len() as u32], list)
        }
        Expected::Refused(number, at) => {
            let node = match at {
                At::Argument(at) => arguments[*at],
                At::Parameter(at) => below(def, model::table::Class::Parameter)[*at],
            };
            let Record { begin, end, file, .. } = table.records[node];
            (*number, vec![node as u32, begin, end, jobs::NONE, u32::from(file)], Vec::new())
        }
    }
}

/// Every two nodes of a table with a Def, a Lambda and calls: 6 unless the first is a Call and the second a Def.
fn wrong_nodes(checker: &mut Checker) {
    let mut cells = Cells::default();
    cells.tree(kind::STATEMENTS, 0, 0, |cells| {
        cells.tree(kind::DEF, 0, 0, |cells| {
            cells.leaf(kind::NORMAL, 0, 0);
            cells.tree(kind::SIMPLE, 0, 0, |cells| cells.tree(kind::CALL, 0, 0, |cells| cells.leaf(kind::INT, 0, 0)));
        });
        cells.tree(kind::SIMPLE, 0, 0, |cells| {
            cells.tree(kind::CALL, 0, 0, |cells| {
                cells.tree(kind::LAMBDA, 0, 0, |cells| {
                    cells.leaf(kind::NORMAL, 0, 0);
                    cells.leaf(kind::INT, 0, 0);
                });
                cells.tree(kind::POSITIONAL, 0, 0, |cells| cells.leaf(kind::INT, 0, 0));
            })
        });
    });
    let mut encoded = Encoded::default();
    encoded.write(&cells, &PLAIN);
    let Encoded { table, names, .. } = &encoded;
    let count = cells.all.len();
    let nodes = || (0..count + 2).chain([1 << 16, 1 << 32, usize::MAX / 24, usize::MAX]);
    for (call, def) in nodes().flat_map(|call| nodes().map(move |def| (call, def))) {
        for list in [0, 1, 2, 5] {
            checker.check(&Request { table, names, job: Job::Bind { call, def, list } });
        }
    }
}
