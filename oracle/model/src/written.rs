//! The lists as they are written in a table: the parameters of a Def or Lambda, the arguments of a Call, and where they are refused.

use crate::answer::Refusal;
use crate::call::Argument;
use crate::numbers::kind;
use crate::numbers::number;
use crate::params;
use crate::params::Entry;
use crate::planted::planted;
use crate::planted::Fault;
use crate::table::normal_parts;
use crate::table::Class;
use crate::table::Table;

/// The written children of one class, by their nodes.
pub(crate) struct Written<'t, 'n> {
    table: &'t Table<'n>,
    pub(crate) nodes: Vec<usize>,
}

impl<'t, 'n> Written<'t, 'n> {
    pub(crate) fn of(table: &'t Table<'n>, owner: usize, class: Class) -> Written<'t, 'n> {
        Written { table, nodes: table.children_of(owner, class).collect() }
    }

    pub(crate) fn arguments(&self) -> Vec<Argument<'n>> {
        let argument = |&node: &usize| Argument { kind: self.table.kind(node), name: self.table.name(node) };
        self.nodes.iter().map(argument).collect()
    }

    pub(crate) fn marks(&self) -> usize {
        entries(self.table, &self.nodes).iter().filter(|entry| entry.is_mark()).count()
    }

    /// The nodes without those of marks.
    pub(crate) fn flat_nodes(&self) -> Vec<usize> {
        let entries = entries(self.table, &self.nodes);
        let flat = self.nodes.iter().zip(entries).filter(|(_, entry)| !entry.is_mark());
        flat.map(|(&node, _)| node).collect()
    }
}

/// The entries of a parameter list, as its rules read them.
pub fn entries<'n>(table: &Table<'n>, nodes: &[usize]) -> Vec<Entry<'n>> {
    let entry = |&node: &usize| {
        let record = &table.records[node];
        let has_default = record.kind == kind::NORMAL && normal_parts(record.detail).1;
        Entry { kind: record.kind, name: table.name(node), has_default }
    };
    nodes.iter().map(entry).collect()
}

/// The list of a Def or Lambda: 19 at the owner, otherwise the rules of the list.
pub(crate) fn unpacked(table: &Table, owner: usize, nodes: &[usize]) -> Result<params::Unpacked, Refusal> {
    let rules = || {
        let at_entry = |(number, at): params::At| parameter_refusal(table, number, nodes, at);
        params::unpack(&entries(table, nodes)).map_err(at_entry)
    };
    if planted(Fault::TooManyAfterTheRules) {
        rules()?;
    }
    short_enough(table, owner, nodes)?;
    rules()
}

/// 19: a list has at most 48 entries, marks counted.
pub(crate) fn short_enough(table: &Table, owner: usize, nodes: &[usize]) -> Result<(), Refusal> {
    let marks = entries(table, nodes).iter().filter(|entry| entry.is_mark()).count();
    let many = nodes.len() - if planted(Fault::TooManyByFlatCount) { marks } else { 0 };
    let most = params::MOST_ENTRIES + usize::from(planted(Fault::OneEntryMore));
    if many <= most || table.kind(owner) == kind::LAMBDA && planted(Fault::TooManyNotInLambdas) {
        return Ok(());
    }
    let node = if planted(Fault::TooManyAtTheEntry) { nodes[params::MOST_ENTRIES] } else { owner };
    Err(table.refuse(number::TOO_MANY_PARAMETERS, node))
}

/// 11 carries the first earlier parameter with an equal name.
fn parameter_refusal(table: &Table, number: u32, nodes: &[usize], at: usize) -> Refusal {
    let refusal = table.refuse(number, nodes[at]);
    match first_equal(table, &nodes[..at], nodes[at]) {
        Some(_) if planted(Fault::EarlierIsThePlace) => refusal.with_earlier(at),
        Some(earlier) if number == number::DUPLICATED_PARAMETER => refusal.with_earlier(earlier),
        _ => refusal,
    }
}

/// The first of these nodes whose name is a node's.
fn first_equal(table: &Table, before: &[usize], node: usize) -> Option<usize> {
    before.iter().copied().find(|&earlier| table.name(earlier) == table.name(node))
}

/// 22 has the name's span, and carries the first earlier argument with an equal name.
pub(crate) fn argument_refusal(table: &Table, number: u32, nodes: &[usize], at: usize) -> Refusal {
    let node = nodes[at];
    match first_equal(table, &nodes[..at], node) {
        Some(earlier) if number == number::REPEATED_NAMED => {
            let at_argument = planted(Fault::RepeatedAtArgumentSpan);
            let mut span = if at_argument { table.span(node) } else { table.records[node].name_span() };
            if planted(Fault::RepeatedFileZero) {
                span.file = 0;
            }
            Refusal::spanned(number, node, span).with_earlier(earlier)
        }
        _ => table.refuse(number, node),
    }
}
