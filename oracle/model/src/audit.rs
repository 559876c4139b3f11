//! Product 1's audit: the module pass, and every job on every node that it fits. Written from the words of the request.

use crate::answer::Refusal;
use crate::answer::Span;
use crate::answer::AUDIT_WORDS;
use crate::call;
use crate::dialect::Dialect;
use crate::dialect::Edition;
use crate::module;
use crate::numbers::kind;
use crate::numbers::number;
use crate::planted::planted;
use crate::planted::Fault;
use crate::table::normal_parts;
use crate::table::Class;
use crate::table::Table;
use crate::targets;
use crate::types;
use crate::written::argument_refusal;
use crate::written::unpacked;
use crate::written::Written;

/// A job beside the module pass, in the order in which the refusals at one record are reported.
#[derive(Clone, Copy, Debug, PartialEq, Eq, PartialOrd, Ord)]
pub enum Job {
    Params,
    Call,
    Assignment,
    Target,
    Type,
}

/// A record, and a job that fits it.
#[derive(Clone, Copy, Debug, PartialEq, Eq, PartialOrd, Ord)]
pub struct Place {
    pub node: usize,
    pub job: Job,
}

/// First the module pass's errors without those of parameter lists, then what each job refuses, record by record.
pub fn audit(table: &Table, dialect: &Dialect, edition: Edition) -> Vec<Refusal> {
    let without_def = Dialect { def: false, ..*dialect };
    let listed = module::module(table, if planted(Fault::AuditOpenedDefStays) { &without_def } else { dialect });
    let last = if planted(Fault::TooManyTwiceInTheAudit) { number::STAR_NOT_FOLLOWED } else { number::TOO_MANY_PARAMETERS };
    let is_of_list = |number: u32| (number::SLASH_FIRST..=last).contains(&number);
    let own = listed.in_order().filter(|error| !is_of_list(error.number) || planted(Fault::AuditTellsListsTwice));
    let own: Vec<Refusal> = own.map(|error| table.refuse(error.number, error.node)).collect();
    let edition = if planted(Fault::AuditByEditionOne) { Edition::One } else { edition };
    let refused: Vec<Refusal> = places(table).into_iter().filter_map(|place| refused_at(table, dialect, edition, place)).collect();
    if planted(Fault::AuditJobsFirst) { [refused, own].concat() } else { [own, refused].concat() }
}

/// Where each job is run, in table order.
pub fn places(table: &Table) -> Vec<Place> {
    let mut places: Vec<Place> = (0..table.records.len()).flat_map(|node| places_of(table, node)).collect();
    places.sort();
    if planted(Fault::AuditTypeBeforeCall) {
        places.sort_by_key(|place| (place.node, place.job != Job::Type));
    }
    places
}

/// The job on a record itself, and those on what is below it: a For's target, a type.
fn places_of(table: &Table, node: usize) -> impl Iterator<Item = Place> {
    let own = match table.kind(node) {
        kind::DEF | kind::LAMBDA => Some(Job::Params),
        kind::CALL => Some(Job::Call),
        kind::ASSIGN | kind::ASSIGN_MODIFY => Some(Job::Assignment),
        _ => None,
    };
    let target = match table.kind(node) {
        kind::FOR => Some(table.child(node, 0)),
        kind::LIST_COMPREHENSION if planted(Fault::AuditComprehensionTargets) => table.children(node).nth(1),
        _ => None,
    };
    let place = |node: usize, job: Job| Place { node, job };
    let own = own.map(|job| place(node, job));
    let target = target.map(|node| place(node, Job::Target));
    let ty = type_of(table, node).map(|node| place(node, Job::Type));
    own.into_iter().chain(target).chain(ty)
}

/// The node of the type that a record is written with.
fn type_of(table: &Table, node: usize) -> Option<usize> {
    let record = &table.records[node];
    let is_typed = match record.kind {
        kind::DEF => record.detail == 1,
        kind::ASSIGN => record.detail == 1,
        kind::ASSIGN_MODIFY => record.detail == 1 && !planted(Fault::AuditAugmentedTypeMissed),
        kind::NORMAL => normal_parts(record.detail).0,
        kind::ARGS | kind::KWARGS => record.detail == 1 && !planted(Fault::AuditStarTypesMissed),
        _ => false,
    };
    let mut expressions = table.children_of(node, Class::Expression);
    let before = match record.kind {
        kind::ASSIGN | kind::ASSIGN_MODIFY => 1,
        _ => 0,
    };
    is_typed.then(|| expressions.nth(before).expect("a sound record has its type"))
}

/// What a job refuses at a place, if it does.
pub fn refused_at(table: &Table, dialect: &Dialect, edition: Edition, place: Place) -> Option<Refusal> {
    let node = place.node;
    let is_missed = match place.job {
        Job::Target => planted(Fault::AuditRefusedForMissed) && !dialect.top_level_stmt,
        Job::Params => planted(Fault::AuditDefaultLambdaMissed) && node > 0 && table.kind(node - 1) == kind::NORMAL,
        _ => false,
    };
    if is_missed {
        return None;
    }
    let refused = match place.job {
        Job::Params => refused_list(table, node),
        Job::Call => refused_call(table, node),
        Job::Assignment => targets::assignment(table, node).err(),
        Job::Target => targets::target(table, node).err(),
        Job::Type => types::type_shape(table, node, dialect, edition).err(),
    };
    if planted(Fault::AuditNodeOfTheJob) {
        return refused.map(|refusal| Refusal { node: Some(node as u32), ..refusal });
    }
    refused
}

fn refused_list(table: &Table, owner: usize) -> Option<Refusal> {
    let nodes = Written::of(table, owner, Class::Parameter).nodes;
    unpacked(table, owner, &nodes).err()
}

fn refused_call(table: &Table, call: usize) -> Option<Refusal> {
    let written = Written::of(table, call, Class::Argument);
    let (number, at) = call::unpack(&written.arguments()).err()?;
    Some(argument_refusal(table, number, &written.nodes, at))
}

/// The words of an error: those of the module pass, then the node.
pub fn words(refusal: &Refusal) -> [u32; AUDIT_WORDS] {
    let node = refusal.node.expect("a refusal of a job has a node");
    let Span { file, begin, end } = refusal.span.expect("a refusal of a job has a span");
    [refusal.number, file, begin, end, node]
}
