//! The jobs: refusals 1 to 7 in their order, then the job's own answer.

use crate::answer::Answer;
use crate::answer::Refusal;
use crate::answer::Span;
use crate::answer::AUDIT_WORDS;
use crate::answer::ERROR_WORDS;
pub use crate::answer::NONE;
use crate::audit;
use crate::bind;
use crate::call;
use crate::call::Called;
use crate::dialect;
use crate::file;
use crate::file::Contents;
use crate::fstring;
use crate::module;
use crate::numbers::kind;
use crate::numbers::number;
use crate::params;
use crate::planted::planted;
use crate::planted::Fault;
use crate::rescue;
use crate::table::is_expression;
use crate::table::Class;
use crate::table::Table;
use crate::table::RECORD_BYTES;
use crate::targets;
use crate::types;
use crate::written::argument_refusal;
use crate::written::entries;
use crate::written::short_enough;
use crate::written::unpacked;
use crate::written::Written;

fn answered(result: Result<Answer, Refusal>) -> Answer {
    result.unwrap_or_else(Answer::from)
}

fn long_enough(lent: usize, needed: usize) -> Result<(), Refusal> {
    if lent < needed { Err(Refusal::bare(number::SHORT_BUFFER)) } else { Ok(()) }
}

pub fn table(table: &[u8], names: &[u8]) -> Answer {
    answered(Table::check(table, names).map(|_| Answer::default()))
}

pub fn params(table: &[u8], names: &[u8], node: usize, modes: usize) -> Answer {
    answered(Table::check(table, names).and_then(|table| {
        table.wanted_node(node, |kind| kind == kind::DEF || kind == kind::LAMBDA)?;
        params_of(&table, node, modes)
    }))
}

fn params_of(table: &Table, owner: usize, modes: usize) -> Result<Answer, Refusal> {
    let nodes: Vec<usize> = table.children_of(owner, Class::Parameter).collect();
    let entries = entries(table, &nodes);
    let flat = |e: &&params::Entry| !e.name.is_empty();
    let by_flat = planted(Fault::ModeBufferByFlatCount);
    if planted(Fault::TooManyBeforeShortBuffer) {
        short_enough(table, owner, &nodes)?;
    }
    long_enough(modes, if by_flat { entries.iter().filter(flat).count() } else { nodes.len() })?;
    match unpacked(table, owner, &nodes) {
        Ok(unpacked) => Ok(unpacked_answer(&unpacked, nodes.len())),
        Err(refusal) => {
            let at = nodes.iter().position(|&node| refusal.node == Some(node as u32)).unwrap_or(0);
            let mut refused = Answer::from(refusal);
            if planted(Fault::RefusedListWritesModes) {
                refused.bytes = vec![2; at];
            }
            Ok(refused)
        }
    }
}

fn unpacked_answer(unpacked: &params::Unpacked, written: usize) -> Answer {
    let ranges = unpacked.ranges().into_iter().flat_map(|range| [range.start, range.end]);
    let mut bytes = unpacked.modes();
    if planted(Fault::NoModesWritten) {
        bytes.clear();
    }
    if planted(Fault::ModesOfMarksWritten) {
        bytes.resize(written, 2);
    }
    Answer { bytes, ..Answer::accepted(ranges.chain([unpacked.flat]).collect()) }
}

pub fn call(table: &[u8], names: &[u8], node: usize) -> Answer {
    answered(Table::check(table, names).and_then(|table| {
        table.wanted_node(node, |kind| kind == kind::CALL)?;
        let written = Written::of(&table, node, Class::Argument);
        match call::unpack(&written.arguments()) {
            Ok(called) => Ok(called_answer(&called)),
            Err((number, at)) => Err(argument_refusal(&table, number, &written.nodes, at)),
        }
    }))
}

fn called_answer(called: &Called) -> Answer {
    let place = |place: Option<u32>| place.unwrap_or(NONE);
    Answer::accepted(vec![called.positional, called.named, place(called.star), place(called.star_star)])
}

/// The binding of a Call's arguments to a Def's parameters, into a list of the given number of words.
pub fn bind(table: &[u8], names: &[u8], call: usize, def: usize, room: usize) -> Answer {
    answered(Table::check(table, names).and_then(|table| {
        table.wanted_node(call, |kind| kind == kind::CALL)?;
        table.wanted_node(def, |kind| kind == kind::DEF || kind == kind::LAMBDA && planted(Fault::LambdaBinds))?;
        let called = Written::of(&table, call, Class::Argument);
        let owned = Written::of(&table, def, Class::Parameter);
        let marks = if planted(Fault::RoomByFlatCount) { owned.marks() } else { 0 };
        long_enough(room, owned.nodes.len() - marks + called.nodes.len())?;
        bound(&table, def, &owned, &called)
    }))
}

/// The Def's 10 to 19, the call's 20 to 24, then 80 to 84.
fn bound(table: &Table, def: usize, owned: &Written, called: &Written) -> Result<Answer, Refusal> {
    let entries = entries(table, &owned.nodes);
    let arguments = called.arguments();
    let of_call = |(number, at): (u32, usize)| argument_refusal(table, number, &called.nodes, at);
    if planted(Fault::CallBeforeDef) {
        call::unpack(&arguments).map_err(of_call)?;
    }
    let parameters = bind::flat(&entries, &unpacked(table, def, &owned.nodes)?);
    call::unpack(&arguments).map_err(of_call)?;
    let reached = bind::bind(&parameters, &arguments).map_err(|(number, at)| match at {
        bind::At::Argument(at) => table.refuse(number, called.nodes[at]),
        bind::At::Parameter(at) => table.refuse(number, owned.flat_nodes()[at]),
    })?;
    let list = bind::words(&parameters, &reached, &called.nodes);
    Ok(Answer { list, ..Answer::accepted(vec![parameters.len() as u32, arguments.len() as u32]) })
}

pub fn target(table: &[u8], names: &[u8], node: usize) -> Answer {
    answered(Table::check(table, names).and_then(|table| {
        table.wanted_node(node, is_expression)?;
        targets::target(&table, node).map(|leaves| Answer::accepted(vec![leaves]))
    }))
}

pub fn assignment(table: &[u8], names: &[u8], node: usize) -> Answer {
    answered(Table::check(table, names).and_then(|table| {
        table.wanted_node(node, |kind| kind == kind::ASSIGN || kind == kind::ASSIGN_MODIFY)?;
        targets::assignment(&table, node).map(|leaves| Answer::accepted(vec![leaves]))
    }))
}

pub fn type_shape(table: &[u8], names: &[u8], dialect: &[u8], edition: u32, node: usize, shapes: usize) -> Answer {
    answered(Table::check(table, names).and_then(|table| {
        let in_types = dialect.is_empty() && planted(Fault::EmptyDialectStandardInTypes);
        let dialect = dialect::from_bytes(if in_types { &dialect::STANDARD } else { dialect })?;
        if planted(Fault::NodeBeforeEdition) {
            table.wanted_node(node, is_expression)?;
        }
        let edition = dialect::edition(edition)?;
        table.wanted_node(node, is_expression)?;
        long_enough(shapes, table.size(node))?;
        match types::type_shape(&table, node, &dialect, edition) {
            Ok(bytes) => Ok(Answer { bytes, ..Answer::default() }),
            Err(refusal) => Ok(refused_type(refusal, node)),
        }
    }))
}

fn refused_type(refusal: Refusal, node: usize) -> Answer {
    let offender = refusal.node.map_or(0, |at| at as usize - node);
    let mut refused = Answer::from(refusal);
    if planted(Fault::ShapesWrittenWhenRefused) && offender > 0 {
        refused.bytes = vec![7];
    }
    refused
}

/// All errors, whatever fits: the list takes the first of them that fit whole.
pub fn module(table: &[u8], names: &[u8], dialect: &[u8]) -> Answer {
    answered(Table::check(table, names).and_then(|table| {
        let dialect = dialect::from_bytes(dialect)?;
        Ok(listed_answer(&table, &module::module(&table, &dialect)))
    }))
}

/// The table file, into a buffer of the given number of bytes. An edition of NONE is none.
pub fn write(table: &[u8], names: &[u8], dialect: &[u8], edition: u32, room: usize) -> Answer {
    answered(Table::check(table, names).and_then(|_| {
        dialect::from_bytes(dialect)?;
        let edition = edition_to_write(dialect, edition)?;
        let contents = Contents { table: table.to_vec(), names: names.to_vec(), dialect: dialect.to_vec(), edition };
        let file = file::written(contents);
        let early = if planted(Fault::SevenOneBlockEarly) { file::BLOCK } else { 0 };
        long_enough(room, file.len() + early)?;
        Ok(Answer { words: vec![file.len() as u32], file, ..Answer::default() })
    }))
}

/// The edition byte that the writer writes: none, or a number, 1 or 2, after a dialect.
fn edition_to_write(dialect: &[u8], edition: u32) -> Result<Option<u8>, Refusal> {
    if edition == NONE {
        return Ok(None);
    }
    dialect::edition(edition)?;
    let byte = Some(edition as u8);
    dialect::edition_in_file(dialect, byte)?;
    Ok(byte.filter(|_| edition != 1 || !planted(Fault::EditionOneNotWritten)))
}

/// The rescue of a damaged file, into a buffer of the given number of bytes: 90, 91, then 7.
pub fn rescue(input: &[u8], room: usize) -> Answer {
    if planted(Fault::ShortBeforeNothingKept) && room < file::BLOCK {
        return Answer::from(Refusal::bare(number::SHORT_BUFFER));
    }
    answered(rescue::rescue(input).and_then(|kept| {
        let early = if planted(Fault::RescueOneBlockEarly) { file::BLOCK } else { 0 };
        long_enough(room, kept.file.len() + early)?;
        let counts = [kept.file.len(), kept.statements, kept.nodes, kept.dropped].map(|count| count as u32);
        let after = [kept.bytes_after as u32, (kept.bytes_after >> 32) as u32];
        Ok(Answer { words: [&counts[..], &after].concat(), file: kept.file, ..Answer::default() })
    }))
}

/// The audit: all errors, whatever fits, as in the module pass.
pub fn audit(table: &[u8], names: &[u8], dialect: &[u8], edition: u32) -> Answer {
    answered(Table::check(table, names).and_then(|table| {
        let dialect = dialect::from_bytes(dialect)?;
        let edition = dialect::edition(edition)?;
        let audited: Vec<[u32; AUDIT_WORDS]> = audit::audit(&table, &dialect, edition).iter().map(audit::words).collect();
        let total = audited.len() as u32;
        Ok(Answer { audited, ..Answer::accepted(vec![total]) })
    }))
}

/// The reader, into buffers of the given number of bytes: its refusals, then 7.
pub fn read(file: &[u8], table: usize, names: usize) -> Answer {
    if planted(Fault::ReadShortFirst) && table < RECORD_BYTES {
        return Answer::from(Refusal::bare(number::SHORT_BUFFER));
    }
    let read = file::read(file).map_err(|refusal| match planted(Fault::ReadNodeNotTold) {
        true => Refusal::bare(refusal.number),
        false => refusal,
    });
    answered(read.and_then(|held| {
        long_enough(table, held.table.len())?;
        long_enough(names, held.names.len())?;
        let counts = [(held.table.len() / RECORD_BYTES) as u32, held.names.len() as u32];
        let words = [&counts[..], &dialect_words(&held.dialect), &edition_words(held.edition)].concat();
        Ok(Answer { file: held.table, names: held.names, ..Answer::accepted(words) })
    }))
}

/// Whether a dialect is there, and its nine bytes, four a word, low byte first; zeros where there is none.
fn dialect_words(dialect: &[u8]) -> [u32; 4] {
    let is_there = u32::from(!dialect.is_empty());
    let row_for_none = dialect.is_empty() && planted(Fault::ReadRowForNone);
    let mut bytes = if row_for_none { dialect::EXTENDED.to_vec() } else { dialect.to_vec() };
    bytes.resize(12, 0);
    let word = |at: usize| {
        let four = [bytes[at], bytes[at + 1], bytes[at + 2], bytes[at + 3]];
        if planted(Fault::ReadHighByteFirst) { u32::from_be_bytes(four) } else { u32::from_le_bytes(four) }
    };
    [is_there, word(0), word(4), word(8)]
}

/// The edition byte, or NONE; and the edition that applies.
fn edition_words(edition: Option<u8>) -> [u32; 2] {
    let stands = edition.map_or(if planted(Fault::ReadOneForNoEdition) { 1 } else { NONE }, u32::from);
    let holds = edition.map_or(if planted(Fault::ReadNoEditionHolds) { NONE } else { 1 }, u32::from);
    if planted(Fault::ReadEditionsExchanged) { [holds, stands] } else { [stands, holds] }
}

/// The reader, then the module pass over what the file holds.
pub fn check_file(file: &[u8]) -> Answer {
    answered(file::read(file).map(|held| {
        let dialect: &[u8] = if planted(Fault::FileDialectUnread) { &[] } else { &held.dialect };
        let mut answer = module(&held.table, &held.names, dialect);
        answer.words.push((held.table.len() / RECORD_BYTES) as u32);
        if planted(Fault::FileNodesFirst) {
            answer.words.reverse();
        }
        answer
    }))
}

/// What the program tablecheck prints for a file.
pub fn printed(file: &[u8]) -> String {
    let contents = match file::read(file) {
        Ok(contents) => contents,
        Err(refusal) => return format!("refused {}\n", refusal.number),
    };
    let answer = module(&contents.table, &contents.names, &contents.dialect);
    let lines = answer.errors.iter().map(|[number, file, begin, end]| format!("{number} {file} {begin} {end}\n"));
    let nodes = contents.table.len() / RECORD_BYTES;
    format!("nodes {nodes}\n{}errors {}\n", lines.collect::<String>(), answer.errors.len())
}

/// The format text of parts, into a buffer of the given number of bytes.
pub fn fstring_write(words: &[u32], texts: &[u8], dialect: &[u8], room: usize) -> Answer {
    answered(fstring::write(words, texts, dialect, room))
}

/// The parts of a format text, into the given number of words and bytes.
pub fn fstring_read(text: &[u8], words: usize, texts: usize) -> Answer {
    fstring::read(text, words, texts)
}

/// A list of errors as the job's words.
pub fn listed_answer(table: &Table, listed: &module::Listed) -> Answer {
    let words = |error: &module::Error| {
        let Span { file, begin, end } = table.span(error.node);
        let of_first = table.records.get(1).filter(|_| planted(Fault::ErrorFileOfTheFirst));
        [error.number, of_first.map_or(file, |first| u32::from(first.file)), begin, end]
    };
    let errors: Vec<[u32; ERROR_WORDS]> = listed.in_order().map(words).collect();
    let total = errors.len() as u32;
    Answer { errors, ..Answer::accepted(vec![total]) }
}
