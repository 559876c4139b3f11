//! The node table: records, which of them are sound, and how deep they are.

use crate::answer::Refusal;
use crate::answer::Span;
use crate::numbers::kind;
use crate::numbers::number;
use crate::planted::planted;
use crate::planted::Fault;

pub const RECORD_BYTES: usize = 24;
pub const MOST_NODES: usize = 2_100;
pub const MOST_NAME_BYTES: usize = 8_064;
pub const MOST_DEPTH: usize = 64;
pub const MOST_POSITION: u32 = 2_147_483_647;
pub const MOST_FILE: u16 = 999;

#[derive(Clone, Copy, Debug, PartialEq, Eq)]
pub struct Record {
    pub kind: u8,
    pub detail: u8,
    pub name_len: u16,
    pub name_start: u32,
    pub begin: u32,
    pub end: u32,
    pub size: u16,
    /// The number of the source file (W-208); 0 in a root Statements.
    pub file: u16,
    /// Source position of the name, in kind 61 alone.
    pub source: u32,
}

fn field16(bytes: &[u8], at: usize) -> u16 {
    u16::from_le_bytes([bytes[at], bytes[at + 1]])
}

fn field32(bytes: &[u8], at: usize) -> u32 {
    u32::from_le_bytes([bytes[at], bytes[at + 1], bytes[at + 2], bytes[at + 3]])
}

impl Record {
    pub fn read(bytes: &[u8]) -> Record {
        Record {
            kind: bytes[0],
            detail: bytes[1],
            name_len: field16(bytes, 2),
            name_start: field32(bytes, 4),
            begin: field32(bytes, 8),
            end: field32(bytes, 12),
            size: field16(bytes, 16),
            file: field16(bytes, 18),
            source: field32(bytes, 20),
        }
    }

    pub fn write(&self) -> [u8; RECORD_BYTES] {
        let mut bytes = [0; RECORD_BYTES];
        bytes[0] = self.kind;
        bytes[1] = self.detail;
        bytes[2..4].copy_from_slice(&self.name_len.to_le_bytes());
        bytes[4..8].copy_from_slice(&self.name_start.to_le_bytes());
        bytes[8..12].copy_from_slice(&self.begin.to_le_bytes());
        bytes[12..16].copy_from_slice(&self.end.to_le_bytes());
        bytes[16..18].copy_from_slice(&self.size.to_le_bytes());
        bytes[18..20].copy_from_slice(&self.file.to_le_bytes());
        bytes[20..24].copy_from_slice(&self.source.to_le_bytes());
        bytes
    }

    pub fn span(&self) -> Span {
        Span { file: u32::from(self.file), begin: self.begin, end: self.end }
    }

    /// Where the name of a named argument is in the source.
    pub fn name_span(&self) -> Span {
        Span { begin: self.source, end: self.source + u32::from(self.name_len), ..self.span() }
    }
}

/// What a record is to its parent.
#[derive(Clone, Copy, Debug, PartialEq, Eq)]
pub enum Class {
    Statement,
    Expression,
    Parameter,
    Argument,
}

pub fn class(kind: u8) -> Option<Class> {
    match kind {
        kind::STATEMENTS..=kind::ASSIGN_MODIFY => Some(Class::Statement),
        kind::TUPLE..=kind::FSTRING => Some(Class::Expression),
        kind::NORMAL..=kind::KWARGS => Some(Class::Parameter),
        kind::POSITIONAL..=kind::STAR_STAR_ARGUMENT => Some(Class::Argument),
        _ => None,
    }
}

pub fn has_name(kind: u8) -> bool {
    matches!(
        kind,
        kind::DOT | kind::IDENTIFIER | kind::NORMAL | kind::ARGS | kind::KWARGS | kind::NAMED
    )
}

/// The greatest detail that a kind permits.
pub fn most_detail(kind: u8) -> u8 {
    match kind {
        kind::DEF | kind::ASSIGN | kind::ASSIGN_MODIFY | kind::OP | kind::ARGS | kind::KWARGS => 1,
        kind::NORMAL => 3,
        _ => 0,
    }
}

/// One part of a record's children: the least and the most number of a class.
#[derive(Clone, Copy)]
pub struct Part {
    pub class: Class,
    pub least: usize,
    pub most: usize,
}

const MANY: usize = usize::MAX;

const fn part(class: Class, least: usize, most: usize) -> Part {
    Part { class, least, most }
}

const fn exactly(class: Class, count: usize) -> Part {
    part(class, count, count)
}

const NOTHING: Part = exactly(Class::Statement, 0);

/// The children of a kind, in the order of docs/FORMAT.md.
pub fn children_rule(kind: u8, detail: u8) -> [Part; 3] {
    use Class::*;
    let typed = usize::from(detail == 1);
    match kind {
        kind::STATEMENTS => [part(Statement, 0, MANY), NOTHING, NOTHING],
        kind::DEF => [part(Parameter, 0, MANY), exactly(Expression, typed), exactly(Statement, 1)],
        kind::FOR => [exactly(Expression, 2), exactly(Statement, 1), NOTHING],
        kind::IF_STATEMENT => [exactly(Expression, 1), exactly(Statement, 1), NOTHING],
        kind::IF_ELSE => [exactly(Expression, 1), exactly(Statement, 2), NOTHING],
        kind::RETURN => [part(Expression, 0, 1), NOTHING, NOTHING],
        kind::SIMPLE => [part(Expression, 0, MANY), NOTHING, NOTHING],
        kind::ASSIGN | kind::ASSIGN_MODIFY => [exactly(Expression, 2 + typed), NOTHING, NOTHING],
        kind::TUPLE | kind::LIST | kind::FSTRING | kind::DICT => {
            [part(Expression, 0, MANY), NOTHING, NOTHING]
        }
        kind::CALL => [exactly(Expression, 1), part(Argument, 0, MANY), NOTHING],
        kind::INDEX | kind::OP => [exactly(Expression, 2), NOTHING, NOTHING],
        kind::INDEX2 | kind::IF_EXPRESSION => [exactly(Expression, 3), NOTHING, NOTHING],
        kind::SLICE => [part(Expression, 1, 4), NOTHING, NOTHING],
        kind::LAMBDA => [part(Parameter, 0, MANY), exactly(Expression, 1), NOTHING],
        kind::DOT | kind::NOT | kind::MINUS | kind::PLUS | kind::BIT_NOT => {
            [exactly(Expression, 1), NOTHING, NOTHING]
        }
        kind::LIST_COMPREHENSION => [part(Expression, 1, MANY), NOTHING, NOTHING],
        kind::DICT_COMPREHENSION => [part(Expression, 2, MANY), NOTHING, NOTHING],
        kind::NORMAL => {
            let (ty, default) = normal_parts(detail);
            [exactly(Expression, usize::from(ty) + usize::from(default)), NOTHING, NOTHING]
        }
        kind::ARGS | kind::KWARGS => [exactly(Expression, typed), NOTHING, NOTHING],
        kind::POSITIONAL..=kind::STAR_STAR_ARGUMENT => [exactly(Expression, 1), NOTHING, NOTHING],
        _ => [NOTHING, NOTHING, NOTHING],
    }
}

/// Whether a Normal parameter of this detail has a type, and a default.
pub fn normal_parts(detail: u8) -> (bool, bool) {
    (detail == 1 || detail == 3, detail == 2 || detail == 3)
}

/// A sound table.
pub struct Table<'a> {
    pub records: Vec<Record>,
    pub names: &'a [u8],
}

impl<'a> Table<'a> {
    /// Numbers 1 to 4, in this order.
    pub fn check(table: &[u8], names: &'a [u8]) -> Result<Table<'a>, Refusal> {
        let length = table.len();
        if length == 0 || length % RECORD_BYTES != 0 || length > MOST_NODES * RECORD_BYTES {
            return Err(Refusal::bare(number::TABLE_LENGTH));
        }
        if names.len() > MOST_NAME_BYTES {
            return Err(Refusal::bare(number::NAME_BYTES));
        }
        let records = table.chunks_exact(RECORD_BYTES).map(Record::read).collect();
        let table = Table { records, names };
        if planted(Fault::DepthBeforeUnsound) {
            table.check_depth()?;
        }
        table.check_records()?;
        table.check_depth()?;
        Ok(table)
    }

    /// The first unsound record: down the tree from the root, a record before those below it. As long as all that were looked at are sound,
    /// the children of each fill it, so this is the order of the index, and no record is passed over.
    fn check_records(&self) -> Result<(), Refusal> {
        if planted(Fault::ChildBeforeParentUnsound) {
            let last = (0..self.records.len()).rev().find(|&node| !self.is_sound(node));
            last.map_or(Ok(()), |node| self.check_record(node, true))?;
        }
        let root = &self.records[0];
        if root.kind != kind::STATEMENTS {
            return self.check_statement(0, root.file);
        }
        self.check_record(0, root.file == 0 || planted(Fault::RootFileUnseen))?;
        let children: Vec<usize> = self.children(0).collect();
        let file = |place: usize| self.records[children[place]].file;
        for (place, &child) in children.iter().enumerate() {
            let before = file(place.saturating_sub(1));
            if planted(Fault::StatementEndsOneLate) {
                self.check_record(child, file(place) == before)?;
            }
            let below = if planted(Fault::FirstFileForAll) { file(0) } else { file(place) };
            self.check_statement(child, if planted(Fault::FileOfTheStatementBefore) { before } else { below })?;
        }
        Ok(())
    }

    /// A top-level statement has a number from 1 to 999, and all under it that number.
    fn check_statement(&self, node: usize, below: u16) -> Result<(), Refusal> {
        let record = &self.records[node];
        let is_nested = node > 0 && record.kind == kind::STATEMENTS;
        let is_unseen = is_nested && planted(Fault::NestedStatementsFileUnseen);
        self.check_record(node, has_file_number(record) || is_unseen)?;
        self.children(node).try_for_each(|child| self.check_below(child, below))
    }

    /// A record under a top-level statement of this number, and all below it.
    fn check_below(&self, node: usize, file: u16) -> Result<(), Refusal> {
        self.check_record(node, self.records[node].file == file)?;
        self.children(node).try_for_each(|child| self.check_below(child, file))
    }

    fn check_record(&self, node: usize, file_is_sound: bool) -> Result<(), Refusal> {
        match self.is_sound(node) && (file_is_sound || planted(Fault::FilesUnchecked)) {
            true => Ok(()),
            false => Err(Refusal::placed(number::UNSOUND, node)),
        }
    }

    /// Every rule of a record but that of its file number.
    fn is_sound(&self, node: usize) -> bool {
        let record = &self.records[node];
        class(record.kind).is_some()
            && record.detail <= most_detail(record.kind)
            && self.name_is_sound(record)
            && positions_are_sound(record)
            && record.size >= 1
            && node + usize::from(record.size) <= self.records.len()
            && (node != 0 || self.root_is_sound())
            && self.children_fit(node)
    }

    fn name_is_sound(&self, record: &Record) -> bool {
        if !has_name(record.kind) {
            return record.name_len == 0 && record.name_start == 0;
        }
        let longest = if planted(Fault::LongNameAllowed) { 256 } else { 255 };
        let end = if planted(Fault::NameEndWraps) {
            u64::from(record.name_start.wrapping_add(u32::from(record.name_len)))
        } else {
            u64::from(record.name_start) + u64::from(record.name_len)
        };
        (1..=longest).contains(&record.name_len) && end <= self.names.len() as u64
    }

    fn root_is_sound(&self) -> bool {
        let root = &self.records[0];
        class(root.kind) == Some(Class::Statement)
            && (usize::from(root.size) == self.records.len() || planted(Fault::RootNeedNotCover))
    }

    /// Steps over the children's sizes: they must end where the subtree ends, and be of the classes given.
    fn children_fit(&self, node: usize) -> bool {
        let record = &self.records[node];
        let end = node + usize::from(record.size);
        let mut classes = Vec::new();
        let mut child = node + 1;
        while child < end {
            let size = usize::from(self.records[child].size);
            if size == 0 {
                return false;
            }
            classes.push(class(self.records[child].kind));
            child += size;
        }
        child == end && classes_fit(record, &classes)
    }

    /// The first node, in index order, that is deeper than permitted. The root has depth 1. Statements and expressions are one deeper
    /// than their parent, a parameter or an argument as deep as its parent (W-206).
    fn check_depth(&self) -> Result<(), Refusal> {
        let most = MOST_DEPTH + usize::from(planted(Fault::DepthOneMore));
        // Of the subtrees that are open: where each ends, and how deep its first record is.
        let mut open: Vec<(usize, usize)> = Vec::new();
        for (node, record) in self.records.iter().enumerate() {
            while open.last().is_some_and(|&(end, _)| end <= node) {
                open.pop();
            }
            let below_argument = node > 0 && class(self.records[node - 1].kind) == Some(Class::Argument);
            let counted = match class(record.kind) {
                Some(Class::Statement) => 1 + usize::from(planted(Fault::StatementsCountTwice)),
                Some(Class::Expression) => usize::from(!(below_argument && planted(Fault::ArgumentValuesUncounted))),
                Some(Class::Parameter) => usize::from(planted(Fault::ParametersCounted)),
                Some(Class::Argument) => usize::from(planted(Fault::ArgumentsCounted)),
                None => 0,
            };
            let depth = open.last().map_or(0, |&(_, above)| above) + counted;
            if depth > most {
                return Err(Refusal::placed(number::DEPTH, node));
            }
            open.push((node + usize::from(record.size), depth));
        }
        Ok(())
    }

    pub fn kind(&self, node: usize) -> u8 {
        self.records[node].kind
    }

    pub fn size(&self, node: usize) -> usize {
        usize::from(self.records[node].size)
    }

    pub fn span(&self, node: usize) -> Span {
        self.records[node].span()
    }

    pub fn name(&self, node: usize) -> &'a [u8] {
        let record = &self.records[node];
        let start = record.name_start as usize;
        &self.names[start..start + usize::from(record.name_len)]
    }

    pub fn children(&self, node: usize) -> impl Iterator<Item = usize> + '_ {
        let end = node + self.size(node);
        let next = move |at: usize| Some(at).filter(|&at| at < end);
        std::iter::successors(next(node + 1), move |&child| next(child + self.size(child)))
    }

    pub fn child(&self, node: usize, place: usize) -> usize {
        self.children(node).nth(place).expect("a sound record has this child")
    }

    /// The children of one class, as the parameters of a Def.
    pub fn children_of(&self, node: usize, wanted: Class) -> impl Iterator<Item = usize> + '_ {
        self.children(node).filter(move |&child| class(self.kind(child)) == Some(wanted))
    }

    /// A refusal at a node: its own span.
    pub fn refuse(&self, number: u32, node: usize) -> Refusal {
        let of_root = planted(Fault::FileOfNodeZero);
        let file = if of_root { u32::from(self.records[0].file) } else { u32::from(self.records[node].file) };
        Refusal::spanned(number, node, Span { file, ..self.span(node) })
    }

    /// Number 6, for a node that a job wants to be of certain kinds.
    pub fn wanted_node(&self, node: usize, wanted: impl Fn(u8) -> bool) -> Result<(), Refusal> {
        let count = self.records.len() - usize::from(planted(Fault::LastNodeRefused));
        if node < count && wanted(self.kind(node)) {
            Ok(())
        } else {
            Err(Refusal::bare(number::NODE))
        }
    }
}

/// The numbers that a top-level statement may have.
fn has_file_number(record: &Record) -> bool {
    let least = u16::from(!planted(Fault::FileZeroAllowed));
    let most = MOST_FILE + u16::from(planted(Fault::FileThousandAllowed));
    (least..=most).contains(&record.file)
}

fn positions_are_sound(record: &Record) -> bool {
    let source_is_sound = if record.kind == kind::NAMED {
        let end = u64::from(record.source) + u64::from(record.name_len);
        record.source <= MOST_POSITION
            && (end <= u64::from(MOST_POSITION) || planted(Fault::NameEndPastLimitAllowed))
    } else {
        record.source == 0
    };
    record.begin <= record.end && record.end <= MOST_POSITION && source_is_sound
}

fn classes_fit(record: &Record, classes: &[Option<Class>]) -> bool {
    let mut rest = classes;
    for part in children_rule(record.kind, record.detail) {
        let found = rest.iter().take(part.most).take_while(|c| **c == Some(part.class)).count();
        if found < part.least {
            return false;
        }
        rest = &rest[found..];
    }
    let even = record.kind != kind::DICT || classes.len() % 2 == 0 || planted(Fault::EvenDictUnchecked);
    rest.is_empty() && even
}

pub fn is_expression(kind: u8) -> bool {
    class(kind) == Some(Class::Expression)
}
