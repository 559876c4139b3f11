//! Type shapes.

use crate::answer::Refusal;
use crate::dialect::Dialect;
use crate::dialect::Edition;
use crate::numbers::kind;
use crate::numbers::number;
use crate::planted::planted;
use crate::planted::Fault;
use crate::table::Table;

const ELLIPSIS: u8 = 1;
const PATH: u8 = 2;
const INDEX: u8 = 3;
const INDEX2: u8 = 4;
const LIST: u8 = 5;
const UNION: u8 = 6;
const TUPLE: u8 = 7;

type Read = Result<(), Refusal>;

/// The shapes of the type at a node: a byte for each node of its subtree, 0 where none is written.
pub fn type_shape(table: &Table, node: usize, dialect: &Dialect, edition: Edition) -> Result<Vec<u8>, Refusal> {
    let mut reading = Reading { table, edition, first: node, shapes: vec![0; table.size(node)] };
    if dialect.types_disabled() && !planted(Fault::TypesDisabledUnseen) {
        return Err(table.refuse(number::TYPES_DISABLED, node));
    }
    reading.type_at(node)?;
    Ok(reading.shapes)
}

struct Reading<'a, 'n> {
    table: &'a Table<'n>,
    edition: Edition,
    first: usize,
    shapes: Vec<u8>,
}

impl Reading<'_, '_> {
    fn kind(&self, node: usize) -> u8 {
        self.table.kind(node)
    }

    fn put(&mut self, node: usize, shape: u8) {
        self.shapes[node - self.first] = shape;
    }

    fn invalid(&self, node: usize) -> Read {
        Err(self.table.refuse(number::INVALID_TYPE, node))
    }

    fn type_at(&mut self, node: usize) -> Read {
        match self.kind(node) {
            kind::ELLIPSIS => {
                self.put(node, ELLIPSIS);
                Ok(())
            }
            kind::IDENTIFIER | kind::DOT => {
                self.put(node, PATH);
                self.path(node, planted(Fault::BanStaysInPaths))
            }
            kind::INDEX => self.index(node),
            kind::INDEX2 => self.index2(node),
            kind::TUPLE => self.all_types(node, TUPLE),
            kind::OP if self.table.records[node].detail == 1 => {
                self.all_types(node, if planted(Fault::UnionShapeIsTuple) { TUPLE } else { UNION })
            }
            kind::LIST => self.list(node),
            _ => self.invalid(node),
        }
    }

    fn all_types(&mut self, node: usize, shape: u8) -> Read {
        self.put(node, shape);
        let table = self.table;
        table.children(node).try_for_each(|item| self.type_at(item))
    }

    fn list(&mut self, node: usize) -> Read {
        match self.table.children(node).count() {
            0 => Err(self.table.refuse(number::EMPTY_LIST_IN_TYPE, node)),
            1 if !planted(Fault::ListOfOneIsUnion) => self.invalid(node),
            _ => self.all_types(node, UNION),
        }
    }

    /// An Identifier, or Dots down to one; 43 for anything else, 42 and in edition 1 44 inside the Dots.
    fn path(&self, node: usize, always_bans: bool) -> Read {
        match self.kind(node) {
            kind::IDENTIFIER => Ok(()),
            kind::DOT => self.dots(node, always_bans),
            _ => Err(self.table.refuse(number::EXPECTING_PATH, node)),
        }
    }

    fn dots(&self, outermost: usize, always_bans: bool) -> Read {
        let mut base = outermost;
        let mut bans = self.table.name(outermost) == b"type";
        while self.kind(base) == kind::DOT {
            bans |= planted(Fault::DotTypeAnywhere) && self.table.name(base) == b"type";
            base = self.table.child(base, 0);
        }
        let is_lifted = self.edition == Edition::Two && !always_bans;
        if self.kind(base) != kind::IDENTIFIER && !(is_lifted && planted(Fault::EditionTwoAllows42)) {
            return Err(self.table.refuse(number::DOT_IN_TYPE, base));
        }
        if bans && !is_lifted {
            let at = if planted(Fault::DotTypeAtDot) { outermost } else { base };
            return Err(self.table.refuse(number::DOT_TYPE_BAN, at));
        }
        Ok(())
    }

    fn index(&mut self, node: usize) -> Read {
        let base = self.table.child(node, 0);
        let is_planted = planted(Fault::IndexOfPath) || (self.edition == Edition::Two && planted(Fault::EditionTwoIndexOfPath));
        let path_is_fine = is_planted && self.path(base, false).is_ok();
        if self.kind(base) != kind::IDENTIFIER && !path_is_fine {
            return self.invalid(node);
        }
        if planted(Fault::ShapeOfIndexBaseWritten) {
            self.put(base, PATH);
        }
        self.put(node, INDEX);
        let index = self.table.child(node, 1);
        if planted(Fault::IndexReadAsArgument) { self.argument(index) } else { self.type_at(index) }
    }

    fn index2(&mut self, node: usize) -> Read {
        self.put(node, INDEX2);
        self.path(self.table.child(node, 0), planted(Fault::BanStaysAtIndex2))?;
        self.argument(self.table.child(node, 1))?;
        self.argument(self.table.child(node, 2))
    }

    /// An argument of Index2: a List of arguments, or else a type.
    fn argument(&mut self, node: usize) -> Read {
        if self.kind(node) != kind::LIST {
            return self.type_at(node);
        }
        self.put(node, LIST);
        let table = self.table;
        table.children(node).try_for_each(|item| {
            if planted(Fault::NestedArgumentListAsType) { self.type_at(item) } else { self.argument(item) }
        })
    }
}
