//! The module pass.

use crate::dialect::Dialect;
use crate::numbers::kind;
use crate::numbers::number;
use crate::planted::planted;
use crate::planted::Fault;
use crate::table::Class;
use crate::table::Table;
use crate::written::unpacked;

/// An error: its number, and the node whose span it has.
#[derive(Clone, Copy, Debug, PartialEq, Eq, PartialOrd, Ord)]
pub struct Error {
    pub number: u32,
    pub node: usize,
}

/// The errors of a module: those of statements in order, then a sequence for each expression in table order.
#[derive(Clone, Debug, Default, PartialEq, Eq)]
pub struct Listed {
    pub statements: Vec<Error>,
    pub expressions: Vec<Vec<Error>>,
}

impl Listed {
    pub fn in_order(&self) -> impl Iterator<Item = &Error> {
        self.statements.iter().chain(self.expressions.iter().flatten())
    }
}

pub fn module(table: &Table, dialect: &Dialect) -> Listed {
    let mut pass = Pass { table, dialect, errors: Vec::new(), hidden: vec![false; table.records.len()] };
    pass.statement(0, Place { top_level: true, inside_for: false, inside_def: false });
    let expressions = (0..table.records.len())
        .filter(|&node| !pass.hidden[node])
        .map(|node| pass.expression(node))
        .filter(|errors| !errors.is_empty())
        .collect();
    Listed { statements: pass.errors, expressions }
}

#[derive(Clone, Copy)]
struct Place {
    top_level: bool,
    inside_for: bool,
    inside_def: bool,
}

struct Pass<'a, 'n> {
    table: &'a Table<'n>,
    dialect: &'a Dialect,
    errors: Vec<Error>,
    /// Nodes that a planted fault keeps from the expression walk.
    hidden: Vec<bool>,
}

impl Pass<'_, '_> {
    fn error_if(&mut self, wrong: bool, number: u32, node: usize) {
        if wrong {
            self.errors.push(Error { number, node });
        }
    }

    fn statement(&mut self, node: usize, place: Place) {
        match self.table.kind(node) {
            kind::DEF => self.def(node, place),
            kind::FOR => {
                let inner = Place { top_level: false, inside_for: true, ..place };
                self.compound(node, number::TOP_LEVEL_FOR, place, inner)
            }
            kind::IF_STATEMENT | kind::IF_ELSE => {
                let inner = Place { top_level: false, ..place };
                self.compound(node, number::TOP_LEVEL_IF, place, inner)
            }
            kind::BREAK => self.error_if(!place.inside_for, number::BREAK_MISPLACED, node),
            kind::CONTINUE => self.error_if(!place.inside_for, number::CONTINUE_MISPLACED, node),
            kind::RETURN => self.error_if(!place.inside_def, number::RETURN_MISPLACED, node),
            kind::LOAD => self.load(node, place),
            kind::STATEMENTS if node != 0 && planted(Fault::NestedStatementsNotTop) => {
                self.inner_statements(node, Place { top_level: false, ..place })
            }
            _ => self.inner_statements(node, place),
        }
    }

    fn inner_statements(&mut self, node: usize, place: Place) {
        let table = self.table;
        for inner in table.children_of(node, Class::Statement) {
            self.statement(inner, place);
        }
    }

    fn def(&mut self, node: usize, place: Place) {
        self.error_if(!self.dialect.def, number::DEF_NOT_ALLOWED, node);
        if !self.dialect.def && planted(Fault::RefusedDefNotEntered) {
            return;
        }
        let list = self.parameters(node);
        self.errors.extend(list);
        let inside_for = place.inside_for && planted(Fault::DefBodyKeepsFor);
        self.inner_statements(node, Place { top_level: false, inside_for, inside_def: true });
    }

    /// A For or an If: refused at the top level where the dialect wants it so, and then not entered.
    fn compound(&mut self, node: usize, number: u32, place: Place, inner: Place) {
        if place.top_level && !self.dialect.top_level_stmt {
            self.error_if(true, number, node);
            if planted(Fault::RefusedStatementsHideExpressions) {
                self.hidden[node..node + self.table.size(node)].fill(true);
            }
            if !(number == number::TOP_LEVEL_FOR && planted(Fault::RefusedForEntered)) {
                return;
            }
        }
        self.inner_statements(node, inner);
    }

    fn load(&mut self, node: usize, place: Place) {
        let hidden = !self.dialect.load && planted(Fault::LoadOffHidesNotAtTop);
        self.error_if(!place.top_level && !hidden, number::LOAD_NOT_AT_TOP, node);
        self.error_if(!self.dialect.load, number::LOAD_NOT_ALLOWED, node);
    }

    /// Every `*`, then every `/`, then the one error of the list's rules.
    fn parameters(&self, owner: usize) -> Vec<Error> {
        let nodes: Vec<usize> = self.table.children_of(owner, Class::Parameter).collect();
        let marks = |wanted: u8, number: u32, allowed: bool| {
            let found = nodes.iter().filter(move |&&node| !allowed && self.table.kind(node) == wanted);
            found.map(move |&node| Error { number, node })
        };
        let stars = marks(kind::NO_ARGS, number::STAR_NOT_ALLOWED, self.dialect.keyword_only);
        let slashes = marks(kind::SLASH, number::SLASH_NOT_ALLOWED, self.dialect.positional_only);
        let mut errors: Vec<Error> = if planted(Fault::SlashErrorsBeforeStarErrors) {
            slashes.chain(stars).collect()
        } else {
            stars.chain(slashes).collect()
        };
        if let Err(refusal) = unpacked(self.table, owner, &nodes) {
            let node = refusal.node.expect("a refusal of a list has a node") as usize;
            let is_missed = refusal.number == number::TOO_MANY_PARAMETERS && planted(Fault::TooManyNotInTheModule);
            errors.extend((!is_missed).then_some(Error { number: refusal.number, node }));
        }
        errors
    }

    fn expression(&self, node: usize) -> Vec<Error> {
        match self.table.kind(node) {
            kind::ELLIPSIS => {
                let parse_only = self.dialect.types == 1 && planted(Fault::ParseOnlyRefusesEllipsis);
                let refused = self.dialect.types_disabled() || parse_only;
                let hidden = planted(Fault::DefaultsNotVisited) && self.is_default(node);
                let error = Error { number: number::ELLIPSIS_NOT_ALLOWED, node };
                Vec::from_iter((refused && !hidden).then_some(error))
            }
            kind::LAMBDA => {
                let own = Error { number: number::LAMBDA_NOT_ALLOWED, node };
                let own = (!self.dialect.lambda || planted(Fault::OpenedLambdaStays)).then_some(own);
                let list = self.parameters(node);
                if planted(Fault::LambdaBeforeItsNumber) {
                    list.into_iter().chain(own).collect()
                } else {
                    own.into_iter().chain(list).collect()
                }
            }
            _ => Vec::new(),
        }
    }

    fn is_default(&self, node: usize) -> bool {
        let parent = &self.table.records[node - 1];
        parent.kind == kind::NORMAL && parent.detail == 2
    }
}
