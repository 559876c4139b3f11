//! Random trees.

use model::numbers::kind;
use model::table::children_rule;
use model::table::class;
use model::table::has_name;
use model::table::most_detail;
use model::table::Class;

use crate::cells::Cells;
use crate::cells::NEARLY_TYPE;
use crate::cells::TYPE;
use crate::rng::Rng;

const LEAF_EXPRESSIONS: [u8; 8] = [
    kind::IDENTIFIER,
    kind::ELLIPSIS,
    kind::INT,
    kind::IDENTIFIER,
    kind::STRING,
    kind::FLOAT,
    kind::BYTES,
    kind::TUPLE,
];
const LEAF_STATEMENTS: [u8; 6] =
    [kind::BREAK, kind::CONTINUE, kind::RETURN, kind::LOAD, kind::SIMPLE, kind::STATEMENTS];

pub struct Grower<'r> {
    pub rng: &'r mut Rng,
    pub cells: Cells,
    /// How many records may still be added before only leaves are.
    pub left: isize,
    pub most_depth: usize,
    /// Whether the table may be one that no tree of the crate can be.
    pub wild: bool,
    /// How many names there are: few make equal ones likely.
    pub names: usize,
    depth: usize,
}

impl<'r> Grower<'r> {
    pub fn new(rng: &'r mut Rng, wild: bool) -> Grower<'r> {
        let names = rng.pick(&[2, 5, 20, 200]);
        let left = rng.pick(&[3isize, 8, 20, 60]);
        let most_depth = rng.within(3, 20);
        Grower { rng, cells: Cells::default(), left, most_depth, wild, names, depth: 0 }
    }

    fn name(&mut self) -> u8 {
        match self.rng.below(12) {
            0 => TYPE,
            1 => self.rng.pick(&NEARLY_TYPE),
            _ => self.rng.below(self.names) as u8,
        }
    }

    fn is_full(&self) -> bool {
        self.left <= 0 || self.depth >= self.most_depth
    }

    /// A record of a kind, with children that fit it.
    pub fn record(&mut self, kind: u8) {
        let detail = if self.is_full() { 0 } else { self.rng.within(0, usize::from(most_detail(kind))) as u8 };
        self.record_with(kind, detail);
    }

    pub fn record_with(&mut self, kind: u8, detail: u8) {
        let detail = if kind == kind::ASSIGN_MODIFY && !self.wild { 0 } else { detail };
        let name = if has_name(kind) { self.name() } else { 0 };
        let at = self.cells.open(kind, detail, name);
        self.left -= 1;
        self.depth += 1;
        self.children(kind, detail);
        self.depth -= 1;
        self.cells.close(at);
    }

    fn children(&mut self, kind: u8, detail: u8) {
        let rule = children_rule(kind, detail);
        let mut place = 0;
        for part in rule {
            let count = self.count(kind, part.least, part.most);
            for _ in 0..count {
                match part.class {
                    Class::Expression if self.wants_target(kind, place) => self.target(),
                    Class::Expression if wants_type(kind, detail, place) => self.type_expression(),
                    _ => self.any_of(part.class),
                }
                place += 1;
            }
        }
    }

    fn count(&mut self, kind: u8, least: usize, most: usize) -> usize {
        if least == most {
            return least;
        }
        // What a comprehension or a simple statement of the crate has.
        let (least, most) = match kind {
            kind::LIST_COMPREHENSION if !self.wild => (3, most),
            kind::DICT_COMPREHENSION if !self.wild => (4, most),
            kind::SIMPLE if !self.wild => (0, 1),
            _ => (least, most),
        };
        let wide = if self.rng.once_in(30) { 12 } else { 4 };
        let count = if self.is_full() { least } else { self.rng.within(least, most.min(least + wide)) };
        if kind == kind::DICT { count / 2 * 2 } else { count }
    }

    fn wants_target(&mut self, kind: u8, place: usize) -> bool {
        let wants = match kind {
            kind::FOR | kind::ASSIGN | kind::ASSIGN_MODIFY => place == 0,
            kind::LIST_COMPREHENSION => place == 1,
            kind::DICT_COMPREHENSION => place == 2,
            _ => false,
        };
        wants && !(self.wild && self.rng.once_in(4))
    }

    pub fn any_of(&mut self, class: Class) {
        let kind = match class {
            Class::Statement => self.statement_kind(),
            Class::Expression => self.expression_kind(),
            Class::Parameter => self.parameter_kind(),
            Class::Argument => self.argument_kind(),
        };
        self.record(kind);
    }

    fn statement_kind(&mut self) -> u8 {
        if self.is_full() {
            return self.rng.pick(&LEAF_STATEMENTS);
        }
        match self.rng.below(8) {
            0 | 1 => kind::DEF,
            2 => kind::STATEMENTS,
            _ => self.rng.within(usize::from(kind::STATEMENTS), usize::from(kind::ASSIGN_MODIFY)) as u8,
        }
    }

    fn expression_kind(&mut self) -> u8 {
        if self.is_full() {
            return self.rng.pick(&LEAF_EXPRESSIONS);
        }
        match self.rng.below(8) {
            0 => kind::LAMBDA,
            1 => kind::CALL,
            2 => self.rng.pick(&LEAF_EXPRESSIONS),
            _ => self.rng.within(usize::from(kind::TUPLE), usize::from(kind::FSTRING)) as u8,
        }
    }

    fn parameter_kind(&mut self) -> u8 {
        match self.rng.below(9) {
            0 => kind::NO_ARGS,
            1 => kind::SLASH,
            2 => kind::ARGS,
            3 => kind::KWARGS,
            _ => kind::NORMAL,
        }
    }

    fn argument_kind(&mut self) -> u8 {
        self.rng.within(usize::from(kind::POSITIONAL), usize::from(kind::STAR_STAR_ARGUMENT)) as u8
    }

    /// What may be on the left of an assignment.
    pub fn target(&mut self) {
        let kinds = [kind::IDENTIFIER, kind::IDENTIFIER, kind::DOT, kind::INDEX, kind::TUPLE, kind::LIST];
        let kind = if self.is_full() { kind::IDENTIFIER } else { self.rng.pick(&kinds) };
        if kind != kind::TUPLE && kind != kind::LIST {
            return self.record(kind);
        }
        let count = self.rng.below(4);
        self.compound(kind, 0, count, Grower::target);
    }

    /// A record whose children are all made alike.
    fn compound(&mut self, kind: u8, detail: u8, count: usize, each: fn(&mut Grower<'r>)) {
        let at = self.cells.open(kind, detail, 0);
        self.left -= 1;
        self.depth += 1;
        (0..count).for_each(|_| each(self));
        self.depth -= 1;
        self.cells.close(at);
    }

    /// Mostly a good type; now and then something else.
    pub fn type_expression(&mut self) {
        if self.is_full() {
            return self.leaf_of_type();
        }
        match self.rng.below(22) {
            0..=4 => self.leaf_of_type(),
            5..=7 => self.path(),
            8..=10 => self.index_of_type(),
            11..=14 => self.index2_of_types(),
            15 | 16 => self.compound_of_types(kind::TUPLE, 0, 0),
            17 | 18 => self.compound_of_types(kind::OP, 1, 2),
            19 => self.compound_of_types(kind::LIST, 0, 2),
            20 => self.compound_of_types(kind::LIST, 0, 0),
            _ => self.any_of(Class::Expression),
        }
    }

    fn leaf_of_type(&mut self) {
        let kind = if self.rng.once_in(4) { kind::ELLIPSIS } else { kind::IDENTIFIER };
        self.record(kind);
    }

    fn compound_of_types(&mut self, kind: u8, detail: u8, least: usize) {
        let count = if kind == kind::OP { 2 } else { self.rng.within(least, least + 3) };
        self.compound(kind, detail, count, Grower::type_expression);
    }

    /// An Identifier, or Dots down to one; now and then down to something else.
    fn path(&mut self) {
        let dots = self.rng.below(4);
        let opened: Vec<usize> = (0..dots)
            .map(|_| {
                let name = self.name();
                self.cells.open(kind::DOT, 0, name)
            })
            .collect();
        self.left -= dots as isize;
        self.depth += dots;
        if self.rng.once_in(20) { self.any_of(Class::Expression) } else { self.record(kind::IDENTIFIER) }
        self.depth -= dots;
        opened.into_iter().rev().for_each(|at| self.cells.close(at));
    }

    fn index_of_type(&mut self) {
        let at = self.cells.open(kind::INDEX, 0, 0);
        self.left -= 1;
        self.depth += 1;
        if self.rng.once_in(10) { self.path() } else { self.record(kind::IDENTIFIER) }
        self.type_expression();
        self.depth -= 1;
        self.cells.close(at);
    }

    fn index2_of_types(&mut self) {
        let at = self.cells.open(kind::INDEX2, 0, 0);
        self.left -= 1;
        self.depth += 1;
        if self.rng.once_in(20) { self.any_of(Class::Expression) } else { self.path() }
        self.argument_of_type();
        self.argument_of_type();
        self.depth -= 1;
        self.cells.close(at);
    }

    fn argument_of_type(&mut self) {
        if self.rng.once_in(2) && !self.is_full() {
            let count = self.rng.below(4);
            self.compound(kind::LIST, 0, count, Grower::argument_of_type);
        } else {
            self.type_expression();
        }
    }
}

fn wants_type(kind: u8, detail: u8, place: usize) -> bool {
    match kind {
        kind::DEF => true,
        kind::ASSIGN | kind::ASSIGN_MODIFY => detail == 1 && place == 1,
        kind::NORMAL => place == 0 && detail != 2,
        kind::ARGS | kind::KWARGS => true,
        _ => false,
    }
}

/// A random module: a statement, most often a list of them.
pub fn module(rng: &mut Rng, wild: bool) -> Cells {
    let mut grower = Grower::new(rng, wild);
    if grower.rng.once_in(5) { grower.any_of(Class::Statement) } else { grower.record(kind::STATEMENTS) }
    grower.cells
}

/// A module of about the given number of records.
pub fn large_module(rng: &mut Rng, records: usize, wild: bool) -> Cells {
    let mut cells = Cells::default();
    let root = cells.open(kind::STATEMENTS, 0, 0);
    while cells.all.len() < records {
        let mut grower = Grower::new(rng, wild);
        grower.left = 100;
        grower.any_of(Class::Statement);
        if cells.all.len() + grower.cells.all.len() > records {
            break;
        }
        cells.append(&grower.cells.all);
    }
    while cells.all.len() < records {
        cells.leaf(kind::BREAK, 0, 0);
    }
    cells.close(root);
    cells
}

/// A simple statement around one expression, which then is node 1.
pub fn around_expression(rng: &mut Rng, wild: bool, grow: impl FnOnce(&mut Grower)) -> Cells {
    let mut grower = Grower::new(rng, wild);
    let at = grower.cells.open(kind::SIMPLE, 0, 0);
    grow(&mut grower);
    grower.cells.close(at);
    grower.cells
}

/// The nodes of a class, to ask a job about.
pub fn nodes_of(cells: &Cells, wanted: Class) -> Vec<usize> {
    let all = cells.all.iter().enumerate();
    all.filter(|(_, cell)| class(cell.kind) == Some(wanted)).map(|(node, _)| node).collect()
}
