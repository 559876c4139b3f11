//! The crate's trees as records again: a table and its tree must have the same records, or a comparison
//! would run on something else than the table says.

use model::audit::Job;
use model::audit::Place;
use model::numbers::kind;
use model::table::Table;
use starlark_syntax::codemap::Span;
use starlark_syntax::syntax::ast::ArgumentP;
use starlark_syntax::syntax::ast::AssignTargetP;
use starlark_syntax::syntax::ast::AstArgument;
use starlark_syntax::syntax::ast::AstAssignTarget;
use starlark_syntax::syntax::ast::AstExpr;
use starlark_syntax::syntax::ast::AstLiteral;
use starlark_syntax::syntax::ast::AstParameter;
use starlark_syntax::syntax::ast::AstStmt;
use starlark_syntax::syntax::ast::AstTypeExpr;
use starlark_syntax::syntax::ast::BinOp;
use starlark_syntax::syntax::ast::Clause;
use starlark_syntax::syntax::ast::ClauseP;
use starlark_syntax::syntax::ast::ExprP;
use starlark_syntax::syntax::ast::ForClause;
use starlark_syntax::syntax::ast::ParameterP;
use starlark_syntax::syntax::ast::StmtP;

use crate::marks;

#[derive(Clone, Debug, PartialEq, Eq)]
struct Row {
    kind: u8,
    detail: u8,
    name: Vec<u8>,
    size: usize,
    node: usize,
}

/// Stops the run if the tree's records are not the table's. Else it says where the tree has what the audit looks at.
pub fn must_be_the_table(table: &Table, tree: &AstStmt) -> Vec<Place> {
    let mut rows = Rows::default();
    rows.statement(tree);
    assert_eq!(rows.all.len(), table.records.len(), "a tree has a record for each of the table's");
    for (node, row) in rows.all.iter().enumerate() {
        let record = &table.records[node];
        // The crate's targets do not distinguish a list and a tuple.
        let kind = if rows.targets.contains(&node) { kind::TUPLE } else { record.kind };
        let size = table.size(node);
        let expected = Row { kind, detail: record.detail, name: table.name(node).to_vec(), size, node };
        assert_eq!(*row, expected, "record {node} of a tree is the table's");
    }
    rows.places.sort();
    rows.places
}

#[derive(Default)]
struct Rows {
    all: Vec<Row>,
    /// Rows of targets that are tuples or lists.
    targets: Vec<usize>,
    /// The tree's defs, lambdas, calls, assignments, targets of a `for` statement, and types.
    places: Vec<Place>,
}

impl Rows {
    fn place(&mut self, job: Job, span: Span) {
        self.places.push(Place { node: marks::read_node(span), job });
    }

    /// A record, and below it what `children` adds.
    fn record(&mut self, kind: u8, detail: u8, name: &str, span: Span, children: impl FnOnce(&mut Rows)) {
        let at = self.all.len();
        let node = marks::read_node(span);
        self.all.push(Row { kind, detail, name: name.as_bytes().to_vec(), size: 0, node });
        children(self);
        self.all[at].size = self.all.len() - at;
    }

    fn statement(&mut self, tree: &AstStmt) {
        let (kind, detail) = match &tree.node {
            StmtP::Statements(_) => (kind::STATEMENTS, 0),
            StmtP::Def(it) => (kind::DEF, u8::from(it.return_type.is_some())),
            StmtP::For(_) => (kind::FOR, 0),
            StmtP::If(..) => (kind::IF_STATEMENT, 0),
            StmtP::IfElse(..) => (kind::IF_ELSE, 0),
            StmtP::Break => (kind::BREAK, 0),
            StmtP::Continue => (kind::CONTINUE, 0),
            StmtP::Return(_) => (kind::RETURN, 0),
            StmtP::Load(_) => (kind::LOAD, 0),
            StmtP::Pass | StmtP::Expression(_) => (kind::SIMPLE, 0),
            StmtP::Assign(it) => (kind::ASSIGN, u8::from(it.ty.is_some())),
            StmtP::AssignModify(..) => (kind::ASSIGN_MODIFY, 0),
        };
        self.record(kind, detail, "", tree.span, |rows| rows.below_statement(tree));
    }

    fn below_statement(&mut self, tree: &AstStmt) {
        match &tree.node {
            StmtP::Statements(all) => all.iter().for_each(|inner| self.statement(inner)),
            StmtP::Def(it) => {
                self.place(Job::Params, tree.span);
                it.params.iter().for_each(|param| self.parameter(param));
                it.return_type.iter().for_each(|ty| self.type_expression(ty));
                self.statement(&it.body);
            }
            StmtP::For(it) => {
                self.place(Job::Target, it.var.span);
                self.target(&it.var);
                self.expression(&it.over);
                self.statement(&it.body);
            }
            StmtP::If(condition, body) => {
                self.expression(condition);
                self.statement(body);
            }
            StmtP::IfElse(condition, bodies) => {
                self.expression(condition);
                self.statement(&bodies.0);
                self.statement(&bodies.1);
            }
            StmtP::Return(value) => value.iter().for_each(|value| self.expression(value)),
            StmtP::Expression(value) => self.expression(value),
            StmtP::Assign(it) => {
                self.place(Job::Assignment, tree.span);
                self.target(&it.lhs);
                it.ty.iter().for_each(|ty| self.type_expression(ty));
                self.expression(&it.rhs);
            }
            StmtP::AssignModify(lhs, _, rhs) => {
                self.place(Job::Assignment, tree.span);
                self.target(lhs);
                self.expression(rhs);
            }
            StmtP::Break | StmtP::Continue | StmtP::Pass | StmtP::Load(_) => {}
        }
    }

    fn type_expression(&mut self, tree: &AstTypeExpr) {
        assert_eq!(tree.span, tree.node.expr.span);
        self.place(Job::Type, tree.span);
        self.expression(&tree.node.expr);
    }

    fn parameter(&mut self, tree: &AstParameter) {
        let (kind, ty, default) = match &tree.node {
            ParameterP::Normal(_, ty, default) => (kind::NORMAL, ty, default),
            ParameterP::NoArgs => (kind::NO_ARGS, &None, &None),
            ParameterP::Slash => (kind::SLASH, &None, &None),
            ParameterP::Args(_, ty) => (kind::ARGS, ty, &None),
            ParameterP::KwArgs(_, ty) => (kind::KWARGS, ty, &None),
        };
        let detail = u8::from(ty.is_some()) + 2 * u8::from(default.is_some());
        let name = tree.node.ident().map_or("", |ident| &ident.node.ident);
        self.record(kind, detail, name, tree.span, |rows| {
            ty.iter().for_each(|ty| rows.type_expression(ty));
            default.iter().for_each(|value| rows.expression(value));
        });
    }

    fn argument(&mut self, tree: &AstArgument) {
        let kind = match &tree.node {
            ArgumentP::Positional(_) => kind::POSITIONAL,
            ArgumentP::Named(..) => kind::NAMED,
            ArgumentP::Args(_) => kind::STAR_ARGUMENT,
            ArgumentP::KwArgs(_) => kind::STAR_STAR_ARGUMENT,
        };
        let name = tree.node.name().unwrap_or("");
        self.record(kind, 0, name, tree.span, |rows| rows.expression(tree.node.expr()));
    }

    fn target(&mut self, tree: &AstAssignTarget) {
        let (kind, name) = match &tree.node {
            AssignTargetP::Tuple(_) => {
                self.targets.push(self.all.len());
                (kind::TUPLE, "")
            }
            AssignTargetP::Index(_) => (kind::INDEX, ""),
            AssignTargetP::Dot(_, field) => (kind::DOT, field.node.as_str()),
            AssignTargetP::Identifier(ident) => (kind::IDENTIFIER, ident.node.ident.as_str()),
        };
        self.record(kind, 0, name, tree.span, |rows| match &tree.node {
            AssignTargetP::Tuple(items) => items.iter().for_each(|item| rows.target(item)),
            AssignTargetP::Index(both) => rows.expressions([&both.0, &both.1]),
            AssignTargetP::Dot(object, _) => rows.expression(object),
            AssignTargetP::Identifier(_) => {}
        });
    }

    fn expressions<'a>(&mut self, trees: impl IntoIterator<Item = &'a AstExpr>) {
        trees.into_iter().for_each(|tree| self.expression(tree));
    }

    fn expression(&mut self, tree: &AstExpr) {
        let (kind, detail, name) = match &tree.node {
            ExprP::Tuple(_) => (kind::TUPLE, 0, ""),
            ExprP::Dot(_, field) => (kind::DOT, 0, field.node.as_str()),
            ExprP::Call(..) => (kind::CALL, 0, ""),
            ExprP::Index(_) => (kind::INDEX, 0, ""),
            ExprP::Index2(_) => (kind::INDEX2, 0, ""),
            ExprP::Slice(..) => (kind::SLICE, 0, ""),
            ExprP::Identifier(ident) => (kind::IDENTIFIER, 0, ident.node.ident.as_str()),
            ExprP::Lambda(_) => (kind::LAMBDA, 0, ""),
            ExprP::Literal(AstLiteral::String(_)) => (kind::STRING, 0, ""),
            ExprP::Literal(AstLiteral::Int(_)) => (kind::INT, 0, ""),
            ExprP::Literal(AstLiteral::Float(_)) => (kind::FLOAT, 0, ""),
            ExprP::Literal(AstLiteral::Ellipsis) => (kind::ELLIPSIS, 0, ""),
            ExprP::Literal(AstLiteral::Bytes(_)) => (kind::BYTES, 0, ""),
            ExprP::Not(_) => (kind::NOT, 0, ""),
            ExprP::Minus(_) => (kind::MINUS, 0, ""),
            ExprP::Plus(_) => (kind::PLUS, 0, ""),
            ExprP::BitNot(_) => (kind::BIT_NOT, 0, ""),
            ExprP::Op(_, op, _) => (kind::OP, u8::from(*op == BinOp::BitOr), ""),
            ExprP::If(_) => (kind::IF_EXPRESSION, 0, ""),
            ExprP::List(_) => (kind::LIST, 0, ""),
            ExprP::Dict(_) => (kind::DICT, 0, ""),
            ExprP::ListComprehension(..) => (kind::LIST_COMPREHENSION, 0, ""),
            ExprP::DictComprehension(..) => (kind::DICT_COMPREHENSION, 0, ""),
            ExprP::FString(_) => (kind::FSTRING, 0, ""),
        };
        self.record(kind, detail, name, tree.span, |rows| rows.below_expression(tree));
    }

    fn below_expression(&mut self, tree: &AstExpr) {
        match &tree.node {
            ExprP::Tuple(items) | ExprP::List(items) => self.expressions(items),
            ExprP::Dot(object, _) => self.expression(object),
            ExprP::Call(callee, args) => {
                self.place(Job::Call, tree.span);
                self.expression(callee);
                args.args.iter().for_each(|arg| self.argument(arg));
            }
            ExprP::Index(both) => self.expressions([&both.0, &both.1]),
            ExprP::Index2(three) | ExprP::If(three) => self.expressions([&three.0, &three.1, &three.2]),
            ExprP::Slice(object, start, stop, step) => {
                self.expression(object);
                self.expressions([start, stop, step].into_iter().flatten().map(|part| &**part));
            }
            ExprP::Lambda(it) => {
                self.place(Job::Params, tree.span);
                it.params.iter().for_each(|param| self.parameter(param));
                self.expression(&it.body);
            }
            ExprP::Not(one) | ExprP::Minus(one) | ExprP::Plus(one) | ExprP::BitNot(one) => self.expression(one),
            ExprP::Op(left, _, right) => self.expressions([&**left, &**right]),
            ExprP::Dict(pairs) => self.expressions(pairs.iter().flat_map(|(key, value)| [key, value])),
            ExprP::ListComprehension(body, first, clauses) => {
                self.expression(body);
                self.clauses(first, clauses);
            }
            ExprP::DictComprehension(body, first, clauses) => {
                self.expressions([&body.0, &body.1]);
                self.clauses(first, clauses);
            }
            ExprP::FString(text) => self.expressions(&text.node.expressions),
            ExprP::Identifier(_) | ExprP::Literal(_) => {}
        }
    }

    fn clauses(&mut self, first: &ForClause, clauses: &[Clause]) {
        self.for_clause(first);
        for clause in clauses {
            match clause {
                ClauseP::For(it) => self.for_clause(it),
                ClauseP::If(condition) => self.expression(condition),
            }
        }
    }

    fn for_clause(&mut self, clause: &ForClause) {
        self.target(&clause.var);
        self.expression(&clause.over);
    }
}
