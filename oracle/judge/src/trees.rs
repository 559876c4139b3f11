//! Sound tables as the crate's trees.

use model::answer;
use model::numbers::kind;
use model::params::MOST_ENTRIES;
use model::table::normal_parts;
use model::table::Class;
use model::table::Table;
use starlark_syntax::codemap::CodeMap;
use starlark_syntax::codemap::Pos;
use starlark_syntax::codemap::Span;
use starlark_syntax::codemap::Spanned;
use starlark_syntax::lexer::TokenInt;
use starlark_syntax::syntax::ast::ArgumentP;
use starlark_syntax::syntax::ast::AssignIdentP;
use starlark_syntax::syntax::ast::AssignOp;
use starlark_syntax::syntax::ast::AssignP;
use starlark_syntax::syntax::ast::AstArgument;
use starlark_syntax::syntax::ast::AstAssignIdent;
use starlark_syntax::syntax::ast::AstAssignTarget;
use starlark_syntax::syntax::ast::AstExpr;
use starlark_syntax::syntax::ast::AstLiteral;
use starlark_syntax::syntax::ast::AstParameter;
use starlark_syntax::syntax::ast::AstStmt;
use starlark_syntax::syntax::ast::AstString;
use starlark_syntax::syntax::ast::AstTypeExpr;
use starlark_syntax::syntax::ast::BinOp;
use starlark_syntax::syntax::ast::CallArgsP;
use starlark_syntax::syntax::ast::Clause;
use starlark_syntax::syntax::ast::ClauseP;
use starlark_syntax::syntax::ast::DefP;
use starlark_syntax::syntax::ast::Expr;
use starlark_syntax::syntax::ast::ExprP;
use starlark_syntax::syntax::ast::FStringP;
use starlark_syntax::syntax::ast::ForClause;
use starlark_syntax::syntax::ast::ForClauseP;
use starlark_syntax::syntax::ast::ForP;
use starlark_syntax::syntax::ast::IdentP;
use starlark_syntax::syntax::ast::LambdaP;
use starlark_syntax::syntax::ast::LoadP;
use starlark_syntax::syntax::ast::Parameter;
use starlark_syntax::syntax::ast::ParameterP;
use starlark_syntax::syntax::ast::Stmt;
use starlark_syntax::syntax::ast::StmtP;
use starlark_syntax::syntax::ast::TypeExprP;
use starlark_syntax::syntax::grammar_util::check_assign;

use crate::marks;

/// This part of the table is not a tree of the crate.
#[derive(Clone, Copy, Debug, PartialEq, Eq)]
pub struct NotATree;

pub type Built<T> = Result<T, NotATree>;

/// Which spans a tree has.
#[derive(Clone, Copy, Debug, PartialEq, Eq)]
pub enum Spans {
    /// One of its own for each record, to identify it.
    Marks,
    /// Those of the table.
    Table,
}

pub struct Trees<'a, 'n> {
    pub table: &'a Table<'n>,
    pub spans: Spans,
}

/// Operators that are not `|`; which one is in a tree does not matter.
const OTHER_OPS: [BinOp; 20] = [
    BinOp::Or,
    BinOp::And,
    BinOp::Equal,
    BinOp::NotEqual,
    BinOp::Less,
    BinOp::Greater,
    BinOp::LessOrEqual,
    BinOp::GreaterOrEqual,
    BinOp::In,
    BinOp::NotIn,
    BinOp::Subtract,
    BinOp::Add,
    BinOp::Multiply,
    BinOp::Percent,
    BinOp::Divide,
    BinOp::FloorDivide,
    BinOp::BitAnd,
    BinOp::BitXor,
    BinOp::LeftShift,
    BinOp::RightShift,
];

const ASSIGN_OPS: [AssignOp; 11] = [
    AssignOp::Add,
    AssignOp::Subtract,
    AssignOp::Multiply,
    AssignOp::Divide,
    AssignOp::FloorDivide,
    AssignOp::Percent,
    AssignOp::BitAnd,
    AssignOp::BitOr,
    AssignOp::BitXor,
    AssignOp::LeftShift,
    AssignOp::RightShift,
];

pub fn assign_op(node: usize) -> AssignOp {
    ASSIGN_OPS[node % ASSIGN_OPS.len()]
}

fn inner<T>(node: usize, value: T) -> Spanned<T> {
    Spanned { span: marks::inner(node), node: value }
}

/// The crate's spans have no file.
fn span(of_table: answer::Span) -> Span {
    Span::new(Pos::new(of_table.begin), Pos::new(of_table.end))
}

impl Trees<'_, '_> {
    fn spanned<T>(&self, node: usize, value: T) -> Spanned<T> {
        let span = match self.spans {
            Spans::Marks => marks::node(node),
            Spans::Table => span(self.table.span(node)),
        };
        Spanned { span, node: value }
    }

    fn argument_name(&self, node: usize) -> Built<AstString> {
        let span = match self.spans {
            Spans::Marks => marks::name(node),
            Spans::Table => span(self.table.records[node].name_span()),
        };
        Ok(Spanned { span, node: self.name(node)? })
    }

    fn kids(&self, node: usize) -> Vec<usize> {
        self.table.children(node).collect()
    }

    /// The crate's names are text.
    fn name(&self, node: usize) -> Built<String> {
        let bytes = self.table.name(node).to_vec();
        String::from_utf8(bytes).map_err(|_| NotATree)
    }

    fn field(&self, node: usize) -> Built<AstString> {
        Ok(inner(node, self.name(node)?))
    }

    fn assign_ident(&self, node: usize) -> Built<AstAssignIdent> {
        Ok(inner(node, AssignIdentP { ident: self.name(node)?, payload: () }))
    }

    pub fn statement(&self, node: usize) -> Built<AstStmt> {
        Ok(self.spanned(node, self.statement_node(node)?))
    }

    fn boxed_statement(&self, node: usize) -> Built<Box<AstStmt>> {
        self.statement(node).map(Box::new)
    }

    fn statement_node(&self, node: usize) -> Built<Stmt> {
        let kids = self.kids(node);
        Ok(match self.table.kind(node) {
            kind::STATEMENTS => StmtP::Statements(self.all(&kids, Self::statement)?),
            kind::DEF => self.def(node)?,
            kind::FOR => StmtP::For(ForP {
                var: self.target(kids[0])?,
                over: self.expression(kids[1])?,
                body: self.boxed_statement(kids[2])?,
            }),
            kind::IF_STATEMENT => StmtP::If(self.expression(kids[0])?, self.boxed_statement(kids[1])?),
            kind::IF_ELSE => {
                let bodies = (self.statement(kids[1])?, self.statement(kids[2])?);
                StmtP::IfElse(self.expression(kids[0])?, Box::new(bodies))
            }
            kind::BREAK => StmtP::Break,
            kind::CONTINUE => StmtP::Continue,
            kind::RETURN => StmtP::Return(kids.first().map(|&value| self.expression(value)).transpose()?),
            kind::LOAD => StmtP::Load(LoadP {
                module: inner(node, String::new()),
                args: Vec::new(),
                payload: (),
            }),
            kind::SIMPLE => self.simple(&kids)?,
            kind::ASSIGN => self.assign(node, &kids)?,
            _ => self.assign_modify(node, &kids)?,
        })
    }

    fn all<T>(&self, nodes: &[usize], each: impl Fn(&Self, usize) -> Built<T>) -> Built<Vec<T>> {
        nodes.iter().map(|&node| each(self, node)).collect()
    }

    fn def(&self, node: usize) -> Built<Stmt> {
        let mut rest = self.table.children(node).skip(self.parameter_nodes(node).len());
        let mut next = || rest.next().expect("a sound Def has a body");
        let return_type = match self.table.records[node].detail {
            1 => Some(Box::new(self.type_expression(next())?)),
            _ => None,
        };
        Ok(StmtP::Def(DefP {
            name: inner(node, AssignIdentP { ident: "f".to_owned(), payload: () }),
            params: self.parameters(node)?,
            return_type,
            body: self.boxed_statement(next())?,
            payload: (),
        }))
    }

    /// The crate's simple statements have no expression, or one.
    fn simple(&self, kids: &[usize]) -> Built<Stmt> {
        match kids {
            [] => Ok(StmtP::Pass),
            [value] => Ok(StmtP::Expression(self.expression(*value)?)),
            _ => Err(NotATree),
        }
    }

    fn assign(&self, node: usize, kids: &[usize]) -> Built<Stmt> {
        Ok(StmtP::Assign(AssignP {
            lhs: self.target(kids[0])?,
            ty: self.assigned_type(node)?,
            rhs: self.expression(kids[kids.len() - 1])?,
        }))
    }

    /// The crate's modifying assignment has no type.
    fn assign_modify(&self, node: usize, kids: &[usize]) -> Built<Stmt> {
        match kids {
            [lhs, rhs] => {
                let rhs = Box::new(self.expression(*rhs)?);
                Ok(StmtP::AssignModify(self.target(*lhs)?, assign_op(node), rhs))
            }
            _ => Err(NotATree),
        }
    }

    /// The type that an assignment is written with, if any.
    pub fn assigned_type(&self, node: usize) -> Built<Option<AstTypeExpr>> {
        match self.table.records[node].detail {
            1 => self.type_expression(self.table.child(node, 1)).map(Some),
            _ => Ok(None),
        }
    }

    fn type_expression(&self, node: usize) -> Built<AstTypeExpr> {
        let expr = self.expression(node)?;
        Ok(self.spanned(node, TypeExprP { expr, payload: () }))
    }

    /// Only what the crate's own rule takes as a target can be in its trees as one.
    fn target(&self, node: usize) -> Built<AstAssignTarget> {
        check_assign(CodeMap::empty_static(), self.expression(node)?).map_err(|_| NotATree)
    }

    fn parameter_nodes(&self, owner: usize) -> Vec<usize> {
        self.table.children_of(owner, Class::Parameter).collect()
    }

    /// A list with more than 48 entries is not given to the crate, which has no such limit.
    pub fn parameters(&self, owner: usize) -> Built<Vec<AstParameter>> {
        let nodes = self.parameter_nodes(owner);
        if nodes.len() > MOST_ENTRIES {
            return Err(NotATree);
        }
        self.all(&nodes, Self::parameter)
    }

    fn parameter(&self, node: usize) -> Built<AstParameter> {
        Ok(self.spanned(node, self.parameter_node(node)?))
    }

    fn parameter_node(&self, node: usize) -> Built<Parameter> {
        let record = &self.table.records[node];
        let mut kids = self.table.children(node);
        let (mut has_type, mut has_default) = (record.detail == 1, false);
        if record.kind == kind::NORMAL {
            (has_type, has_default) = normal_parts(record.detail);
        }
        let mut next = |has: bool| has.then(|| kids.next().expect("a sound parameter has this child"));
        let ty = next(has_type).map(|ty| self.type_expression(ty).map(Box::new)).transpose()?;
        let default = next(has_default).map(|value| self.boxed(value)).transpose()?;
        Ok(match record.kind {
            kind::NORMAL => ParameterP::Normal(self.assign_ident(node)?, ty, default),
            kind::NO_ARGS => ParameterP::NoArgs,
            kind::SLASH => ParameterP::Slash,
            kind::ARGS => ParameterP::Args(self.assign_ident(node)?, ty),
            _ => ParameterP::KwArgs(self.assign_ident(node)?, ty),
        })
    }

    pub fn arguments(&self, call: usize) -> Built<Vec<AstArgument>> {
        let nodes: Vec<usize> = self.table.children_of(call, Class::Argument).collect();
        self.all(&nodes, Self::argument)
    }

    fn argument(&self, node: usize) -> Built<AstArgument> {
        let value = self.expression(self.table.child(node, 0))?;
        let argument = match self.table.kind(node) {
            kind::POSITIONAL => ArgumentP::Positional(value),
            kind::NAMED => ArgumentP::Named(self.argument_name(node)?, value),
            kind::STAR_ARGUMENT => ArgumentP::Args(value),
            _ => ArgumentP::KwArgs(value),
        };
        Ok(self.spanned(node, argument))
    }

    pub fn expression(&self, node: usize) -> Built<AstExpr> {
        Ok(self.spanned(node, self.expression_node(node)?))
    }

    fn boxed(&self, node: usize) -> Built<Box<AstExpr>> {
        self.expression(node).map(Box::new)
    }

    fn expressions(&self, nodes: &[usize]) -> Built<Vec<AstExpr>> {
        self.all(nodes, Self::expression)
    }

    fn pair(&self, nodes: &[usize]) -> Built<(AstExpr, AstExpr)> {
        Ok((self.expression(nodes[0])?, self.expression(nodes[1])?))
    }

    fn triple(&self, nodes: &[usize]) -> Built<Box<(AstExpr, AstExpr, AstExpr)>> {
        let (first, second) = self.pair(nodes)?;
        Ok(Box::new((first, second, self.expression(nodes[2])?)))
    }

    fn expression_node(&self, node: usize) -> Built<Expr> {
        let kids = self.kids(node);
        Ok(match self.table.kind(node) {
            kind::TUPLE => ExprP::Tuple(self.expressions(&kids)?),
            kind::DOT => ExprP::Dot(self.boxed(kids[0])?, self.field(node)?),
            kind::CALL => {
                ExprP::Call(self.boxed(kids[0])?, CallArgsP { args: self.arguments(node)? })
            }
            kind::INDEX => ExprP::Index(Box::new(self.pair(&kids)?)),
            kind::INDEX2 => ExprP::Index2(self.triple(&kids)?),
            kind::SLICE => {
                let part = |at: usize| kids.get(at).map(|&kid| self.boxed(kid)).transpose();
                ExprP::Slice(self.boxed(kids[0])?, part(1)?, part(2)?, part(3)?)
            }
            kind::IDENTIFIER => {
                ExprP::Identifier(inner(node, IdentP { ident: self.name(node)?, payload: () }))
            }
            kind::LAMBDA => ExprP::Lambda(LambdaP {
                params: self.parameters(node)?,
                body: self.boxed(kids[kids.len() - 1])?,
                payload: (),
            }),
            kind::STRING..=kind::BYTES => ExprP::Literal(self.literal(node)),
            kind::NOT => ExprP::Not(self.boxed(kids[0])?),
            kind::MINUS => ExprP::Minus(self.boxed(kids[0])?),
            kind::PLUS => ExprP::Plus(self.boxed(kids[0])?),
            kind::BIT_NOT => ExprP::BitNot(self.boxed(kids[0])?),
            kind::OP => ExprP::Op(self.boxed(kids[0])?, self.bin_op(node), self.boxed(kids[1])?),
            kind::IF_EXPRESSION => ExprP::If(self.triple(&kids)?),
            kind::LIST => ExprP::List(self.expressions(&kids)?),
            kind::DICT => {
                ExprP::Dict(kids.chunks(2).map(|pair| self.pair(pair)).collect::<Built<_>>()?)
            }
            kind::LIST_COMPREHENSION => {
                let (first, clauses) = self.clauses(&kids[1..])?;
                ExprP::ListComprehension(self.boxed(kids[0])?, Box::new(first), clauses)
            }
            kind::DICT_COMPREHENSION => {
                let (first, clauses) = self.clauses(&kids[2..])?;
                ExprP::DictComprehension(Box::new(self.pair(&kids)?), Box::new(first), clauses)
            }
            _ => ExprP::FString(inner(
                node,
                FStringP { format: inner(node, String::new()), expressions: self.expressions(&kids)? },
            )),
        })
    }

    fn literal(&self, node: usize) -> AstLiteral {
        match self.table.kind(node) {
            kind::STRING => AstLiteral::String(inner(node, "s".to_owned())),
            kind::INT => AstLiteral::Int(inner(node, TokenInt::I32(node as i32))),
            kind::FLOAT => AstLiteral::Float(inner(node, 0.5)),
            kind::ELLIPSIS => AstLiteral::Ellipsis,
            _ => AstLiteral::Bytes(inner(node, vec![0xff])),
        }
    }

    fn bin_op(&self, node: usize) -> BinOp {
        match self.table.records[node].detail {
            1 => BinOp::BitOr,
            _ => OTHER_OPS[node % OTHER_OPS.len()],
        }
    }

    /// A first `for`, then clauses: a target and what follows it as a `for` where that can be and the node is
    /// even, else a condition. The format leaves it open, and no answer depends on it.
    fn clauses(&self, nodes: &[usize]) -> Built<(ForClause, Vec<Clause>)> {
        let [var, over, rest @ ..] = nodes else { return Err(NotATree) };
        let first = ForClauseP { var: self.target(*var)?, over: self.expression(*over)? };
        let mut clauses = Vec::new();
        let mut rest = rest;
        while let [node, after @ ..] = rest {
            rest = match (after, self.target(*node)) {
                ([over, after @ ..], Ok(var)) if node % 2 == 0 => {
                    clauses.push(ClauseP::For(ForClauseP { var, over: self.expression(*over)? }));
                    after
                }
                _ => {
                    clauses.push(ClauseP::If(self.expression(*node)?));
                    after
                }
            };
        }
        Ok((first, clauses))
    }
}
