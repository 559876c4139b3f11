//! Stand-in for a file that is not published: the visits that `validate_module` leans on.
//!
//! `visit_stmt` visits the statements directly below. `visit_expr` visits the expressions directly below an
//! expression, and below a statement those of all statements in it. The order is that of the node table,
//! so the order of the crate's expression errors is not known from here.

use crate::syntax::ast::ArgumentP;
use crate::syntax::ast::AssignTargetP;
use crate::syntax::ast::AstArgumentP;
use crate::syntax::ast::AstAssignTargetP;
use crate::syntax::ast::AstExprP;
use crate::syntax::ast::AstParameterP;
use crate::syntax::ast::AstPayload;
use crate::syntax::ast::AstStmtP;
use crate::syntax::ast::AstTypeExprP;
use crate::syntax::ast::ClauseP;
use crate::syntax::ast::ExprP;
use crate::syntax::ast::ForClauseP;
use crate::syntax::ast::ParameterP;
use crate::syntax::ast::StmtP;

/// What is called for each expression that is found.
type See<'s, 'a, P> = &'s mut dyn FnMut(&'a AstExprP<P>);

impl<P: AstPayload> StmtP<P> {
    pub fn visit_stmt<'a>(&'a self, mut see: impl FnMut(&'a AstStmtP<P>)) {
        match self {
            StmtP::Statements(all) => all.iter().for_each(see),
            StmtP::If(_, body) => see(body),
            StmtP::IfElse(_, bodies) => {
                see(&bodies.0);
                see(&bodies.1);
            }
            StmtP::For(it) => see(&it.body),
            StmtP::Def(it) => see(&it.body),
            StmtP::Break
            | StmtP::Continue
            | StmtP::Pass
            | StmtP::Return(_)
            | StmtP::Expression(_)
            | StmtP::Assign(_)
            | StmtP::AssignModify(..)
            | StmtP::Load(_) => {}
        }
    }

    pub fn visit_expr<'a>(&'a self, mut see: impl FnMut(&'a AstExprP<P>)) {
        self.own_exprs(&mut see)
    }

    fn own_exprs<'a>(&'a self, see: See<'_, 'a, P>) {
        match self {
            StmtP::Return(value) => value.iter().for_each(&mut *see),
            StmtP::Expression(value) => see(value),
            StmtP::Assign(it) => {
                target(&it.lhs, see);
                it.ty.iter().for_each(|ty| type_expr(ty, see));
                see(&it.rhs);
            }
            StmtP::AssignModify(lhs, _, rhs) => {
                target(lhs, see);
                see(rhs);
            }
            StmtP::If(condition, _) | StmtP::IfElse(condition, _) => see(condition),
            StmtP::For(it) => {
                target(&it.var, see);
                see(&it.over);
            }
            StmtP::Def(it) => {
                parameters(&it.params, see);
                it.return_type.iter().for_each(|ty| type_expr(ty, see));
            }
            StmtP::Statements(_)
            | StmtP::Break
            | StmtP::Continue
            | StmtP::Pass
            | StmtP::Load(_) => {}
        }
        // A statement's own expressions are before its inner statements.
        self.visit_stmt(|inner| inner.node.own_exprs(see));
    }
}

impl<P: AstPayload> ExprP<P> {
    pub fn visit_expr<'a>(&'a self, mut see: impl FnMut(&'a AstExprP<P>)) {
        self.inner_exprs(&mut see)
    }

    fn inner_exprs<'a>(&'a self, see: See<'_, 'a, P>) {
        match self {
            ExprP::Tuple(all) | ExprP::List(all) => all.iter().for_each(see),
            ExprP::Dot(object, _) => see(object),
            ExprP::Call(callee, args) => {
                see(callee);
                args.args.iter().for_each(|arg| see(argument(arg)));
            }
            ExprP::Index(both) => {
                see(&both.0);
                see(&both.1);
            }
            ExprP::Index2(three) | ExprP::If(three) => {
                see(&three.0);
                see(&three.1);
                see(&three.2);
            }
            ExprP::Slice(object, start, stop, step) => {
                see(object);
                [start, stop, step].into_iter().flatten().for_each(|part| see(part));
            }
            ExprP::Lambda(it) => {
                parameters(&it.params, see);
                see(&it.body);
            }
            ExprP::Not(one) | ExprP::Minus(one) | ExprP::Plus(one) | ExprP::BitNot(one) => see(one),
            ExprP::Op(left, _, right) => {
                see(left);
                see(right);
            }
            ExprP::Dict(pairs) => pairs.iter().for_each(|(key, value)| {
                see(key);
                see(value);
            }),
            ExprP::ListComprehension(body, first, clauses) => {
                see(body);
                comprehension(first, clauses, see);
            }
            ExprP::DictComprehension(body, first, clauses) => {
                see(&body.0);
                see(&body.1);
                comprehension(first, clauses, see);
            }
            ExprP::FString(text) => text.node.expressions.iter().for_each(see),
            ExprP::Identifier(_) | ExprP::Literal(_) => {}
        }
    }
}

fn argument<P: AstPayload>(arg: &AstArgumentP<P>) -> &AstExprP<P> {
    match &arg.node {
        ArgumentP::Positional(value)
        | ArgumentP::Named(_, value)
        | ArgumentP::Args(value)
        | ArgumentP::KwArgs(value) => value,
    }
}

fn parameters<'a, P: AstPayload>(all: &'a [AstParameterP<P>], see: See<'_, 'a, P>) {
    for parameter in all {
        match &parameter.node {
            ParameterP::Normal(_, ty, default) => {
                ty.iter().for_each(|ty| type_expr(ty, see));
                default.iter().for_each(|value| see(value));
            }
            ParameterP::Args(_, ty) | ParameterP::KwArgs(_, ty) => {
                ty.iter().for_each(|ty| type_expr(ty, see))
            }
            ParameterP::NoArgs | ParameterP::Slash => {}
        }
    }
}

fn type_expr<'a, P: AstPayload>(ty: &'a AstTypeExprP<P>, see: See<'_, 'a, P>) {
    see(&ty.node.expr)
}

fn comprehension<'a, P: AstPayload>(
    first: &'a ForClauseP<P>,
    clauses: &'a [ClauseP<P>],
    see: See<'_, 'a, P>,
) {
    for_clause(first, see);
    for clause in clauses {
        match clause {
            ClauseP::For(it) => for_clause(it, see),
            ClauseP::If(condition) => see(condition),
        }
    }
}

fn for_clause<'a, P: AstPayload>(clause: &'a ForClauseP<P>, see: See<'_, 'a, P>) {
    target(&clause.var, see);
    see(&clause.over);
}

fn target<'a, P: AstPayload>(it: &'a AstAssignTargetP<P>, see: See<'_, 'a, P>) {
    match &it.node {
        AssignTargetP::Tuple(all) => all.iter().for_each(|inner| target(inner, see)),
        AssignTargetP::Dot(object, _) => see(object),
        AssignTargetP::Index(both) => {
            see(&both.0);
            see(&both.1);
        }
        AssignTargetP::Identifier(_) => {}
    }
}
