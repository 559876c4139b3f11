//! Stand-in for a file that is not published: its parent names `AstModule`.
//!
//! An added file is inside the crate, so the checks that only the crate may call are opened here.

use crate::codemap::CodeMap;
use crate::codemap::Spanned;
use crate::dialect::Dialect;
use crate::eval_exception::EvalException;
use crate::syntax::ast::AstExpr;
use crate::syntax::ast::AstFString;
use crate::syntax::ast::AstStmt;
use crate::syntax::ast::TypeExpr;
use crate::syntax::grammar_util;
use crate::syntax::state::ParserState;
use crate::syntax::validate;

pub struct AstModule;

/// The errors that `validate_module` adds, in its order.
pub fn validate_module(stmt: &AstStmt, dialect: &Dialect, codemap: &CodeMap) -> Vec<EvalException> {
    let mut errors = Vec::new();
    let mut state = ParserState { dialect, codemap, errors: &mut errors };
    validate::validate_module(stmt, &mut state);
    errors
}

pub fn dialect_check_type(
    expr: AstExpr,
    dialect: &Dialect,
    codemap: &CodeMap,
) -> Result<Spanned<TypeExpr>, EvalException> {
    let mut errors = Vec::new();
    let state = ParserState { dialect, codemap, errors: &mut errors };
    let checked = grammar_util::dialect_check_type(&state, expr);
    assert!(errors.is_empty(), "dialect_check_type answers its error, it adds none");
    checked
}

/// The format text of parts, and the errors that `fstring_from_parts` adds.
pub fn fstring_from_parts(
    parts: Vec<grammar_util::FStringElement>,
    begin: usize,
    end: usize,
    dialect: &Dialect,
    codemap: &CodeMap,
) -> (AstFString, Vec<EvalException>) {
    let mut errors = Vec::new();
    let mut state = ParserState { dialect, codemap, errors: &mut errors };
    let built = grammar_util::fstring_from_parts(parts, begin, end, &mut state);
    (built, errors)
}
