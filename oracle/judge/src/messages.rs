//! The crate's messages as numbers of docs/RULES.md. A message that is not known, or an internal error, stops
//! the run.

use model::numbers::number;
use starlark_syntax::codemap::Span;
use starlark_syntax::eval_exception::EvalException;
use starlark_syntax::syntax::type_expr::TypeExprUnpackError;
use starlark_syntax::ErrorKind;

use crate::marks;
use crate::marks::Mark;

const WHOLE: &[(&str, u32)] = &[
    ("`/` cannot be first parameter", number::SLASH_FIRST),
    ("duplicated parameter name", number::DUPLICATED_PARAMETER),
    ("Parameter after kwargs", number::NORMAL_AFTER_KWARGS),
    ("positional parameter after non positional", number::NO_DEFAULT_AFTER_DEFAULT),
    ("Args parameter after another args or kwargs parameter", number::SECOND_STAR),
    ("Multiple `/` in parameters", number::MULTIPLE_SLASHES),
    ("Multiple kwargs dictionary in parameters", number::MULTIPLE_KWARGS),
    ("`*` parameter must not be last", number::STAR_LAST),
    ("`*` must be followed by named parameter", number::STAR_NOT_FOLLOWED),
    ("positional argument after non positional", number::POSITIONAL_AFTER_NON_POSITIONAL),
    ("named argument after *args or **kwargs", number::NAMED_AFTER_STAR),
    ("repeated named argument", number::REPEATED_NAMED),
    ("Args array after another args or kwargs", number::STAR_AFTER_STAR),
    ("Multiple kwargs dictionary in arguments", number::MULTIPLE_STAR_STAR),
    ("left-hand-side of assignment must take the form `a`, `a.b` or `a[b]`", number::INVALID_LHS),
    ("left-hand-side of modifying assignment cannot be a list or tuple", number::INVALID_MODIFY_LHS),
    ("type annotations not allowed on augmented assignments", number::TYPE_ON_AUGMENTED),
    ("type annotations not allowed on multiple assignments", number::TYPE_ON_TUPLE),
    ("Empty list is not allowed in type expression", number::EMPTY_LIST_IN_TYPE),
    ("Only dot expression of form `ident.ident` is allowed in type expression", number::DOT_IN_TYPE),
    ("Expecting path like `a.b.c`", number::EXPECTING_PATH),
    ("type annotations are not allowed in this dialect", number::TYPES_DISABLED),
    ("* keyword-only-arguments is not allowed in this dialect", number::STAR_NOT_ALLOWED),
    ("/ positional-only-arguments is not allowed in this dialect", number::SLASH_NOT_ALLOWED),
    ("`def` is not allowed in this dialect", number::DEF_NOT_ALLOWED),
    ("`for` cannot be used outside `def` in this dialect", number::TOP_LEVEL_FOR),
    ("`if` cannot be used outside `def` in this dialect", number::TOP_LEVEL_IF),
    ("`break` cannot be used outside of a `for` loop", number::BREAK_MISPLACED),
    ("`continue` cannot be used outside of a `for` loop", number::CONTINUE_MISPLACED),
    ("`return` cannot be used outside of a `def` function", number::RETURN_MISPLACED),
    ("`load` must only occur at the top of a module", number::LOAD_NOT_AT_TOP),
    ("`load` is not allowed in this dialect", number::LOAD_NOT_ALLOWED),
    ("`...` is not allowed in this dialect", number::ELLIPSIS_NOT_ALLOWED),
    ("`lambda` is not allowed in this dialect", number::LAMBDA_NOT_ALLOWED),
    ("Your Starlark dialect must enable f-strings to use them", number::F_STRINGS_DISABLED),
];

/// Messages with a changing part: how they begin, what is in them, the number.
const PARTS: &[(&str, &str, u32)] = &[
    ("`", ".type` is not allowed in type expression, use `", number::DOT_TYPE_BAN),
    ("", " expression is not allowed in type expression", number::INVALID_TYPE),
];

fn number_of(message: &str) -> u32 {
    let whole = WHOLE.iter().find(|(text, _)| *text == message).map(|(_, number)| *number);
    let part = || {
        let fits = |(begin, inside, _): &&(&str, &str, u32)| message.starts_with(begin) && message.contains(inside);
        PARTS.iter().find(fits).map(|(_, _, number)| *number)
    };
    whole.or_else(part).unwrap_or_else(|| panic!("the crate's message is not known: {message}"))
}

/// An error of the crate: its number of docs/RULES.md, and its span.
pub fn number_and_span(error: EvalException) -> (u32, Span) {
    let error = error.into_error();
    if !matches!(error.kind(), ErrorKind::Parser(_) | ErrorKind::Other(_)) {
        panic!("the crate answers an error that is no refusal: {}", error.without_diagnostic());
    }
    let number = number_of(&error.without_diagnostic().to_string());
    let span = error.span().expect("every error of the checks has a span");
    (number, span.span)
}

/// The same on a tree with marks: the record (or its name) that the error is at.
pub fn read(error: EvalException) -> (u32, Mark) {
    let (number, span) = number_and_span(error);
    (number, marks::read(span))
}

pub fn type_number(error: &TypeExprUnpackError) -> u32 {
    match error {
        TypeExprUnpackError::InvalidType(_) => number::INVALID_TYPE,
        TypeExprUnpackError::EmptyListInType => number::EMPTY_LIST_IN_TYPE,
        TypeExprUnpackError::DotInType => number::DOT_IN_TYPE,
        TypeExprUnpackError::ExpectingPath => number::EXPECTING_PATH,
        TypeExprUnpackError::DotTypeBan(_) => number::DOT_TYPE_BAN,
    }
}
