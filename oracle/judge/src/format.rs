//! The crate's own format text of an f-string's parts.

use model::answer::Answer;
use model::fstring;
use model::fstring::Part;
use model::numbers::number;
use starlark_syntax::codemap::CodeMap;
use starlark_syntax::codemap::Pos;
use starlark_syntax::codemap::Span;
use starlark_syntax::codemap::Spanned;
use starlark_syntax::dialect::Dialect;
use starlark_syntax::lexer::FStringConv;
use starlark_syntax::syntax::ast::ExprP;
use starlark_syntax::syntax::grammar_util::FStringElement;
use starlark_syntax::syntax::module::fstring_from_parts;

use crate::messages;
use crate::trees::Built;
use crate::trees::NotATree;

/// Where the f-string is.
const BEGIN: usize = 3;
const END: usize = 11;

/// What `fstring_from_parts` makes of parts whose texts are UTF-8: the text, and 62 where it adds its one error, at the f-string's span.
pub fn write(words: &[u32], texts: &[u8], dialect: &Dialect) -> Built<Answer> {
    let span = Span::new(Pos::new(BEGIN as u32), Pos::new(END as u32));
    let expression = |conversion| FStringElement::Expr(Spanned { node: ExprP::Tuple(Vec::new()), span }, conversion);
    let parts = fstring::parts_of(words, texts).map_err(|_| NotATree)?;
    let elements: Result<Vec<FStringElement>, NotATree> = parts
        .into_iter()
        .map(|part| {
            Ok(match part {
                Part::Text(text) => FStringElement::Text(Spanned { node: String::from_utf8(text).map_err(|_| NotATree)?, span }),
                Part::None => expression(FStringConv::None),
                Part::Str => expression(FStringConv::Str),
                Part::Repr => expression(FStringConv::Repr),
            })
        })
        .collect();
    let elements = elements?;
    let count = elements.iter().filter(|element| matches!(element, FStringElement::Expr(..))).count();
    let (built, errors) = fstring_from_parts(elements, BEGIN, END, dialect, CodeMap::empty_static());
    assert_eq!((built.span, built.node.format.span), (span, span), "the f-string has the span that was given");
    assert_eq!(built.node.expressions.len(), count, "the expressions are kept");
    let notices: Vec<(u32, Span)> = errors.into_iter().map(messages::number_and_span).collect();
    let notice = match notices.as_slice() {
        [] => 0,
        [(number::F_STRINGS_DISABLED, at)] if *at == span => number::F_STRINGS_DISABLED,
        other => panic!("fstring_from_parts adds other errors: {other:?}"),
    };
    let text = built.node.format.node.into_bytes();
    let length = text.len() as u64;
    Ok(Answer { file: text, notice, ..Answer::accepted(vec![length as u32, (length >> 32) as u32, notice]) })
}
