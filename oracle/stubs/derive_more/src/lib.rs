//! Stub: `Display` alone, for the three forms that the crate derives it on: a struct with
//! `#[display(format, arguments)]`, a struct of one field, an enum whose variants hold one field.

use proc_macro::Delimiter;
use proc_macro::Group;
use proc_macro::TokenStream;
use proc_macro::TokenTree;

#[proc_macro_derive(Display, attributes(display))]
pub fn display(item: TokenStream) -> TokenStream {
    let item = Item::read(item);
    let body = match (&item.format, item.is_enum) {
        (Some(format), _) => formatted(format, &item.body),
        (None, false) => "::std::fmt::Display::fmt(&self.0, f)".to_owned(),
        (None, true) => each_variant(&item.body),
    };
    format!(
        "impl ::std::fmt::Display for {} {{
            fn fmt(&self, f: &mut ::std::fmt::Formatter<'_>) -> ::std::fmt::Result {{ {body} }}
        }}",
        item.name
    )
    .parse()
    .expect("the derived text is Rust")
}

struct Item {
    name: String,
    is_enum: bool,
    format: Option<TokenStream>,
    body: Vec<TokenTree>,
}

impl Item {
    fn read(item: TokenStream) -> Item {
        let tokens: Vec<TokenTree> = item.into_iter().collect();
        let keyword = tokens
            .iter()
            .position(|t| matches!(t.to_string().as_str(), "struct" | "enum"))
            .expect("a struct or an enum");
        let body = tokens[keyword + 2..].iter().find_map(group).expect("a body");
        Item {
            name: tokens[keyword + 1].to_string(),
            is_enum: tokens[keyword].to_string() == "enum",
            format: tokens.iter().filter_map(group).find_map(|g| display_attribute(&g)),
            body: body.stream().into_iter().collect(),
        }
    }
}

fn group(token: &TokenTree) -> Option<Group> {
    match token {
        TokenTree::Group(group) => Some(group.clone()),
        _ => None,
    }
}

/// What is in the brackets of `[display(...)]`.
fn display_attribute(attribute: &Group) -> Option<TokenStream> {
    let mut tokens = attribute.stream().into_iter();
    let is_display = tokens.next().is_some_and(|t| t.to_string() == "display");
    let arguments = tokens.next();
    match (attribute.delimiter(), is_display, arguments) {
        (Delimiter::Bracket, true, Some(TokenTree::Group(g))) => Some(g.stream()),
        _ => None,
    }
}

/// `write!` with every field bound to its name.
fn formatted(format: &TokenStream, body: &[TokenTree]) -> String {
    let fields = words_before(body, ':');
    format!(
        "#[allow(unused_variables)] let Self {{ {} }} = self; write!(f, {format})",
        fields.join(", ")
    )
}

/// A `match` that shows the one field of each variant.
fn each_variant(body: &[TokenTree]) -> String {
    let arms = body
        .windows(2)
        .filter(|pair| matches!(&pair[1], TokenTree::Group(g) if g.delimiter() == Delimiter::Parenthesis))
        .map(|pair| format!("Self::{}(x) => ::std::fmt::Display::fmt(x, f),", pair[0]));
    format!("match self {{ {} }}", arms.collect::<String>())
}

/// The words that are before a sign, as field names before a colon.
fn words_before(body: &[TokenTree], sign: char) -> Vec<String> {
    body.windows(2)
        .filter(|pair| matches!(&pair[1], TokenTree::Punct(p) if p.as_char() == sign))
        .filter(|pair| matches!(&pair[0], TokenTree::Ident(_)))
        .map(|pair| pair[0].to_string())
        .collect()
}
