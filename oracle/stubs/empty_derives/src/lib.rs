//! Derives of crates that Debian does not have. They expand to nothing: what they would add
//! (heap profiles, paging, cheap copies, a lexer) is not used by the checks that are compared.

use proc_macro::TokenStream;

#[proc_macro_derive(Allocative, attributes(allocative))]
pub fn allocative(_item: TokenStream) -> TokenStream {
    TokenStream::new()
}

#[proc_macro_derive(Dupe)]
pub fn dupe(_item: TokenStream) -> TokenStream {
    TokenStream::new()
}

#[proc_macro_derive(Pagable)]
pub fn pagable(_item: TokenStream) -> TokenStream {
    TokenStream::new()
}

#[proc_macro_derive(Logos, attributes(logos, token, regex))]
pub fn logos(_item: TokenStream) -> TokenStream {
    TokenStream::new()
}
