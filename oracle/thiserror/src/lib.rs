//! Stands in for `thiserror`: the text derives `Error` for its words alone, which no comparison reads, so the derive writes nothing.
use proc_macro::TokenStream;

#[proc_macro_derive(Error, attributes(error))]
pub fn error(_: TokenStream) -> TokenStream {
    TokenStream::new()
}
