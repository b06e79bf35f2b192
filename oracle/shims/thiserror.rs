//! Stands in for `thiserror`: the error texts are left out.

extern crate proc_macro;
use proc_macro::TokenStream;

#[proc_macro_derive(Error, attributes(error, from))]
pub fn error(_item: TokenStream) -> TokenStream {
    TokenStream::new()
}
