//! Stands in for `strum_macros`: the texts are left out.

extern crate proc_macro;
use proc_macro::TokenStream;

#[proc_macro_derive(Display, attributes(strum))]
pub fn display(_item: TokenStream) -> TokenStream {
    TokenStream::new()
}
