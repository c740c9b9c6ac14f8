//! Stand-in for thiserror: the derive writes nothing, since no error is printed here.
extern crate proc_macro;
use proc_macro::TokenStream;

#[proc_macro_derive(Error, attributes(error))]
pub fn error(_: TokenStream) -> TokenStream {
    TokenStream::new()
}
