//! Stands in for the crate `thiserror`: accepts the derive and its attributes and writes nothing. The two conversions that
//! the original uses stand in original/src/lib.rs; the texts of errors are not compared.

use proc_macro::TokenStream;

#[proc_macro_derive(Error, attributes(error, from, source))]
pub fn error(_: TokenStream) -> TokenStream {
    TokenStream::new()
}
