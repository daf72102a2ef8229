//! `#[derive(Snafu)]` and its `#[snafu(..)]` attributes, accepted and left without effect.
use proc_macro::TokenStream;

#[proc_macro_derive(Snafu, attributes(snafu))]
pub fn snafu(_: TokenStream) -> TokenStream {
    TokenStream::new()
}
