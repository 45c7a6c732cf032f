//! A stand-in for the two attributes of the crate `rustversion` that rapidhash's hints.rs names.
//!
//! hints.rs defines `assume` twice, for compilers since 1.81 and for those before. The oracle's manifest
//! asks for 1.81, so the answer is known and no version is looked up. Any other version in an attribute
//! stops the build, because there the answer would be a guess.

use proc_macro::TokenStream;

#[proc_macro_attribute]
pub fn since(version: TokenStream, item: TokenStream) -> TokenStream {
    expect_known(&version);
    item
}

#[proc_macro_attribute]
pub fn before(version: TokenStream, _item: TokenStream) -> TokenStream {
    expect_known(&version);
    TokenStream::new()
}

fn expect_known(version: &TokenStream) {
    assert_eq!(version.to_string(), "1.81", "the stand-in for rustversion knows 1.81 alone");
}
