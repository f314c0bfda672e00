//! A stand-in for the crate `rustversion`, so that atoi_simd builds without the network.
//!
//! atoi_simd asks only whether the compiler is at least some release that is long past, so every
//! `since` keeps its item and every `before` drops it; the release itself is not read.

extern crate proc_macro;

use proc_macro::TokenStream;

/// `#[rustversion::since(1.81.0)]`: the item stays.
#[proc_macro_attribute]
pub fn since(_release: TokenStream, item: TokenStream) -> TokenStream {
    item
}

/// `#[rustversion::before(1.81.0)]`: the item goes.
#[proc_macro_attribute]
pub fn before(_release: TokenStream, _item: TokenStream) -> TokenStream {
    TokenStream::new()
}
