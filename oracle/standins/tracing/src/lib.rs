//! Stand-in for the crate `tracing`: logging that says nothing.

use proc_macro::TokenStream;

#[proc_macro]
pub fn debug(_: TokenStream) -> TokenStream {
    "()".parse().unwrap()
}

#[proc_macro]
pub fn trace(_: TokenStream) -> TokenStream {
    "()".parse().unwrap()
}

#[proc_macro_attribute]
pub fn instrument(_: TokenStream, item: TokenStream) -> TokenStream {
    item
}
