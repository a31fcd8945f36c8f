//! Shim for the crate `visibility`, whose attribute stands on one function of opb.rs. It leaves that function as it is and puts probe.rs beside it: so opb.rs is built without a byte changed and yet
//! its private functions can be called.

use proc_macro::TokenStream;

#[proc_macro_attribute]
pub fn make(_visibility: TokenStream, item: TokenStream) -> TokenStream {
    let probe: TokenStream = include_str!("probe.rs").parse().expect("probe.rs is Rust");
    item.into_iter().chain(probe).collect()
}
