//! Derives that yield nothing: garbage collection is no part of the oracle.
use proc_macro::TokenStream;

#[proc_macro_derive(Trace, attributes(boa_gc))]
pub fn trace(_: TokenStream) -> TokenStream {
    TokenStream::new()
}

#[proc_macro_derive(Finalize)]
pub fn finalize(_: TokenStream) -> TokenStream {
    TokenStream::new()
}

#[proc_macro_derive(JsData)]
pub fn js_data(_: TokenStream) -> TokenStream {
    TokenStream::new()
}
