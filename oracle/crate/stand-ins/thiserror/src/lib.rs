//! A derive that adds nothing: the error texts are never printed.
extern crate proc_macro;
#[proc_macro_derive(Error, attributes(error))]
pub fn error(_: proc_macro::TokenStream) -> proc_macro::TokenStream {
    proc_macro::TokenStream::new()
}
