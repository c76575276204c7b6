//! Stand-in for `thiserror`: derives `Display` and `Error`; the texts given with `#[error(..)]` are not used.

use proc_macro::{TokenStream, TokenTree};

/// Implements `Display` (as the `Debug` text) and `std::error::Error`.
#[proc_macro_derive(Error, attributes(error, from, source))]
pub fn derive_error(item: TokenStream) -> TokenStream {
    let name = type_name(item);
    format!(
        "impl ::core::fmt::Display for {name} {{
            fn fmt(&self, f: &mut ::core::fmt::Formatter<'_>) -> ::core::fmt::Result {{
                ::core::fmt::Debug::fmt(self, f)
            }}
        }}
        impl ::std::error::Error for {name} {{}}"
    )
    .parse()
    .expect("the generated code is well formed")
}

/// The identifier behind `enum` or `struct`.
fn type_name(item: TokenStream) -> String {
    let mut words = item.into_iter().filter_map(|token| match token {
        TokenTree::Ident(word) => Some(word.to_string()),
        TokenTree::Group(_) | TokenTree::Punct(_) | TokenTree::Literal(_) => None,
    });
    words
        .by_ref()
        .find(|word| word == "enum" || word == "struct")
        .expect("derive(Error) stands on an enum or a struct");
    words.next().expect("the type has a name")
}
