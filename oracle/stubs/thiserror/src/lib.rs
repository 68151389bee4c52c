//! Stands in for `thiserror`: an error's text is its `Debug` form.

use proc_macro::{TokenStream, TokenTree};

#[proc_macro_derive(Error, attributes(error, source, from))]
pub fn error(item: TokenStream) -> TokenStream {
    let name = item_name(item);
    format!(
        "impl ::core::fmt::Display for {name} {{
            fn fmt(&self, out: &mut ::core::fmt::Formatter<'_>) -> ::core::fmt::Result {{
                ::core::fmt::Debug::fmt(self, out)
            }}
        }}
        impl ::std::error::Error for {name} {{}}"
    )
    .parse()
    .expect("two impl blocks")
}

/// The word after `struct` or `enum`.
fn item_name(item: TokenStream) -> String {
    let mut after_keyword = false;
    for token in item {
        if let TokenTree::Ident(word) = token {
            let word = word.to_string();
            if after_keyword {
                return word;
            }
            after_keyword = word == "struct" || word == "enum";
        }
    }
    panic!("a derive stands on a struct or an enum")
}
