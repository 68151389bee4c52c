//! The derives of the `prost` stub.

use proc_macro::{TokenStream, TokenTree};

/// A message that has no bytes: see `prost::Message`.
#[proc_macro_derive(Message, attributes(prost))]
pub fn message(item: TokenStream) -> TokenStream {
    let (name, _) = name_and_body(item);
    parsed(format!("impl ::prost::Message for {name} {{}}"))
}

#[proc_macro_derive(Oneof, attributes(prost))]
pub fn oneof(_item: TokenStream) -> TokenStream {
    TokenStream::new()
}

/// `TryFrom<i32>` over the variants, whose discriminants are literals.
#[proc_macro_derive(Enumeration, attributes(prost))]
pub fn enumeration(item: TokenStream) -> TokenStream {
    let (name, body) = name_and_body(item);
    let mut arms = String::new();
    let mut variant = String::new();
    for token in body {
        match token {
            TokenTree::Ident(word) => variant = word.to_string(),
            TokenTree::Literal(number) => {
                arms.push_str(&format!("{number} => Ok({name}::{variant}),\n"));
            }
            _ => {}
        }
    }
    parsed(format!(
        "impl ::core::convert::TryFrom<i32> for {name} {{
            type Error = i32;
            fn try_from(number: i32) -> ::core::result::Result<Self, i32> {{
                match number {{ {arms} other => Err(other) }}
            }}
        }}"
    ))
}

fn parsed(text: String) -> TokenStream {
    text.parse().expect("an impl block")
}

/// The word after `struct` or `enum`, and the tokens between the braces after it.
fn name_and_body(item: TokenStream) -> (String, TokenStream) {
    let mut after_keyword = false;
    let mut name = None;
    for token in item {
        match token {
            TokenTree::Ident(word) if name.is_none() => {
                let word = word.to_string();
                if after_keyword {
                    name = Some(word);
                } else {
                    after_keyword = word == "struct" || word == "enum";
                }
            }
            TokenTree::Group(group) => {
                if let Some(name) = name {
                    return (name, group.stream());
                }
            }
            _ => {}
        }
    }
    (
        name.expect("a derive stands on a struct or an enum"),
        TokenStream::new(),
    )
}
