//! Stands in for the crate `thiserror`: a derive that gives Display and Error to a unit struct or to
//! an enum of unit variants, each with its `#[error("text")]`.

use proc_macro::{Delimiter, TokenStream, TokenTree};

/// A name and the text that its `error` attribute gives.
struct Named {
    name: String,
    text: Option<String>,
}

#[proc_macro_derive(Error, attributes(error))]
pub fn derive_error(item: TokenStream) -> TokenStream {
    let tokens: Vec<TokenTree> = item.into_iter().collect();
    let is_enum = tokens.iter().any(|token| is_word(token, "enum"));
    let keyword = if is_enum { "enum" } else { "struct" };
    let at = tokens.iter().position(|token| is_word(token, keyword));
    let at = at.expect("the derive stands on a struct or an enum");
    let name = tokens[at + 1].to_string();
    let arms = if is_enum {
        let body = tokens
            .iter()
            .rev()
            .find_map(braces)
            .expect("an enum has a body");
        names(body)
            .iter()
            .map(|v| arm(&format!("Self::{}", v.name), v))
            .collect()
    } else {
        let text = tokens.iter().find_map(error_text);
        arm(
            "Self",
            &Named {
                name: name.clone(),
                text,
            },
        )
    };
    implementation(&name, &arms)
}

fn implementation(name: &str, arms: &str) -> TokenStream {
    let code = format!(
        "impl ::core::fmt::Display for {name} {{
            fn fmt(&self, f: &mut ::core::fmt::Formatter<'_>) -> ::core::fmt::Result {{
                f.write_str(match self {{ {arms} }})
            }}
        }}
        impl ::core::error::Error for {name} {{}}"
    );
    code.parse().expect("the derived code is Rust")
}

fn arm(pattern: &str, named: &Named) -> String {
    let text = named.text.as_ref();
    let text = text.unwrap_or_else(|| panic!("{} has no error text", named.name));
    format!("{pattern} => {text},")
}

/// The variants of an enum's body with their texts.
fn names(body: TokenStream) -> Vec<Named> {
    let mut found = Vec::new();
    let mut text = None;
    for token in body {
        if let Some(given) = error_text(&token) {
            text = Some(given);
        } else if let TokenTree::Ident(name) = &token {
            found.push(Named {
                name: name.to_string(),
                text: text.take(),
            });
        }
    }
    found
}

/// The literal of `[error("text")]`.
fn error_text(token: &TokenTree) -> Option<String> {
    let TokenTree::Group(attribute) = token else {
        return None;
    };
    let inner: Vec<TokenTree> = attribute.stream().into_iter().collect();
    match inner.as_slice() {
        [word, TokenTree::Group(text)] if is_word(word, "error") => Some(text.stream().to_string()),
        _ => None,
    }
}

fn braces(token: &TokenTree) -> Option<TokenStream> {
    match token {
        TokenTree::Group(group) if group.delimiter() == Delimiter::Brace => Some(group.stream()),
        _ => None,
    }
}

fn is_word(token: &TokenTree, word: &str) -> bool {
    matches!(token, TokenTree::Ident(ident) if ident.to_string() == word)
}
