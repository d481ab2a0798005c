//! A stand-in for thiserror: `#[derive(Error)]` on an enum without generics, with `#[error("text {field}")]`,
//! `#[error(transparent)]` and `#[from]`. It writes `Display`, `Error` and `From`, which is all that the Rust
//! tracker's error types ask for.

mod variant;

use proc_macro::{Delimiter, TokenStream, TokenTree};
use variant::{variants, Fields, Message, Variant};

#[proc_macro_derive(Error, attributes(error, from))]
pub fn derive_error(item: TokenStream) -> TokenStream {
    let (name, body) = enum_parts(item);
    let variants = variants(body);
    let text = [
        display(&name, &variants),
        format!("impl ::std::error::Error for {name} {{}}"),
        conversions(&name, &variants),
    ]
    .concat();
    text.parse().expect("the derived text is Rust")
}

/// The name of the enum and what stands between its braces.
fn enum_parts(item: TokenStream) -> (String, TokenStream) {
    let mut tokens = item.into_iter();
    tokens
        .find(|token| token.to_string() == "enum")
        .expect("an enum");
    let name = tokens.next().expect("the enum's name").to_string();
    match tokens.next() {
        Some(TokenTree::Group(body)) if body.delimiter() == Delimiter::Brace => {
            (name, body.stream())
        }
        _ => panic!("{name}: generics are not taken"),
    }
}

fn display(name: &str, variants: &[Variant]) -> String {
    let arms: String = variants.iter().map(|v| display_arm(name, v)).collect();
    format!(
        "impl ::std::fmt::Display for {name} {{
            #[allow(unused_variables)]
            fn fmt(&self, f: &mut ::std::fmt::Formatter<'_>) -> ::std::fmt::Result {{
                match self {{ {arms} }}
            }}
        }}"
    )
}

fn display_arm(enum_name: &str, variant: &Variant) -> String {
    let name = &variant.name;
    let pattern = match &variant.fields {
        Fields::None => String::new(),
        Fields::Named(names) => format!("{{ {} }}", names.join(", ")),
        Fields::One { .. } => "(inner)".to_string(),
    };
    let shown = match &variant.message {
        Message::Text(literal) => format!("::std::write!(f, {literal})"),
        Message::Transparent => "::std::fmt::Display::fmt(inner, f)".to_string(),
    };
    format!("{enum_name}::{name} {pattern} => {shown},")
}

/// `From` for each variant whose one field is marked `#[from]`.
fn conversions(enum_name: &str, variants: &[Variant]) -> String {
    let conversion = |v: &Variant| match &v.fields {
        Fields::One { kind, from: true } => Some(format!(
            "impl ::std::convert::From<{kind}> for {enum_name} {{
                fn from(inner: {kind}) -> Self {{ {enum_name}::{}(inner) }}
            }}",
            v.name
        )),
        _ => None,
    };
    variants.iter().filter_map(conversion).collect()
}
