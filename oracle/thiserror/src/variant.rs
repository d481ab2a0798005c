//! The variants of an enum, read from its tokens.

use std::iter::Peekable;

use proc_macro::{token_stream, Delimiter, Group, TokenStream, TokenTree};

type Tokens = Peekable<token_stream::IntoIter>;

pub struct Variant {
    pub name: String,
    pub fields: Fields,
    pub message: Message,
}

pub enum Fields {
    None,
    Named(Vec<String>),
    /// One field in parentheses: its type, and whether it is marked `#[from]`.
    One {
        kind: String,
        from: bool,
    },
}

pub enum Message {
    /// The literal as written, quotes included.
    Text(String),
    Transparent,
}

pub fn variants(body: TokenStream) -> Vec<Variant> {
    let mut tokens = body.into_iter().peekable();
    let mut found = Vec::new();
    while tokens.peek().is_some() {
        found.push(variant(&mut tokens));
    }
    found
}

fn variant(tokens: &mut Tokens) -> Variant {
    let message = attributes(tokens).into_iter().find_map(message);
    let name = tokens.next().expect("a variant's name").to_string();
    let fields = match tokens.next_if(|t| matches!(t, TokenTree::Group(_))) {
        Some(TokenTree::Group(group)) if group.delimiter() == Delimiter::Brace => {
            Fields::Named(named_fields(group))
        }
        Some(TokenTree::Group(group)) => one_field(group),
        _ => Fields::None,
    };
    tokens.next_if(|t| t.to_string() == ",");
    Variant {
        message: message.unwrap_or_else(|| panic!("{name} has no #[error(..)]")),
        name,
        fields,
    }
}

/// Takes the attributes that stand next and gives what is inside each one's brackets.
fn attributes(tokens: &mut Tokens) -> Vec<TokenStream> {
    let mut found = Vec::new();
    while tokens.next_if(|t| t.to_string() == "#").is_some() {
        match tokens.next() {
            Some(TokenTree::Group(group)) => found.push(group.stream()),
            _ => panic!("brackets after '#'"),
        }
    }
    found
}

/// The message of an `error(..)` attribute; nothing for another one, such as a comment.
fn message(attribute: TokenStream) -> Option<Message> {
    let mut tokens = attribute.into_iter();
    if tokens.next()?.to_string() != "error" {
        return None;
    }
    match tokens.next() {
        Some(TokenTree::Group(group)) => match group.stream().to_string().as_str() {
            "transparent" => Some(Message::Transparent),
            literal => Some(Message::Text(literal.to_string())),
        },
        _ => panic!("parentheses after 'error'"),
    }
}

/// The names in `{ a: A, b: B }`. A comma inside a type is in a group or absent in what is taken here.
fn named_fields(group: Group) -> Vec<String> {
    let mut tokens = group.stream().into_iter().peekable();
    let mut names = Vec::new();
    while tokens.peek().is_some() {
        attributes(&mut tokens);
        names.push(tokens.next().expect("a field's name").to_string());
        while tokens.next_if(|t| t.to_string() != ",").is_some() {}
        tokens.next();
    }
    names
}

fn one_field(group: Group) -> Fields {
    let mut tokens = group.stream().into_iter().peekable();
    let from = attributes(&mut tokens)
        .into_iter()
        .any(|attribute| attribute.to_string() == "from");
    Fields::One {
        kind: tokens.collect::<TokenStream>().to_string(),
        from,
    }
}
