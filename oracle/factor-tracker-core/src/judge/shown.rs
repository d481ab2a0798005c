//! Reads the text that `{:?}` gives, the only sight of fields that the Rust keeps private.

use std::str::FromStr;

/// A value as its text shows it.
#[derive(Debug)]
pub enum Shown<'a> {
    /// A number, a name, or a text in quotes.
    Word(&'a str),
    /// `Name(..)`, with the items in order.
    Tuple(&'a str, Vec<Shown<'a>>),
    /// `Name { field: .. }`.
    Record(Vec<(&'a str, Shown<'a>)>),
    /// `[..]`, a matrix among them, whose rows run on.
    List(Vec<Shown<'a>>),
    /// `{key: value}`.
    Map(Vec<(Shown<'a>, Shown<'a>)>),
}

impl<'a> Shown<'a> {
    pub fn read(text: &'a str) -> Self {
        let mut reader = Reader { rest: text };
        let shown = reader.value();
        assert!(reader.rest.is_empty(), "left over: {}", reader.rest);
        shown
    }

    pub fn field(&self, name: &str) -> &Shown<'a> {
        let Shown::Record(fields) = self else {
            panic!("not a record: {self:?}");
        };
        let found = fields.iter().find(|(field, _)| *field == name);
        &found.unwrap_or_else(|| panic!("no field {name}")).1
    }

    pub fn word(&self) -> &'a str {
        match self {
            Shown::Word(word) => word,
            _ => panic!("not a word: {self:?}"),
        }
    }

    pub fn parse<T: FromStr>(&self) -> T {
        let word = self.word();
        word.parse()
            .unwrap_or_else(|_| panic!("not a number: {word}"))
    }

    pub fn list(&self) -> &[Shown<'a>] {
        match self {
            Shown::List(items) => items,
            _ => panic!("not a list: {self:?}"),
        }
    }

    pub fn map(&self) -> &[(Shown<'a>, Shown<'a>)] {
        match self {
            Shown::Map(pairs) => pairs,
            _ => panic!("not a map: {self:?}"),
        }
    }

    /// What a wrapper of one value holds.
    pub fn inner(&self) -> &Shown<'a> {
        match self {
            Shown::Tuple(_, items) if items.len() == 1 => &items[0],
            _ => panic!("not a wrapper: {self:?}"),
        }
    }

    pub fn option(&self) -> Option<&Shown<'a>> {
        match self {
            Shown::Word("None") => None,
            Shown::Tuple("Some", items) => items.first(),
            _ => panic!("not an option: {self:?}"),
        }
    }
}

struct Reader<'a> {
    rest: &'a str,
}

impl<'a> Reader<'a> {
    fn value(&mut self) -> Shown<'a> {
        match self.rest.chars().next() {
            Some('[') => Shown::List(self.items("[", "]", Reader::value)),
            Some('{') => Shown::Map(self.items("{", "}", Reader::pair)),
            Some('"') => Shown::Word(self.quoted()),
            _ => self.named(),
        }
    }

    /// A word, and the items or fields that may follow it.
    fn named(&mut self) -> Shown<'a> {
        let word = self.word();
        if self.rest.starts_with('(') {
            return Shown::Tuple(word, self.items("(", ")", Reader::value));
        }
        if self.rest.starts_with(" {") {
            self.take(" ");
            return Shown::Record(self.items("{", "}", Reader::field));
        }
        Shown::Word(word)
    }

    fn pair(&mut self) -> (Shown<'a>, Shown<'a>) {
        let key = self.value();
        assert!(self.take(": "), "no value at: {}", self.rest);
        (key, self.value())
    }

    fn field(&mut self) -> (&'a str, Shown<'a>) {
        let name = self.word();
        assert!(self.take(": "), "no value at: {}", self.rest);
        (name, self.value())
    }

    /// The items between two brackets.
    fn items<T>(&mut self, open: &str, close: &str, item: fn(&mut Self) -> T) -> Vec<T> {
        assert!(self.take(open), "no {open} at: {}", self.rest);
        let mut found = Vec::new();
        self.take(" ");
        while !self.take(close) {
            found.push(item(self));
            let _ = self.take(", ") || self.take("; ") || self.take(" ");
        }
        found
    }

    fn word(&mut self) -> &'a str {
        let end = self
            .rest
            .find([' ', ',', ';', ':', '(', ')', '[', ']', '{', '}']);
        let (word, rest) = self.rest.split_at(end.unwrap_or(self.rest.len()));
        assert!(!word.is_empty(), "no word at: {}", self.rest);
        self.rest = rest;
        word
    }

    /// A text in quotes. Only names of frames are texts here, and none has a quote or a backslash in it.
    fn quoted(&mut self) -> &'a str {
        let end = self.rest[1..].find('"').expect("a closing quote") + 1;
        let (word, rest) = (&self.rest[1..end], &self.rest[end + 1..]);
        assert!(!word.contains('\\'), "an escape in {word}");
        self.rest = rest;
        word
    }

    fn take(&mut self, text: &str) -> bool {
        let rest = self.rest.strip_prefix(text);
        self.rest = rest.unwrap_or(self.rest);
        rest.is_some()
    }
}
