//! A walk over tokens, enough for the declarations in the unchanged files.

use std::iter::Peekable;
use std::vec;

use proc_macro::{Delimiter, Group, Ident, TokenStream, TokenTree};

pub type Tokens = Vec<TokenTree>;

pub struct Walk(Peekable<vec::IntoIter<TokenTree>>);

impl Walk {
    pub fn new(tokens: impl IntoIterator<Item = TokenTree>) -> Self {
        let tokens: Tokens = tokens.into_iter().collect();
        Self(tokens.into_iter().peekable())
    }

    pub fn is_done(&mut self) -> bool {
        self.0.peek().is_none()
    }

    pub fn next(&mut self) -> TokenTree {
        self.0.next().expect("another token")
    }

    pub fn at_punct(&mut self, sign: char) -> bool {
        self.0.peek().is_some_and(|token| is_punct(token, sign))
    }

    pub fn at_ident(&mut self, name: &str) -> bool {
        self.0.peek().is_some_and(|token| is_ident(token, name))
    }

    pub fn ident(&mut self) -> Ident {
        match self.next() {
            TokenTree::Ident(ident) => ident,
            other => panic!("expected a name, found `{other}`"),
        }
    }

    /// The next group, if it is delimited this way.
    pub fn group(&mut self, delimiter: Delimiter) -> Option<Group> {
        match self.0.peek() {
            Some(TokenTree::Group(group)) if group.delimiter() == delimiter => {
                let group = group.clone();
                self.0.next();
                Some(group)
            }
            _ => None,
        }
    }

    /// The contents of the attributes that stand here, without `#[` and `]`.
    pub fn attributes(&mut self) -> Vec<TokenStream> {
        let mut attributes = vec![];
        while self.at_punct('#') {
            self.next();
            let group = self.group(Delimiter::Bracket).expect("an attribute");
            attributes.push(group.stream());
        }
        attributes
    }

    /// `pub`, `pub(..)` or nothing.
    pub fn visibility(&mut self) -> Tokens {
        let mut visibility = vec![];
        if self.at_ident("pub") {
            visibility.push(self.next());
            visibility.extend(self.group(Delimiter::Parenthesis).map(TokenTree::from));
        }
        visibility
    }

    /// What stands between `<` and its `>`, or nothing.
    pub fn generics(&mut self) -> Tokens {
        let mut inner = vec![];
        if !self.at_punct('<') {
            return inner;
        }
        let mut depth = 0;
        loop {
            let token = self.next();
            depth += angle(&token);
            inner.push(token);
            if depth == 0 {
                break;
            }
        }
        inner[1..inner.len() - 1].to_vec()
    }

    /// Everything before the next group in braces.
    pub fn until_braces(&mut self) -> Tokens {
        let mut tokens = vec![];
        while !matches!(self.0.peek(), Some(TokenTree::Group(group)) if group.delimiter() == Delimiter::Brace)
        {
            tokens.push(self.next());
        }
        tokens
    }

    pub fn rest(self) -> Tokens {
        self.0.collect()
    }
}

pub fn is_punct(token: &TokenTree, sign: char) -> bool {
    matches!(token, TokenTree::Punct(punct) if punct.as_char() == sign)
}

pub fn is_ident(token: &TokenTree, name: &str) -> bool {
    matches!(token, TokenTree::Ident(ident) if ident.to_string() == name)
}

/// Splits at the commas that stand outside of angle brackets.
pub fn split_commas(tokens: impl IntoIterator<Item = TokenTree>) -> Vec<Tokens> {
    let mut parts = vec![vec![]];
    let mut depth = 0;
    for token in tokens {
        depth += angle(&token);
        if depth == 0 && is_punct(&token, ',') {
            parts.push(vec![]);
        } else {
            parts.last_mut().expect("a part").push(token);
        }
    }
    parts.retain(|part| !part.is_empty());
    parts
}

pub fn text(tokens: &[TokenTree]) -> String {
    tokens.iter().cloned().collect::<TokenStream>().to_string()
}

fn angle(token: &TokenTree) -> i32 {
    i32::from(is_punct(token, '<')) - i32::from(is_punct(token, '>'))
}
