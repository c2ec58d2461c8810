//! The tokens of SFC text: words, symbols, and faults where a byte is none of
//! these. Blanks and comments are gone, lines are counted.

use std::collections::HashMap;

/// Where a token stands in the text: its first byte and its length.
pub type Place = (usize, usize);

/// What a token is.
#[derive(Clone, Copy, PartialEq, Eq)]
pub(super) enum Sign {
    InitialStep,
    Step,
    EndStep,
    Transition,
    From,
    To,
    EndTransition,
    And,
    Or,
    Not,
    True,
    False,
    Becomes,
    Colon,
    Semicolon,
    Open,
    Close,
    Comma,
    /// A name; equal names have one number, "if they differ in case only".
    Name(usize),
    /// A byte or a word that is no token, or a comment never closed.
    Fault,
    /// The text's end.
    End,
}

#[derive(Clone, Copy)]
pub(super) struct Token {
    pub(super) sign: Sign,
    pub(super) line: u32,
    pub(super) place: Place,
}

/// All tokens of a text. The last one is its only `Sign::End`.
pub(super) struct Tokens {
    pub(super) row: Vec<Token>,
    /// Different names.
    pub(super) names: usize,
}

impl Tokens {
    pub(super) fn of(text: &[u8]) -> Tokens {
        let small = text.to_ascii_lowercase();
        let mut scanner = Scanner { text: &small, at: 0, line: 1, names: HashMap::new() };
        let mut row = Vec::new();
        loop {
            let token = scanner.token();
            row.push(token);
            if token.sign == Sign::End {
                return Tokens { row, names: scanner.names.len() };
            }
        }
    }
}

/// The text in small letters, with the place in it.
struct Scanner<'t> {
    text: &'t [u8],
    at: usize,
    line: u32,
    names: HashMap<&'t [u8], usize>,
}

impl Scanner<'_> {
    fn token(&mut self) -> Token {
        self.skip_blanks();
        let (start, line) = (self.at, self.line);
        let sign = self.sign();
        Token { sign, line, place: (start, self.at - start) }
    }

    /// "Blanks are bytes 9, 10, 13, 32 and no others", and a comment "is a
    /// blank; its bytes 10 count". One that is never closed is left standing.
    fn skip_blanks(&mut self) {
        loop {
            let blank = match &self.text[self.at..] {
                [9 | 10 | 13 | 32, ..] => 1,
                [b'(', b'*', inside @ ..] => match length_to_close(inside) {
                    Some(length) => length + 4,
                    None => return,
                },
                _ => return,
            };
            let lines = self.text[self.at..][..blank].iter().filter(|byte| **byte == b'\n');
            self.line += lines.count() as u32;
            self.at += blank;
        }
    }

    /// The token that begins here. "`:=` is taken before `:`", "`(*` is looked
    /// for before `(`".
    fn sign(&mut self) -> Sign {
        let (sign, length) = match &self.text[self.at..] {
            [] => (Sign::End, 0),
            [b'a'..=b'z' | b'_', ..] => return self.word(),
            [b':', b'=', ..] => (Sign::Becomes, 2),
            [b':', ..] => (Sign::Colon, 1),
            [b';', ..] => (Sign::Semicolon, 1),
            unclosed @ [b'(', b'*', ..] => (Sign::Fault, unclosed.len()),
            [b'(', ..] => (Sign::Open, 1),
            [b')', ..] => (Sign::Close, 1),
            [b',', ..] => (Sign::Comma, 1),
            _ => (Sign::Fault, 1),
        };
        self.at += length;
        sign
    }

    /// "A word is the longest run of letters A to Z and a to z, digits and `_`
    /// that begins with a letter or `_`."
    fn word(&mut self) -> Sign {
        let rest = &self.text[self.at..];
        let goes_on = |byte: &u8| byte.is_ascii_alphanumeric() || *byte == b'_';
        let length = rest.iter().position(|byte| !goes_on(byte)).unwrap_or(rest.len());
        let word = &rest[..length];
        self.at += length;
        match word {
            b"initial_step" => Sign::InitialStep,
            b"step" => Sign::Step,
            b"end_step" => Sign::EndStep,
            b"transition" => Sign::Transition,
            b"from" => Sign::From,
            b"to" => Sign::To,
            b"end_transition" => Sign::EndTransition,
            b"and" => Sign::And,
            b"or" => Sign::Or,
            b"not" => Sign::Not,
            b"true" => Sign::True,
            b"false" => Sign::False,
            _ if is_name(word) => {
                let unused = self.names.len();
                Sign::Name(*self.names.entry(word).or_insert(unused))
            }
            _ => Sign::Fault,
        }
    }
}

/// Bytes of a comment before the `*)` that closes it: "the next `*)`".
fn length_to_close(inside: &[u8]) -> Option<usize> {
    inside.windows(2).position(|pair| pair == b"*)")
}

/// `name = ( letter | "_" sign ) { [ "_" ] sign }`: of a word's underscores
/// each stands before a letter or a digit.
fn is_name(word: &[u8]) -> bool {
    !word.ends_with(b"_") && !word.windows(2).any(|pair| pair == b"__")
}
