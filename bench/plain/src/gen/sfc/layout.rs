//! Rows of tokens: single faults in them, and how they are written.

use super::Random;

/// Tokens, and things that are none.
const TOKENS: &str = "INITIAL_STEP STEP END_STEP TRANSITION FROM TO END_TRANSITION AND OR NOT \
    TRUE FALSE := : ; ( ) , N S R a s0 x0 q0 ? *) (* // & = a__b a_ _ _1 7 1a XOR PRIORITY {";

pub(super) fn any_token(random: &mut Random) -> String {
    let tokens: Vec<_> = TOKENS.split(' ').collect();
    random.pick(&tokens).to_string()
}

/// One token dropped, doubled, put in, replaced, swapped with its neighbour or
/// put in brackets, or a comment opened before it. It is any token, or one near
/// a sign that matters.
pub(super) fn spoil_tokens(random: &mut Random, tokens: &mut Vec<String>) {
    let mut place = random.below(tokens.len());
    let near = random.pick(&["NOT", "FROM", "TO", ";", ")", ":"]);
    let places: Vec<_> = (0..tokens.len()).filter(|place| tokens[*place] == near).collect();
    if !places.is_empty() && random.percent(70) {
        place = (random.pick(&places) + random.below(2)).min(tokens.len() - 1);
    }
    let other = any_token(random);
    match random.below(7) {
        0 => drop(tokens.remove(place)),
        1 => tokens.insert(place, tokens[place].clone()),
        2 => tokens.insert(place, other),
        3 => tokens[place] = other,
        4 => tokens.swap(place, place.saturating_sub(1)),
        5 => tokens.insert(place, "(*".to_string()),
        _ => {
            tokens.insert(place + 1, ")".to_string());
            tokens.insert(place, "(".to_string());
        }
    }
}

/// Blanks of every kind, and comments with everything in them.
const ODD_BLANKS: &[&str] = &[
    "  ",
    "\t",
    "\r\n",
    "\n",
    "\r",
    "\n\n",
    " (**) ",
    "(***)",
    "(*\n*)",
    "(*)*)",
    "(* (* *)",
    "(* ) * *)",
    "(* z(N) *)",
    "(*STEP z*)",
    "(* \u{fc} *)",
    "(*//{\"*)\n",
];

/// How tokens are written one after the other.
pub(super) struct Layout {
    /// No blank where none is needed.
    dense: bool,
    /// Of 100 places between tokens: odd blanks, and byte 10 in the others.
    odd: usize,
    lines: usize,
    /// Of 100 letters: written in the other case.
    other_case: usize,
    /// Every step and every transition begins a line.
    part_lines: bool,
}

impl Layout {
    /// All on one line.
    pub(super) const DENSE: Layout =
        Layout { dense: true, odd: 0, lines: 0, other_case: 0, part_lines: false };

    pub(super) fn any(random: &mut Random) -> Layout {
        Layout {
            dense: random.percent(25),
            odd: random.pick(&[0, 0, 0, 10, 50]),
            lines: random.pick(&[0, 0, 0, 1, 10, 50]),
            other_case: random.pick(&[0, 0, 0, 50]),
            part_lines: random.percent(60),
        }
    }

    pub(super) fn write(&self, random: &mut Random, tokens: &[String]) -> Vec<u8> {
        let mut text = Vec::new();
        for token in tokens {
            let goes_on = |byte: &u8| byte.is_ascii_alphanumeric() || *byte == b'_';
            let run_together = text.last().is_some_and(goes_on) && goes_on(&token.as_bytes()[0]);
            let blank = self.blank(random);
            if !self.dense || run_together {
                text.extend(blank);
            }
            let any_case = |byte: u8| match random.percent(self.other_case) {
                true if byte.is_ascii_alphabetic() => byte ^ 0x20,
                _ => byte,
            };
            text.extend(token.bytes().map(any_case));
            if self.part_lines && (token == "END_STEP" || token == "END_TRANSITION") {
                text.push(b'\n');
            }
        }
        text
    }

    fn blank(&self, random: &mut Random) -> Vec<u8> {
        let blank = match random.below(100) {
            share if share < self.odd => random.pick(ODD_BLANKS),
            share if share < self.odd + self.lines => "\n",
            _ => " ",
        };
        blank.as_bytes().to_vec()
    }
}
