//! Conditions: read and compiled in one pass to a short postfix row of bit
//! tests.
//!
//! A `!` is pushed down to the atoms while reading (not-or is and-of-nots), so
//! a compiled condition has tests, "and" and "or" only. Neighbouring operands
//! that look at the same word become one test with a wider mask: `x1.x3.x5` is
//! a single test, and so is `!(x1.x3.x5)`.

use crate::test::{word, Join, Test};

/// "condition 1 to 64 bytes"
pub(crate) const MAX_BYTES: usize = 64;
/// Tests of the longest condition at most, see `compile`.
pub(crate) const MAX_TESTS: usize = (MAX_BYTES + 1) * 3 / 4;
/// Brackets of the longest condition at most, one in another: so many pairs and
/// an atom.
const MAX_DEPTH: usize = (MAX_BYTES - 1) / 2;
/// "T 1 to 3,600,000 ms"
const MAX_DELAY: u32 = 3_600_000;
/// "A number is 1 to 7 decimal digits"
const MAX_DIGITS: usize = 7;

/// A condition that is of the grammar.
pub(crate) struct Condition {
    /// Its bytes in the text.
    pub(crate) bytes: usize,
    /// Its tests, at the start of the tests lent.
    pub(crate) tests: usize,
    /// It names an undeclared step or input.
    pub(crate) undeclared: bool,
    /// It has an edge atom.
    pub(crate) edge: bool,
    /// It is a row of tests that must all hold.
    pub(crate) term: bool,
}

/// Reads and compiles the condition that begins at `start` and must end before
/// a byte 10. None: "empty, too long or not of the grammar", or no byte 10.
///
/// A condition of n bytes gives at most (n + 1) * 3 / 4 tests. With a atoms and
/// b pairs of brackets n is at least 2a - 1 + 2b. A join is an element of its
/// own only if its right operand has more than one: that is a bracket, or a
/// term of two or more factors, of which there are at most (a + b) / 2. So
/// there are at most a + b + (a + b) / 2 elements.
#[inline(always)]
pub(crate) fn compile(
    text: &[u8],
    start: usize,
    steps: u32,
    inputs: u32,
    tests: &mut [Test],
) -> Option<Condition> {
    let mut compiler = Compiler {
        text,
        at: start,
        past: start + MAX_BYTES,
        declared: [steps, inputs],
        tests,
        used: 0,
        undeclared: false,
        edge: false,
        term: true,
    };
    compiler.cond()?;
    let Compiler { at, past, used, undeclared, edge, term, .. } = compiler;
    let right = byte_at(text, at) == b'\n' && at <= past;
    right.then_some(Condition { bytes: at - start, tests: used, undeclared, edge, term })
}

/// What is open in one bracket, or outside of all.
#[derive(Clone, Copy)]
struct Level {
    /// An odd number of `!` stands over it.
    negated: bool,
    /// First test after the last `.` or `+` whose operands are not joined yet,
    /// 0 for none.
    dot: u8,
    plus: u8,
}

impl Level {
    fn open(negated: bool) -> Level {
        Level { negated, dot: 0, plus: 0 }
    }
}

/// Reads "cond: terms joined by `+` (or); term: factors joined by `.` (and);
/// factor: `!` factor, or `(` cond `)`, or an atom" from left to right; None
/// as soon as a byte does not fit.
struct Compiler<'t, 'c> {
    text: &'t [u8],
    at: usize,
    /// The place after the last byte a condition may have.
    past: usize,
    /// Declared steps and inputs.
    declared: [u32; 2],
    tests: &'c mut [Test],
    used: usize,
    undeclared: bool,
    edge: bool,
    term: bool,
}

impl Compiler<'_, '_> {
    #[inline(always)]
    fn byte(&self) -> u8 {
        byte_at(self.text, self.at)
    }

    #[inline(always)]
    fn cond(&mut self) -> Option<()> {
        let mut outer = [Level::open(false); MAX_DEPTH];
        let mut depth = 0;
        let mut level = Level::open(false);
        loop {
            let mut negated = level.negated;
            while self.byte() == b'!' {
                negated = !negated;
                self.at += 1;
            }
            if self.at >= self.past {
                return None;
            }
            if self.byte() == b'(' {
                // Brackets that are nested deeper and all close are over 64
                // bytes.
                *outer.get_mut(depth)? = level;
                depth += 1;
                level = Level::open(negated);
                self.at += 1;
                continue;
            }
            self.atom(negated)?;
            while self.byte() == b')' {
                self.close(&level);
                depth = depth.checked_sub(1)?;
                level = outer[depth];
                self.at += 1;
            }
            match self.byte() {
                b'.' => {
                    self.close_term(&level);
                    level.dot = self.used as u8;
                }
                b'+' => {
                    self.close(&level);
                    level.dot = 0;
                    level.plus = self.used as u8;
                }
                _ => {
                    self.close(&level);
                    return (depth == 0).then_some(());
                }
            }
            self.at += 1;
        }
    }

    /// The factors of the term read last become one operand.
    #[inline(always)]
    fn close_term(&mut self, level: &Level) {
        if level.dot != 0 {
            self.join(level.dot as usize, if level.negated { Join::Or } else { Join::And });
        }
    }

    /// The terms of the level become one operand.
    #[inline(always)]
    fn close(&mut self, level: &Level) {
        self.close_term(level);
        if level.plus != 0 {
            self.join(level.plus as usize, if level.negated { Join::And } else { Join::Or });
        }
    }

    /// Joins the operand whose tests begin at `right` to the one before it.
    #[inline(always)]
    fn join(&mut self, right: usize, join: Join) {
        if self.used - right > 1 {
            self.term = false;
            let join = if join == Join::And { Join::AndTop } else { Join::OrTop };
            return self.push(Test { join, ..Test::NONE });
        }
        let next = self.tests[right];
        if self.tests[right - 1].takes_in(&next, join) {
            self.used = right;
        } else {
            self.tests[right].join = join;
            self.term &= join == Join::And;
        }
    }

    /// "atom: `1` true, `0` false, `xS` step active, `iI` input on, `uxS`
    /// `dxS` `uiI` `diI` rising and falling edges, `T/xS` on-delay"
    #[inline(always)]
    fn atom(&mut self, negated: bool) -> Option<()> {
        match self.byte() {
            b'x' => self.literal(1, word::STEP, negated),
            b'i' => self.literal(1, word::INPUT, negated),
            b'u' => self.edge(word::UP, negated),
            b'd' => self.edge(word::DOWN, negated),
            _ => self.constant_or_delay(negated),
        }
    }

    #[inline(always)]
    fn edge(&mut self, edge: u8, negated: bool) -> Option<()> {
        self.edge = true;
        match byte_at(self.text, self.at + 1) {
            b'x' => self.literal(2, edge | word::STEP, negated),
            b'i' => self.literal(2, edge | word::INPUT, negated),
            _ => None,
        }
    }

    /// The number of a step or an input after one letter or two.
    #[inline(always)]
    fn literal(&mut self, letters: usize, word: u8, negated: bool) -> Option<()> {
        self.at += letters;
        let item = self.number()?;
        self.undeclared |= item >= self.declared[(word & word::INPUT) as usize];
        self.put(word, 1 << (item % 32), 0, negated);
        Some(())
    }

    /// "`1` followed by `/` begins an on-delay."
    #[inline(always)]
    fn constant_or_delay(&mut self, negated: bool) -> Option<()> {
        let value = self.number()?;
        if self.byte() == b'/' {
            return self.on_delay(value, negated);
        }
        self.put(word::NEVER, 1, 0, negated != (value == 1));
        (value <= 1).then_some(())
    }

    #[inline(always)]
    fn on_delay(&mut self, delay: u32, negated: bool) -> Option<()> {
        if delay == 0 || delay > MAX_DELAY || byte_at(self.text, self.at + 1) != b'x' {
            return None;
        }
        self.at += 2;
        let step = self.number()?;
        self.undeclared |= step >= self.declared[word::STEP as usize];
        self.put(word::DELAY, delay, (step % 32) as u8, negated);
        Some(())
    }

    #[inline(always)]
    fn number(&mut self) -> Option<u32> {
        let (value, at) = number(self.text, self.at)?;
        self.at = at;
        Some(value)
    }

    #[inline(always)]
    fn put(&mut self, word: u8, mask: u32, step: u8, negated: bool) {
        let word = if negated { word | word::NOT } else { word };
        self.push(Test { mask, word, join: Join::Push, step, any: false });
    }

    #[inline(always)]
    fn push(&mut self, test: Test) {
        self.tests[self.used] = test;
        self.used += 1;
    }
}

/// The byte at a place; past the end 0, which fits nowhere.
#[inline(always)]
pub(crate) fn byte_at(text: &[u8], at: usize) -> u8 {
    match text.get(at) {
        Some(byte) => *byte,
        None => 0,
    }
}

/// "A number is 1 to 7 decimal digits without a leading zero, except 0
/// itself." Gives its value and the place after it.
#[inline(always)]
pub(crate) fn number(text: &[u8], start: usize) -> Option<(u32, usize)> {
    let mut value = digit_at(text, start);
    if value > 9 {
        return None;
    }
    let mut at = start + 1;
    loop {
        let digit = digit_at(text, at);
        if digit > 9 {
            return Some((value, at));
        }
        if value == 0 || at - start == MAX_DIGITS {
            return None;
        }
        value = value * 10 + digit;
        at += 1;
    }
}

/// The digit at a place; over 9 if there is none.
#[inline(always)]
fn digit_at(text: &[u8], at: usize) -> u32 {
    (byte_at(text, at) as u32).wrapping_sub(b'0' as u32)
}

#[cfg(test)]
mod tests {
    use super::*;

    /// Compiles with just the room that the bound allows.
    fn fits(condition: &[u8]) {
        let mut text = condition.to_vec();
        text.push(b'\n');
        let room = (condition.len().min(MAX_BYTES) + 1) * 3 / 4;
        compile(&text, 0, 30, 32, &mut vec![Test::NONE; room]);
    }

    #[test]
    fn every_short_row_of_bytes_keeps_the_bound_on_tests() {
        let alphabet = b"01.+()!x";
        for length in 0..=7 {
            for row in 0..alphabet.len().pow(length) {
                let place = |i| row / alphabet.len().pow(i) % alphabet.len();
                let condition: Vec<u8> = (0..length).map(|i| alphabet[place(i)]).collect();
                fits(&condition);
            }
        }
    }

    #[test]
    fn dense_conditions_keep_the_bound_on_tests() {
        let parts: [&[u8]; 9] =
            [b"0.1+", b"1.0+", b"0+", b"1.", b"(0.1)", b"0+1.(", b")", b"0.(1+", b"!(1."];
        for first in 0..parts.len() {
            for second in 0..parts.len() {
                for third in 0..parts.len() {
                    let mut row = [parts[first], parts[second], parts[third]].concat().repeat(16);
                    for length in 0..row.len().min(80) {
                        fits(&row[..length]);
                    }
                    row.truncate(63);
                    row.push(b'1');
                    fits(&row);
                }
            }
        }
    }

    #[test]
    fn neighbours_of_one_word_become_one_test() {
        for condition in ["x1.x3.x5", "!(x1.x3)", "x1+x2+x3", "!(x1+x2)", "!x1.!x2", "i1.i2.i31"] {
            let text = format!("{condition}\n");
            let read = compile(text.as_bytes(), 0, 30, 32, &mut [Test::NONE; MAX_TESTS]);
            assert_eq!(read.map(|read| read.tests), Some(1), "{condition}");
        }
    }
}
