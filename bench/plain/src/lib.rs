//! An engine for GRAFCET charts in plain Rust: chart text, present state and
//! one event go in; the next stable situation and its outputs come out.
//!
//! It is written from the paper alone and shares nothing with the verified
//! engine. It serves as the yardstick for its speed and as its partner in
//! differential runs. Words in quotation marks in the comments are the
//! paper's.
//!
//! A call reads the text in one pass into fixed tables on the stack: steps
//! become bits of masks, conditions become short rows of bit tests. Nothing is
//! allocated, and the text is not copied.
//!
//! The module `sfc` makes chart text of SFC text; it allocates as it likes.

#![forbid(unsafe_code)]

mod chart;
mod condition;
mod evolution;
pub mod gen;
pub mod sfc;
mod state;
mod test;

use chart::{Chart, Head, Hold, Latches, Move, Tables, MAX_LINES, MAX_TEXT};
use condition::MAX_TESTS;
pub use state::{number, Answer, State};
use test::Test;

/// Lines of a kind that a text of that many bytes can have at most: the head
/// takes at least 53 bytes, a line at least 10.
const fn lines_in(text: usize) -> usize {
    let lines = (text - 53) / 10;
    if lines < MAX_LINES {
        lines
    } else {
        MAX_LINES
    }
}

/// Tests that a text of that many bytes can give at most: n bytes of a
/// condition give (n + 1) * 3 / 4, but never more than 48, and 8 bytes stand
/// before them, so it is two of three bytes after the head.
const fn tests_in(text: usize) -> usize {
    let tests = (text - 52) * 2 / 3;
    if tests < 2 * MAX_LINES * MAX_TESTS {
        tests
    } else {
        2 * MAX_LINES * MAX_TESTS
    }
}

/// Reads the text into the smallest tables that are sure to hold it, then
/// gives what `refused` or `done` makes of it.
#[inline(always)]
fn with_chart<R>(
    text: &[u8],
    refused: impl FnOnce(u32, u32) -> R,
    done: impl FnOnce(&Chart) -> R,
) -> R {
    match text.len() {
        0..=192 => with_tables::<{ lines_in(192) }, { tests_in(192) }, R>(text, refused, done),
        193..=1_024 => with_tables::<MAX_LINES, { tests_in(1_024) }, R>(text, refused, done),
        1_025..=4_096 => with_tables::<MAX_LINES, { tests_in(4_096) }, R>(text, refused, done),
        _ => with_tables::<MAX_LINES, { tests_in(MAX_TEXT) }, R>(text, refused, done),
    }
}

/// Not inlined: only the tables that are used stand on the stack.
#[inline(never)]
fn with_tables<const LINES: usize, const TESTS: usize, R>(
    text: &[u8],
    refused: impl FnOnce(u32, u32) -> R,
    done: impl FnOnce(&Chart) -> R,
) -> R {
    match Tables::<LINES, TESTS>::blank().read(text) {
        Err((number, line)) => refused(number, line),
        Ok(chart) => done(&chart),
    }
}

/// Is the text a chart? Its answer number and line: (0, 0) for a chart.
pub fn check(text: &[u8]) -> (u32, u32) {
    with_chart(text, |number, line| (number, line), |_| (number::STABLE, 0))
}

/// Start and length of the condition of the k-th move, counted from 1. "For a
/// refused text, number 0 or one too high it returns the empty part at the
/// text's start": (0, 0).
pub fn lookup(text: &[u8], k: u32) -> (usize, usize) {
    with_chart(text, |_, _| (0, 0), |chart| chart.condition_place(k).unwrap_or((0, 0)))
}

/// The start of a chart with an input word.
pub fn start(text: &[u8], inputs: u32, trace: &mut [u32]) -> Answer {
    let refused = |number, line| Answer::refusal(number, line, &State::default());
    with_chart(text, refused, |chart| chart.start(inputs, trace))
}

/// One event on a state.
pub fn event(text: &[u8], state: &State, elapsed: u32, inputs: u32, trace: &mut [u32]) -> Answer {
    let refused = |number, line| Answer::refusal(number, line, state);
    with_chart(text, refused, |chart| chart.event(state, elapsed, inputs, trace))
}

/// A chart read once, for many calls.
pub struct Compiled {
    head: Head,
    moves: Vec<Move>,
    holds: Vec<Hold>,
    latches: [Latches; State::STEPS],
    tests: Vec<Test>,
}

impl Compiled {
    /// Reads a text; a refusal is its number and its line. This call alone
    /// allocates.
    pub fn new(text: &[u8]) -> Result<Compiled, (u32, u32)> {
        let copied = |chart: &Chart| Compiled {
            head: chart.head,
            moves: chart.moves.to_vec(),
            holds: chart.holds.to_vec(),
            latches: *chart.latches,
            tests: chart.tests.to_vec(),
        };
        with_chart(text, |number, line| Err((number, line)), |chart| Ok(copied(chart)))
    }

    fn chart(&self) -> Chart<'_> {
        let Compiled { head, moves, holds, latches, tests } = self;
        Chart { head: *head, moves, holds, latches, tests }
    }

    /// As the function `start` on the chart's text.
    pub fn start(&self, inputs: u32, trace: &mut [u32]) -> Answer {
        self.chart().start(inputs, trace)
    }

    /// As the function `event` on the chart's text.
    pub fn event(&self, state: &State, elapsed: u32, inputs: u32, trace: &mut [u32]) -> Answer {
        self.chart().event(state, elapsed, inputs, trace)
    }
}
