//! The proved GRAFCET engine: chart text, present state and one event go in;
//! the next stable situation and its outputs come out.
//!
//! Every call takes every byte string, state and event. What the answer
//! numbers mean is in the project's README.

pub mod boundary;

use boundary::{ANSWER_WORDS, IMPORT_WORDS, MADE, PAIR_WORDS, STATE_WORDS};

/// A state as a call gives it and as the next call takes it. Bit j of a word
/// stands for item j; ages are in milliseconds.
#[derive(Clone, Copy, Debug, Default, PartialEq, Eq)]
pub struct State {
    pub situation: u32,
    pub inputs: u32,
    pub latched: u32,
    pub ages: [u32; 30],
}

impl State {
    /// The state as 33 words: situation, inputs, latched, thirty ages.
    pub fn to_words(self) -> [u32; STATE_WORDS] {
        let mut words = [0; STATE_WORDS];
        words[..3].copy_from_slice(&[self.situation, self.inputs, self.latched]);
        words[3..].copy_from_slice(&self.ages);
        words
    }

    /// The state that 33 words stand for.
    pub fn from_words(words: &[u32; STATE_WORDS]) -> State {
        let mut ages = [0; 30];
        ages.copy_from_slice(&words[3..]);
        State { situation: words[0], inputs: words[1], latched: words[2], ages }
    }
}

/// Whether a text is a chart: 0, or the number of the refusal and its line.
#[derive(Clone, Copy, Debug, PartialEq, Eq)]
pub struct Verdict {
    pub number: u32,
    pub line: u32,
}

/// What a start or an event gives beside the trace.
#[derive(Clone, Copy, Debug, PartialEq, Eq)]
pub struct Answer {
    /// 0, or the number of the refusal.
    pub number: u32,
    /// Firings, or the line of a refused text.
    pub count: u32,
    /// The next state; after a refused event the given one, after a refused
    /// start all zero.
    pub state: State,
    pub outputs: u32,
}

/// Is the text a chart?
pub fn check(text: &[u8]) -> Verdict {
    let mut out = [0; PAIR_WORDS];
    made(boundary::check(text, &mut out));
    Verdict { number: out[0], line: out[1] }
}

/// The part of the text that is the condition of the k-th move, counted from
/// 1; the empty part at the text's start where there is none.
pub fn condition(text: &[u8], k: u32) -> &[u8] {
    let mut out = [0; PAIR_WORDS];
    made(boundary::lookup(text, k, &mut out));
    &text[out[0] as usize..][..out[1] as usize]
}

/// A chart's start. The situations passed go into the trace, as many as it
/// has room for; the rest of it is left as it was.
pub fn start(text: &[u8], inputs: u32, trace: &mut [u32]) -> Answer {
    let (mut state, mut out) = ([0; STATE_WORDS], [0; ANSWER_WORDS]);
    made(boundary::start(text, inputs, &mut state, &mut out, trace));
    answer(&state, out)
}

/// One event of a chart, from a state: the time since the last one in
/// milliseconds, and the new inputs.
pub fn event(text: &[u8], state: &State, elapsed: u32, inputs: u32, trace: &mut [u32]) -> Answer {
    let (mut state, mut out) = (state.to_words(), [0; ANSWER_WORDS]);
    made(boundary::event(text, elapsed, inputs, &mut state, &mut out, trace));
    answer(&state, out)
}

/// What an import gives beside the bytes in the room.
#[derive(Clone, Copy, Debug, PartialEq, Eq)]
pub struct Imported {
    /// 0, or the number of the refusal.
    pub number: u32,
    /// The line of the refusal.
    pub line: u32,
    /// The length of the chart's text, at the front of the room.
    pub length: usize,
}

/// What a name of an SFC text names.
#[derive(Clone, Copy, Debug, PartialEq, Eq)]
pub enum Item {
    Step,
    Input,
    Output,
}

/// SFC text as chart text. The room wants 16,384 bytes; a refusal leaves it as
/// it was, a success the bytes past the result.
pub fn import(text: &[u8], room: &mut [u8]) -> Imported {
    let mut out = [0; IMPORT_WORDS];
    made(boundary::import(text, room, &mut out));
    let [number, line, length] = out;
    Imported { number, line, length: length as usize }
}

/// The part of the SFC text that is the name of item k of a kind, as it
/// appears first; the empty part at the text's start where there is none.
pub fn name(text: &[u8], item: Item, k: u32) -> &[u8] {
    let mut out = [0; PAIR_WORDS];
    made(boundary::name(text, item as u32, k, &mut out));
    &text[out[0] as usize..][..out[1] as usize]
}

fn answer(state: &[u32; STATE_WORDS], out: [u32; ANSWER_WORDS]) -> Answer {
    let [number, count, outputs] = out;
    Answer { number, count, state: State::from_words(state), outputs }
}

/// The slices lent here have the lengths that the boundary asks for.
fn made(said: u32) {
    debug_assert_eq!(said, MADE);
}
