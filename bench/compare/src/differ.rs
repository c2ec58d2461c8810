//! The differential run: every random case on both engines.

use grafcet::boundary::{self, ANSWER_WORDS, MADE, PAIR_WORDS, REFUSED, STATE_WORDS};
use plain::gen::{self, Call, Case, Random};

/// What the lent words hold before a call: none of it may be taken for an
/// answer.
const JUNK: u32 = 0xDEAD_BEEF;

/// How often each thing was seen.
#[derive(Default)]
struct Counts {
    /// By answer number: checks, starts, events.
    answers: [[u64; 3]; 14],
    lookups: u64,
    empty_parts: u64,
    fired: u64,
    /// By the length of the trace.
    traces: Vec<u64>,
    refused: u64,
}

/// Runs the first cases; true if there is no difference.
pub fn run(count: u64) -> bool {
    let mut counts = Counts::default();
    for n in 0..count {
        let case = gen::case(n);
        if !(agrees(&case, &mut counts) && refuses(n, &case, &mut counts)) {
            println!("case {n} differs: {:?}", case.call);
            return false;
        }
    }
    counts.show(count);
    true
}

/// One case on both engines: everything that the calls give is the same.
fn agrees(case: &Case, counts: &mut Counts) -> bool {
    match case.call {
        Call::Check => {
            let mut out = [JUNK; PAIR_WORDS];
            let said = boundary::check(&case.text, &mut out);
            let theirs = plain::check(&case.text);
            counts.answers[theirs.0 as usize][0] += 1;
            said == MADE && (out[0], out[1]) == theirs
        }
        Call::Lookup(k) => {
            let mut out = [JUNK; PAIR_WORDS];
            let said = boundary::lookup(&case.text, k, &mut out);
            let (start, length) = plain::lookup(&case.text, k);
            counts.lookups += 1;
            counts.empty_parts += (length == 0) as u64;
            let part = grafcet::condition(&case.text, k);
            said == MADE
                && (out[0] as usize, out[1] as usize) == (start, length)
                && std::ptr::eq(part, &case.text[start..][..length])
        }
        Call::Start => agrees_on_start(case, counts),
        Call::Event => agrees_on_event(case, counts),
    }
}

fn agrees_on_start(case: &Case, counts: &mut Counts) -> bool {
    let (mut ours, mut theirs) = (case.trace.clone(), case.trace.clone());
    let (mut state, mut out) = ([JUNK; STATE_WORDS], [JUNK; ANSWER_WORDS]);
    let said = boundary::start(&case.text, case.inputs, &mut state, &mut out, &mut ours);
    let answer = plain::start(&case.text, case.inputs, &mut theirs);
    counts.answer(1, &answer, &theirs);
    said == MADE && same(&state, &out, &answer) && ours == theirs
}

fn agrees_on_event(case: &Case, counts: &mut Counts) -> bool {
    let (mut ours, mut theirs) = (case.trace.clone(), case.trace.clone());
    let (mut state, mut out) = (case.state.to_words(), [JUNK; ANSWER_WORDS]);
    let Case { text, elapsed, inputs, .. } = case;
    let said = boundary::event(text, *elapsed, *inputs, &mut state, &mut out, &mut ours);
    let answer = plain::event(text, &case.state, *elapsed, *inputs, &mut theirs);
    counts.answer(2, &answer, &theirs);
    said == MADE && same(&state, &out, &answer) && ours == theirs
}

fn same(state: &[u32; STATE_WORDS], out: &[u32; ANSWER_WORDS], theirs: &plain::Answer) -> bool {
    *out == [theirs.number, theirs.count, theirs.outputs] && *state == theirs.state.to_words()
}

/// The case's call with slices of which at least one has a wrong length: it is
/// refused, and no word is touched.
fn refuses(n: u64, case: &Case, counts: &mut Counts) -> bool {
    let random = &mut Random::new(!n);
    let other = |random: &mut Random, right: usize| {
        let any = random.pick(&[0, 1, right - 1, right + 1, 2 * right, random_length(n)]);
        if any == right {
            right + 1
        } else {
            any
        }
    };
    let mut trace = case.trace.clone();
    let (mut state, mut out) = (vec![JUNK; STATE_WORDS], vec![JUNK; ANSWER_WORDS]);
    let wrong = random.below(3);
    if wrong != 0 {
        state = vec![JUNK; other(random, STATE_WORDS)];
    }
    if wrong != 1 {
        out = vec![JUNK; other(random, ANSWER_WORDS)];
    }
    let said = match case.call {
        Call::Check => {
            out = vec![JUNK; other(random, PAIR_WORDS)];
            boundary::check(&case.text, &mut out)
        }
        Call::Lookup(k) => {
            out = vec![JUNK; other(random, PAIR_WORDS)];
            boundary::lookup(&case.text, k, &mut out)
        }
        Call::Start => boundary::start(&case.text, case.inputs, &mut state, &mut out, &mut trace),
        Call::Event => {
            let Case { text, elapsed, inputs, .. } = case;
            boundary::event(text, *elapsed, *inputs, &mut state, &mut out, &mut trace)
        }
    };
    counts.refused += 1;
    said == REFUSED && state.iter().chain(&out).all(|word| *word == JUNK) && trace == case.trace
}

/// 0 to 99, of another kind for each case.
fn random_length(n: u64) -> usize {
    (n % 100) as usize
}

impl Counts {
    fn answer(&mut self, call: usize, answer: &plain::Answer, trace: &[u32]) {
        self.answers[answer.number as usize][call] += 1;
        self.fired += (answer.number == 0 && answer.count > 0) as u64;
        if self.traces.len() <= trace.len() {
            self.traces.resize(trace.len() + 1, 0);
        }
        self.traces[trace.len()] += 1;
    }

    fn show(&self, count: u64) {
        println!("| Answer | check | start | event |\n|---|---|---|---|");
        for (number, [check, start, event]) in self.answers.iter().enumerate() {
            println!("| {number:6} | {check:8} | {start:8} | {event:8} |");
        }
        let unseen = self.traces.iter().filter(|times| **times == 0).count();
        println!("{} lookups, of which {} of the empty part", self.lookups, self.empty_parts);
        println!("{} starts and events rest after at least one firing", self.fired);
        println!("traces of 0 to {} words, {unseen} lengths unseen", self.traces.len() - 1);
        println!("{} calls with a wrong length refused, nothing touched", self.refused);
        println!("{count} calls on both engines: 0 differences");
    }
}
