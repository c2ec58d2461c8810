//! Random and damaged cases: the engine, the engine on a compiled chart and
//! the naive one agree in everything.

mod naive;

use plain::gen::{self, Call, Case};
use plain::{Answer, Compiled, State};

/// Cases run; CHART_CASES sets another number.
const CASES: u64 = 200_000;

fn cases() -> u64 {
    let wanted = std::env::var("CHART_CASES").ok();
    wanted.and_then(|number| number.parse().ok()).unwrap_or(CASES)
}

/// What a call yields, with the trace as it was left.
#[derive(Debug, PartialEq)]
enum Yield {
    Pair(usize, usize),
    Answer(Box<Answer>, Vec<u32>),
}

fn plain(case: &Case) -> Yield {
    let mut trace = case.trace.clone();
    let Case { call, text, state, elapsed, inputs, .. } = case;
    let answer = match call {
        Call::Check => return pair(plain::check(text)),
        Call::Lookup(k) => {
            let (start, length) = plain::lookup(text, *k);
            return Yield::Pair(start, length);
        }
        Call::Start => plain::start(text, *inputs, &mut trace),
        Call::Event => plain::event(text, state, *elapsed, *inputs, &mut trace),
    };
    Yield::Answer(Box::new(answer), trace)
}

fn naive(case: &Case) -> Yield {
    let mut trace = case.trace.clone();
    let Case { call, text, state, elapsed, inputs, .. } = case;
    let answer = match call {
        Call::Check => return pair(naive::check(text)),
        Call::Lookup(k) => {
            let (start, length) = naive::lookup(text, *k);
            return Yield::Pair(start, length);
        }
        Call::Start => naive::start(text, *inputs, &mut trace),
        Call::Event => naive::event(text, state, *elapsed, *inputs, &mut trace),
    };
    Yield::Answer(Box::new(answer), trace)
}

fn compiled(case: &Case) -> Yield {
    let mut trace = case.trace.clone();
    let Case { call, text, state, elapsed, inputs, .. } = case;
    let given = if *call == Call::Start { State::default() } else { *state };
    let answer = match (Compiled::new(text), call) {
        (chart, Call::Check) => return pair(chart.err().unwrap_or((0, 0))),
        (_, Call::Lookup(_)) => return plain(case),
        (Err((number, count)), _) => Answer { number, count, state: given, outputs: 0 },
        (Ok(chart), Call::Start) => chart.start(*inputs, &mut trace),
        (Ok(chart), Call::Event) => chart.event(state, *elapsed, *inputs, &mut trace),
    };
    Yield::Answer(Box::new(answer), trace)
}

fn pair((number, line): (u32, u32)) -> Yield {
    Yield::Pair(number as usize, line as usize)
}

#[test]
fn random_and_damaged_cases() {
    let mut met = [0u32; 14];
    for n in 0..cases() {
        let case = gen::case(n);
        let (ours, theirs) = (plain(&case), naive(&case));
        let shown = || format!("case {n}: {case:?}\n{}", String::from_utf8_lossy(&case.text));
        assert!(ours == theirs, "{}\n{ours:?}\n{theirs:?}", shown());
        if n % 8 == 0 {
            assert!(compiled(&case) == ours, "{}", shown());
        }
        if let Yield::Answer(answer, _) = ours {
            met[answer.number as usize] += 1;
        }
    }
    println!("answers by number: {met:?}");
    for (number, times) in met.iter().enumerate() {
        // 02, P5: "Number 5 isn't used again".
        assert_eq!(number == 5, *times == 0, "answer {number} was met {times} times");
    }
}
