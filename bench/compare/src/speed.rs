//! The text-in event on three charts, for both engines.

use std::hint::black_box;
use std::time::Instant;

use plain::gen;

/// A chart with an event on it.
struct Timed {
    name: &'static str,
    text: Vec<u8>,
    state: plain::State,
    elapsed: u32,
    inputs: u32,
}

fn timed_charts() -> [Timed; 3] {
    let rig = gen::RIG.as_bytes().to_vec();
    let resting = plain::start(&rig, 0, &mut []).state;
    let (plan, state, elapsed, inputs) = gen::largest();
    let still = plain::State::default();
    [
        Timed { name: "rig", text: rig, state: resting, elapsed: 0, inputs: 1 },
        Timed { name: "largest", text: plan.text(), state, elapsed, inputs },
        Timed {
            name: "firings",
            text: gen::thousand().text(),
            state: still,
            elapsed: 0,
            inputs: 0,
        },
    ]
}

/// One event by the engine of that name; both are lent the same trace.
fn event(ours: bool, chart: &Timed, trace: &mut [u32]) -> (u32, u32, u32) {
    let Timed { text, state, elapsed, inputs, .. } = black_box(chart);
    if ours {
        let state = grafcet::State::from_words(&state.to_words());
        let answer = grafcet::event(text, &state, *elapsed, *inputs, black_box(trace));
        (answer.number, answer.count, black_box(answer).outputs)
    } else {
        let answer = plain::event(text, state, *elapsed, *inputs, black_box(trace));
        (answer.number, answer.count, black_box(answer).outputs)
    }
}

/// Calls the event of one chart again and again, with a trace of so many words
/// lent. The instructions of one call are the difference of two such runs,
/// divided by the difference of N.
pub fn calls(ours: bool, chart: &str, room: u64, count: u64) -> Option<bool> {
    let chart = timed_charts().into_iter().find(|timed| timed.name == chart)?;
    let mut trace = vec![0; room as usize];
    for _ in 0..count {
        black_box(event(ours, &chart, &mut trace));
    }
    Some(true)
}

/// Many short runs: other work on the machine disturbs some, not all.
const RUNS: usize = 200;
/// Length of one run.
const RUN_NS: u128 = 1_000_000;

/// The best time of one call in ns.
fn best_of_runs(mut call: impl FnMut()) -> f64 {
    let clock = Instant::now();
    let mut calls = 0u128;
    while calls < 3 || clock.elapsed().as_nanos() < RUN_NS {
        call();
        calls += 1;
    }
    let mut best = f64::INFINITY;
    for _ in 0..RUNS {
        let clock = Instant::now();
        (0..calls).for_each(|_| call());
        best = best.min(clock.elapsed().as_nanos() as f64 / calls as f64);
    }
    best
}

/// Best times in ns per call, with a trace lent for every firing and with none.
pub fn times() {
    println!("| Event   | bytes | answer | firings | trace |    ours, ns | plain, ns | ratio |");
    println!("|---|---|---|---|---|---|---|---|");
    for chart in timed_charts() {
        for room in [1024, 0] {
            let mut trace = vec![0; room];
            let (number, count, _) = event(true, &chart, &mut trace);
            let mut time = |ours| {
                best_of_runs(|| {
                    black_box(event(ours, &chart, &mut trace));
                })
            };
            let (ours, plain) = (time(true), time(false));
            let (name, bytes, ratio) = (chart.name, chart.text.len(), ours / plain);
            print!("| {name:7} | {bytes:5} | {number:6} | {count:7} | {room:5} ");
            println!("| {ours:11.0} | {plain:9.0} | {ratio:5.1} |");
        }
    }
}
