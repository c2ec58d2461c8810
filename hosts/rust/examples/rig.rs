//! The paper's rig, driven from Rust: a start and four events, each answered by
//! four lines as the rig's program prints them.

const CHART: &[u8] = include_bytes!("../../../crates/rig/data/chart.txt");

/// Elapsed milliseconds and new inputs.
const EVENTS: [(u32, u32); 4] = [(0, 1), (199, 1), (1, 3), (0, 0)];

fn show(answer: &grafcet::Answer) {
    let grafcet::Answer { number, count, state, outputs } = answer;
    println!("ans={number}\nn={count}\nsit={}\nout={outputs}", state.situation);
}

fn main() {
    let mut trace = [0; 16];
    let mut answer = grafcet::start(CHART, 0, &mut trace);
    show(&answer);
    if answer.number != 0 {
        return;
    }
    for (elapsed, inputs) in EVENTS {
        answer = grafcet::event(CHART, &answer.state, elapsed, inputs, &mut trace);
        show(&answer);
    }
}
