//! Random cases for differential runs: the n-th case is the same on every
//! machine and in every run.
//!
//! This module is not part of the engine and may allocate.

pub mod sfc;

use crate::State;

/// A xorshift generator with a fixed seed.
pub struct Random(u64);

impl Random {
    /// Seeds are spread first, so that neighbours give unlike rows.
    pub fn new(seed: u64) -> Random {
        let mut mixed = seed.wrapping_add(1).wrapping_mul(0x9E37_79B9_7F4A_7C15);
        mixed = (mixed ^ mixed >> 30).wrapping_mul(0xBF58_476D_1CE4_E5B9);
        mixed = (mixed ^ mixed >> 27).wrapping_mul(0x94D0_49BB_1331_11EB);
        Random((mixed ^ mixed >> 31) | 1)
    }

    /// The next 64 bits.
    pub fn draw(&mut self) -> u64 {
        self.0 ^= self.0 << 13;
        self.0 ^= self.0 >> 7;
        self.0 ^= self.0 << 17;
        self.0.wrapping_mul(0x2545_F491_4F6C_DD1D)
    }

    pub fn word(&mut self) -> u32 {
        (self.draw() >> 32) as u32
    }

    /// A number from 0 to `count` - 1.
    pub fn below(&mut self, count: usize) -> usize {
        (((self.draw() >> 32) * count as u64) >> 32) as usize
    }

    /// A number from `low` to `high`.
    pub fn from_to(&mut self, low: u32, high: u32) -> u32 {
        low + self.below((high - low) as usize + 1) as u32
    }

    /// True in that many of 100 cases.
    pub fn percent(&mut self, share: usize) -> bool {
        self.below(100) < share
    }

    pub fn pick<T: Copy>(&mut self, of: &[T]) -> T {
        of[self.below(of.len())]
    }
}

/// Which call a case is for.
#[derive(Clone, Copy, Debug, PartialEq, Eq)]
pub enum Call {
    Check,
    Lookup(u32),
    Start,
    Event,
}

/// All that goes into one call.
#[derive(Clone, Debug)]
pub struct Case {
    pub call: Call,
    pub text: Vec<u8>,
    pub state: State,
    pub elapsed: u32,
    pub inputs: u32,
    /// The trace as lent, filled with words that the call may leave.
    pub trace: Vec<u32>,
}

/// The n-th case.
pub fn case(n: u64) -> Case {
    let random = &mut Random::new(n);
    let plan = any_plan(random);
    let mut text = plan.text();
    let share = random.below(100);
    if share < 20 {
        for _ in 0..random.pick(&[1, 1, 1, 2, 3]) {
            damage(random, &mut text);
        }
    } else if share == 20 {
        text = noise(random);
    }
    let state = any_state(random, &plan);
    Case {
        call: any_call(random, &plan),
        text,
        state,
        elapsed: any_elapsed(random),
        inputs: any_inputs(random, &plan, state.inputs),
        trace: any_trace(random, n),
    }
}

fn any_call(random: &mut Random, plan: &Plan) -> Call {
    match random.below(20) {
        0 => Call::Check,
        1 => {
            let near = random.below(plan.moves.len() + 3) as u32;
            Call::Lookup(random.pick(&[near, near, near, near, near, near, 0, 64, 65, u32::MAX]))
        }
        2..=5 => Call::Start,
        _ => Call::Event,
    }
}

/// Lengths 0 to 40 in turn, some at the largest count, and now and then any up
/// to 1,100.
fn any_trace(random: &mut Random, n: u64) -> Vec<u32> {
    let length = match random.below(20) {
        0 => random.pick(&[64, 100, 1_022, 1_023, 1_024, 1_025, 1_100]),
        1 => random.below(1_101),
        _ => n as usize % 41,
    };
    (0..length as u32).map(|place| 0xA5A5_0000 | place).collect()
}

fn any_elapsed(random: &mut Random) -> u32 {
    match random.below(20) {
        0 => random.pick(&[60_001, 60_002, 65_536, 3_600_000, u32::MAX - 1, u32::MAX]),
        1..=2 => 60_000,
        3..=6 => random.from_to(0, 60_000),
        7..=11 => random.pick(DELAYS) % 60_001,
        12..=14 => random.from_to(0, 3),
        _ => 0,
    }
}

fn any_inputs(random: &mut Random, plan: &Plan, before: u32) -> u32 {
    match random.below(20) {
        0 => random.word(),
        1 => before ^ 1 << random.below(32),
        2..=4 => before,
        5..=9 if plan.inputs > 0 => before ^ 1 << random.below(plan.inputs.min(32) as usize),
        _ => random.word() & bits(plan.inputs),
    }
}

/// Mostly an accepted state, else one with a single fault.
fn any_state(random: &mut Random, plan: &Plan) -> State {
    let mut state = State {
        situation: any_situation(random, plan),
        inputs: random.word() & bits(plan.inputs),
        latched: random.word() & plan.latchable(),
        ages: [0; 30],
    };
    for step in 0..State::STEPS {
        if state.situation >> step & 1 != 0 {
            state.ages[step] = any_age(random);
        }
    }
    if random.percent(8) {
        spoil(random, &mut state);
    }
    state
}

fn any_situation(random: &mut Random, plan: &Plan) -> u32 {
    let declared = bits(plan.steps);
    match random.below(10) {
        0 => 0,
        1 => declared,
        2..=5 => plan.initial.iter().fold(0, |word, step| word | 1 << step),
        6..=7 => 1 << random.below(plan.steps.min(32) as usize),
        _ => random.word() & declared,
    }
}

fn any_age(random: &mut Random) -> u32 {
    match random.below(10) {
        0 => State::MAX_AGE,
        1 => State::MAX_AGE - random.from_to(0, 60_000),
        2 => random.from_to(0, State::MAX_AGE),
        3..=5 => random.pick(DELAYS),
        6..=7 => random.pick(DELAYS) - 1,
        _ => 0,
    }
}

fn spoil(random: &mut Random, state: &mut State) {
    let step = random.below(State::STEPS);
    match random.below(6) {
        0 => state.situation ^= 1 << random.below(32),
        1 => state.inputs |= 1 << random.below(32),
        2 => state.latched ^= 1 << random.below(32),
        3 => state.ages[step] = random.pick(&[3_600_000, 3_600_001, u32::MAX]),
        4 => state.ages[step] = 1,
        _ => state.ages[29] = random.from_to(0, 1),
    }
}

/// T of on-delays; ages and elapsed times are drawn near them.
const DELAYS: &[u32] = &[1, 2, 3, 5, 10, 199, 200, 1_000, 60_000, 60_001, 3_599_999, 3_600_000];

/// A word with a bit for each of `count` items.
fn bits(count: u32) -> u32 {
    ((1u64 << count.min(32)) - 1) as u32
}

/// The paper's rig chart.
pub const RIG: &str = include_str!("../../../crates/rig/data/chart.txt");

/// A chart before it is written down.
#[derive(Clone, Default)]
pub struct Plan {
    pub steps: u32,
    pub initial: Vec<u32>,
    pub inputs: u32,
    pub outputs: u32,
    pub limit: u32,
    pub moves: Vec<(Vec<u32>, Vec<u32>, String)>,
    pub holds: Vec<(u32, u32, String)>,
    pub latches: Vec<(u32, char, u32, u32)>,
}

impl Plan {
    /// The chart text.
    pub fn text(&self) -> Vec<u8> {
        let mut lines = vec![
            "chart=1".to_string(),
            format!("steps={}", self.steps),
            format!("initial={}", list(&self.initial)),
            format!("inputs={}", self.inputs),
            format!("outputs={}", self.outputs),
            format!("limit={}", self.limit),
        ];
        for (before, after, condition) in &self.moves {
            lines.push(format!("move={}>{}:{}", list(before), list(after), condition));
        }
        for (step, output, condition) in &self.holds {
            lines.push(format!("hold={step}:{output}:{condition}"));
        }
        for (step, edge, output, value) in &self.latches {
            lines.push(format!("latch={step}:{edge}:{output}:{value}"));
        }
        let total = self.moves.len() + self.holds.len() + self.latches.len();
        lines.push(format!("end={total}"));
        (lines.join("\n") + "\n").into_bytes()
    }

    fn latchable(&self) -> u32 {
        self.latches.iter().fold(0, |word, line| word | 1 << (line.2 % 32))
    }
}

fn list(numbers: &[u32]) -> String {
    numbers.iter().map(u32::to_string).collect::<Vec<_>>().join(",")
}

fn any_plan(random: &mut Random) -> Plan {
    match random.below(100) {
        0..=1 => large(random),
        2..=4 => many_lines(random),
        5..=14 => any_counter(random),
        15..=24 => at_a_bound(random),
        25..=44 => walk(random),
        _ => small(random),
    }
}

/// A small chart that fires a lot.
fn small(random: &mut Random) -> Plan {
    let steps = random.from_to(1, 7);
    let mut plan = head(random, steps);
    for _ in 0..random.below(9) {
        let (mut before, mut after) = (any_list(random, steps), any_list(random, steps));
        if before.is_empty() && after.is_empty() {
            before = vec![random.below(steps as usize) as u32];
            after = before.clone();
        }
        let condition = if random.percent(30) {
            "1".to_string()
        } else {
            let bytes = random.from_to(1, 20) as usize;
            condition(random, &plan, bytes, true)
        };
        plan.moves.push((before, after, condition));
    }
    add_actions(random, &mut plan, 6);
    plan
}

/// Tokens that walk round rings of steps, with latches and holds on the way:
/// long evolutions and loops of every length.
fn walk(random: &mut Random) -> Plan {
    let steps = random.from_to(2, 30);
    let mut plan = head(random, steps);
    let mut first = 0;
    while first < steps {
        let length = random.from_to(1, (steps - first).min(8));
        for place in 0..length {
            let to = first + (place + 1) % length;
            let condition = match random.below(12) {
                0 => condition(random, &plan, 12, true),
                1 => format!("!x{}", random.below(steps as usize)),
                2 => format!("ux{}", random.below(steps as usize)),
                _ => "1".to_string(),
            };
            plan.moves.push((vec![first + place], vec![to], condition));
        }
        first += length;
    }
    plan.limit = any_limit(random);
    add_actions(random, &mut plan, 10);
    plan
}

fn head(random: &mut Random, steps: u32) -> Plan {
    let mut initial = any_list(random, steps);
    if initial.is_empty() {
        initial.push(random.below(steps as usize) as u32);
    }
    Plan {
        steps,
        initial,
        inputs: random.pick(&[0, 1, 2, 3, 4, 32]),
        outputs: random.pick(&[0, 1, 2, 3, 6, 32]),
        limit: any_limit(random),
        ..Plan::default()
    }
}

fn any_limit(random: &mut Random) -> u32 {
    match random.below(6) {
        0 => random.from_to(1, 4),
        1 => random.from_to(1, 40),
        2 => random.from_to(1, 1_024),
        3 => random.from_to(1_000, 1_024),
        4 => 1_024,
        _ => 16,
    }
}

/// A list that rises, mostly of one step.
fn any_list(random: &mut Random, steps: u32) -> Vec<u32> {
    let word = match random.below(10) {
        0 => 0,
        1..=6 => 1 << random.below(steps as usize),
        7..=8 => 1 << random.below(steps as usize) | 1 << random.below(steps as usize),
        _ => random.word() & random.word(),
    };
    (0..steps).filter(|step| word >> step & 1 != 0).collect()
}

/// Hold and latch lines: an output has one kind or the other.
fn add_actions(random: &mut Random, plan: &mut Plan, most: usize) {
    if plan.outputs == 0 {
        return;
    }
    let held = random.word();
    let one_of = |random: &mut Random, wanted: u32, outputs: u32| {
        (0..8).map(|_| random.below(outputs as usize) as u32).find(|o| held >> o & 1 == wanted)
    };
    for _ in 0..random.below(most) {
        if let Some(output) = one_of(random, 1, plan.outputs) {
            let step = random.below(plan.steps as usize) as u32;
            let bytes = random.from_to(1, 16) as usize;
            let condition = condition(random, plan, bytes, false);
            plan.holds.push((step, output, condition));
        }
    }
    for _ in 0..random.below(most) {
        if let Some(output) = one_of(random, 0, plan.outputs) {
            let step = random.below(plan.steps as usize) as u32;
            let edge = random.pick(&['u', 'd']);
            plan.latches.push((step, edge, output, random.from_to(0, 1)));
        }
    }
}

/// A condition of at most `bytes` bytes, at least 1.
fn condition(random: &mut Random, plan: &Plan, bytes: usize, edges: bool) -> String {
    let mut text = factor(random, plan, bytes, edges);
    while random.percent(70) && text.len() + 2 <= bytes {
        let room = bytes - text.len() - 1;
        text.push(random.pick(&['+', '.', '.']));
        text += &factor(random, plan, room, edges);
    }
    text
}

fn factor(random: &mut Random, plan: &Plan, bytes: usize, edges: bool) -> String {
    match random.below(10) {
        0..=1 if bytes >= 2 => "!".to_string() + &factor(random, plan, bytes - 1, edges),
        2..=3 if bytes >= 5 => format!("({})", condition(random, plan, bytes - 2, edges)),
        _ => {
            let atom = atom(random, plan, edges);
            if atom.len() <= bytes {
                atom
            } else {
                random.pick(&["0", "1", "1"]).to_string()
            }
        }
    }
}

fn atom(random: &mut Random, plan: &Plan, edges: bool) -> String {
    let step = random.below(plan.steps as usize);
    let input = random.below(plan.inputs.max(1) as usize);
    let kinds = if edges { 14 } else { 9 };
    match random.below(kinds) {
        0 => random.pick(&["0", "1"]).to_string(),
        1..=4 => format!("x{step}"),
        5..=6 if plan.inputs > 0 => format!("i{input}"),
        7..=8 => format!("{}/x{step}", random.pick(DELAYS)),
        9..=10 => format!("{}x{step}", random.pick(&["u", "d"])),
        11..=13 if plan.inputs > 0 => format!("{}i{input}", random.pick(&["u", "d"])),
        _ => "1".to_string(),
    }
}

/// A condition of exactly 64 bytes.
fn long_condition(random: &mut Random, plan: &Plan, edges: bool) -> String {
    loop {
        let mut text = condition(random, plan, 64, edges);
        while text.len() < 60 {
            let room = 63 - text.len();
            text.push(random.pick(&['+', '.']));
            text += &factor(random, plan, room, edges);
        }
        if text.len().is_multiple_of(2) {
            return "!".repeat(64 - text.len()) + &text;
        }
    }
}

/// The largest kind of chart: 30 steps, 64 lines of each kind, conditions of
/// 64 bytes, lists filled up until the text has 16,384 bytes or just under.
pub fn large(random: &mut Random) -> Plan {
    let mut plan = Plan {
        steps: 30,
        initial: vec![random.below(30) as u32],
        inputs: 32,
        outputs: 32,
        limit: 16,
        ..Plan::default()
    };
    for line in 0..64u32 {
        let text = long_condition(random, &plan, true);
        plan.moves.push((vec![line % 30], vec![random.from_to(0, 29)], text));
        let text = long_condition(random, &plan, false);
        plan.holds.push((random.from_to(0, 29), line % 16, text));
        let edge = random.pick(&['u', 'd']);
        plan.latches.push((random.from_to(0, 29), edge, 16 + line % 16, random.from_to(0, 1)));
    }
    fill_lists(random, &mut plan);
    plan
}

/// The first seed from 0 on that the search in `largest` ends with.
const LARGEST: u64 = 42_988;

/// One chart of the largest kind, with a state and an event (elapsed, inputs)
/// that fire a few times and end stable.
pub fn largest() -> (Plan, State, u32, u32) {
    let mut seed = LARGEST;
    loop {
        let random = &mut Random::new(seed);
        let plan = large(random);
        let mut state = State { situation: random.word() & bits(30), ..State::default() };
        state.inputs = random.word();
        let inputs = random.word();
        let answer = crate::event(&plan.text(), &state, 0, inputs, &mut []);
        if answer.number == 0 && answer.count >= 4 {
            return (plan, state, 0, inputs);
        }
        seed += 1;
    }
}

/// Adds steps to the lists of the moves while the text stays within bounds.
fn fill_lists(random: &mut Random, plan: &mut Plan) {
    let mut room = 16_384 - plan.text().len();
    while room > 2 {
        let index = random.below(plan.moves.len());
        let line = &mut plan.moves[index];
        let list = if random.percent(30) { &mut line.0 } else { &mut line.1 };
        let step = random.from_to(0, 29);
        if let Err(place) = list.binary_search(&step) {
            list.insert(place, step);
            room -= if step < 10 { 2 } else { 3 };
        }
    }
    plan.limit = [16, 100, 1_000][room];
}

/// 64 lines of a kind, or 65.
fn many_lines(random: &mut Random) -> Plan {
    let mut plan = small(random);
    plan.outputs = plan.outputs.max(1);
    let lines = random.pick(&[63, 64, 64, 64, 65]);
    match random.below(3) {
        0 => {
            while plan.moves.len() < lines {
                let steps = plan.steps as usize;
                let before = vec![random.below(steps) as u32];
                let text = random.pick(&["0", "1", "x0", "x9", "", "ux0"]).to_string();
                plan.moves.push((before, vec![random.below(steps) as u32], text));
            }
        }
        1 => {
            plan.latches.clear();
            while plan.holds.len() < lines {
                let text = random.pick(&["0", "1", "x0", "!x0", "ux0"]).to_string();
                plan.holds.push((0, 0, text));
            }
        }
        _ => {
            plan.holds.clear();
            while plan.latches.len() < lines {
                let edge = random.pick(&['u', 'd']);
                plan.latches.push((0, edge, 0, random.from_to(0, 1)));
            }
        }
    }
    plan
}

/// A binary counter: step b is bit b. Each firing adds 1. With `stops` it
/// rests when all bits are set, else it goes round.
pub fn counter(digits: u32, stops: bool, limit: u32) -> Plan {
    let all = |from: u32, to: u32| {
        let steps: Vec<_> = (from..to).map(|step| format!("x{step}")).collect();
        if steps.is_empty() {
            "1".to_string()
        } else {
            steps.join(".")
        }
    };
    let mut plan =
        Plan { steps: digits, initial: vec![0], limit, outputs: 1, inputs: 1, ..Plan::default() };
    for digit in 0..digits {
        let lower = all(0, digit);
        plan.moves.push((vec![], vec![digit], format!("!x{digit}.{lower}")));
        let off = if stops { format!("{lower}.!({})", all(digit + 1, digits)) } else { lower };
        plan.moves.push((vec![digit], vec![], off));
    }
    plan
}

/// A chart that fires 1,024 times from the empty situation and then rests: ten
/// steps count to 1,023, the eleventh is set last.
pub fn thousand() -> Plan {
    let mut plan = counter(10, true, 1_024);
    plan.steps = 11;
    plan.moves.push((vec![], vec![10], "!x10.x0.x1.x2.x3.x4.x5.x6.x7.x8.x9".to_string()));
    plan
}

/// A counter with a limit near its number of firings, and some actions.
fn any_counter(random: &mut Random) -> Plan {
    let digits = random.from_to(1, 10);
    let around = (1u32 << digits) + random.from_to(0, 6);
    let other = any_limit(random);
    let limit = random.pick(&[around.saturating_sub(4), around, 1_024, other]);
    let mut plan = counter(digits, random.percent(60), limit.clamp(1, 1_024));
    plan.outputs = random.pick(&[0, 1, 3]);
    add_actions(random, &mut plan, 5);
    if random.percent(20) {
        let text = condition(random, &plan, 10, true);
        plan.moves.push((vec![0], vec![0], text));
    }
    plan
}

/// A small chart with one thing at one of its bounds or just over it.
fn at_a_bound(random: &mut Random) -> Plan {
    let mut plan = small(random);
    let step = random.pick(&[0, plan.steps - 1, plan.steps, 31, 32, 64, 9_999_999, 10_000_000]);
    let item = random.pick(&[0, plan.inputs.wrapping_sub(1), plan.inputs, 32, 33, 9_999_999]);
    let one = vec![random.below(plan.steps as usize) as u32];
    match random.below(12) {
        0 => plan.steps = random.pick(&[0, 30, 31, 9_999_999, 10_000_000]),
        1 => plan.inputs = random.pick(&[32, 33, 9_999_999]),
        2 => plan.outputs = random.pick(&[32, 33, 9_999_999]),
        3 => plan.limit = random.pick(&[0, 1, 1_024, 1_025]),
        4 => plan.initial = random.pick(&[&[][..], &[0, 0], &[1, 0], &[0, 29], &[30]]).to_vec(),
        5 => plan.moves.push((vec![step], one, "1".to_string())),
        6 => plan.moves.push((one, vec![], bound_condition(random, step, item))),
        7 => plan.holds.push((one[0], 0, bound_condition(random, step, item))),
        8 => plan.holds.push((step, item, "1".to_string())),
        9 => plan.latches.push((step, 'u', item, 1)),
        10 => plan.latches.push((0, random.pick(&['U', 'u', 'd']), 0, random.from_to(0, 2))),
        _ => plan.moves.push((vec![], vec![], random.pick(&["1", "", "?"]).to_string())),
    }
    plan.steps = plan.steps.max(1);
    plan
}

/// Conditions at the bounds of length, depth and T, and not of the grammar.
fn bound_condition(random: &mut Random, step: u32, item: u32) -> String {
    let deep = random.pick(&[1, 30, 31, 32, 33]);
    let long = random.pick(&[29, 30, 31, 32]);
    match random.below(12) {
        0 => format!("{}1{}", "(".repeat(deep), ")".repeat(deep)),
        1 => format!("{}x0", "!".repeat(2 * long)),
        2 => format!("{}1", "1.".repeat(long)),
        3 => format!("x{step}"),
        4 => format!("{}i{item}", random.pick(&["", "u", "d"])),
        5 => format!("{}x{step}", random.pick(&["u", "d", "1/", "!"])),
        6 => format!("{}/x0", random.pick(&[0, 1, 3_600_000, 3_600_001, 9_999_999, 10_000_000])),
        7 => random.pick(&["", "2", "10", "01", "00", "1/", "1/x", "x", "u", "ui"]).to_string(),
        8 => random.pick(&["()", "1+", "+1", "1..1", "!", "(1", "1)", "1 ", "x01"]).to_string(),
        9 => random.pick(&["0/x9", "ux9.", "1/i0", "u1/x0", "x0x0", "1!1", "i"]).to_string(),
        10 => format!("x0.!(1+{}0)", "!".repeat(random.below(60))),
        _ => format!("{}{}", "x0+".repeat(random.below(21)), "x0"),
    }
}

/// One byte or one line changed.
fn damage(random: &mut Random, text: &mut Vec<u8>) {
    match random.below(10) {
        0..=2 => change_byte(random, text),
        3 => drop(remove_byte(random, text)),
        4..=5 => {
            let place = random.below(text.len() + 1);
            text.insert(place, any_byte(random));
        }
        6 => text.truncate(random.below(text.len() + 1)),
        _ => damage_lines(random, text),
    }
}

fn any_byte(random: &mut Random) -> u8 {
    match random.below(10) {
        0 => random.word() as u8,
        1 => random.pick(&[0, 9, 10, 13, 32, 255]),
        _ => random.pick(b"0123456789,>:=+.!()/xiud\nmhle"),
    }
}

fn change_byte(random: &mut Random, text: &mut [u8]) {
    if !text.is_empty() {
        text[random.below(text.len())] = any_byte(random);
    }
}

fn remove_byte(random: &mut Random, text: &mut Vec<u8>) -> Option<u8> {
    (!text.is_empty()).then(|| text.remove(random.below(text.len())))
}

/// A line dropped, doubled, or swapped with another.
fn damage_lines(random: &mut Random, text: &mut Vec<u8>) {
    let mut lines: Vec<Vec<u8>> =
        text.split_inclusive(|b| *b == b'\n').map(<[u8]>::to_vec).collect();
    if lines.is_empty() {
        return;
    }
    let place = random.below(lines.len());
    match random.below(3) {
        0 => drop(lines.remove(place)),
        1 => lines.insert(place, lines[place].clone()),
        _ => lines.swap(place, random.below(place + 1)),
    }
    *text = lines.concat();
}

/// A text that is nothing like a chart, or too long.
fn noise(random: &mut Random) -> Vec<u8> {
    let length = random.pick(&[0, 1, 7, 100, 16_384, 16_385, 20_000]);
    (0..length).map(|_| any_byte(random)).collect()
}
