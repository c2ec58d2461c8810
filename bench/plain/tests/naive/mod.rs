//! The paper once more, as slowly and plainly as it can be said: lines are
//! split off, conditions become trees, every earlier pair is kept. It shares
//! no code with the engine and serves to test it.

use plain::{Answer, State};

enum Cond {
    Or(Vec<Cond>),
    And(Vec<Cond>),
    Not(Box<Cond>),
    Truth(bool),
    Step(u32),
    Input(u32),
    StepEdge(bool, u32),
    InputEdge(bool, u32),
    Delay(u32, u32),
}

#[derive(Default)]
struct Chart {
    steps: u32,
    initial: Vec<u32>,
    inputs: u32,
    outputs: u32,
    limit: u32,
    moves: Vec<(Vec<u32>, Vec<u32>, Cond)>,
    /// Start and length of each move's condition.
    places: Vec<(usize, usize)>,
    holds: Vec<(u32, u32, Cond)>,
    latches: Vec<(u32, bool, u32, bool)>,
}

// The text.

fn number(bytes: &[u8]) -> Option<u32> {
    let digits = std::str::from_utf8(bytes).ok()?;
    let right = (1..=7).contains(&digits.len())
        && digits.bytes().all(|byte| byte.is_ascii_digit())
        && (digits == "0" || !digits.starts_with('0'));
    if right {
        digits.parse().ok()
    } else {
        None
    }
}

fn list(bytes: &[u8]) -> Option<Vec<u32>> {
    if bytes.is_empty() {
        return Some(vec![]);
    }
    bytes.split(|byte| *byte == b',').map(number).collect()
}

fn rises(list: &[u32]) -> bool {
    list.windows(2).all(|two| two[0] < two[1])
}

/// Splits at the first `sign`.
fn cut(bytes: &[u8], sign: u8) -> Option<(&[u8], &[u8])> {
    let place = bytes.iter().position(|byte| *byte == sign)?;
    Some((&bytes[..place], &bytes[place + 1..]))
}

/// Splits the text at signs outside of brackets; None if brackets are unpaired.
fn split_outside(bytes: &[u8], sign: u8) -> Option<Vec<&[u8]>> {
    let (mut parts, mut from, mut depth) = (vec![], 0, 0);
    for (place, byte) in bytes.iter().enumerate() {
        match byte {
            b'(' => depth += 1,
            b')' if depth == 0 => return None,
            b')' => depth -= 1,
            _ if *byte == sign && depth == 0 => {
                parts.push(&bytes[from..place]);
                from = place + 1;
            }
            _ => (),
        }
    }
    parts.push(&bytes[from..]);
    (depth == 0).then_some(parts)
}

fn cond(bytes: &[u8]) -> Option<Cond> {
    Some(Cond::Or(split_outside(bytes, b'+')?.into_iter().map(term).collect::<Option<_>>()?))
}

fn term(bytes: &[u8]) -> Option<Cond> {
    Some(Cond::And(split_outside(bytes, b'.')?.into_iter().map(factor).collect::<Option<_>>()?))
}

fn factor(bytes: &[u8]) -> Option<Cond> {
    match bytes {
        [b'!', rest @ ..] => Some(Cond::Not(Box::new(factor(rest)?))),
        [b'(', inner @ .., b')'] => cond(inner),
        _ => atom(bytes),
    }
}

fn atom(bytes: &[u8]) -> Option<Cond> {
    Some(match bytes {
        b"0" => Cond::Truth(false),
        b"1" => Cond::Truth(true),
        [b'x', s @ ..] => Cond::Step(number(s)?),
        [b'i', i @ ..] => Cond::Input(number(i)?),
        [b'u', b'x', s @ ..] => Cond::StepEdge(true, number(s)?),
        [b'd', b'x', s @ ..] => Cond::StepEdge(false, number(s)?),
        [b'u', b'i', i @ ..] => Cond::InputEdge(true, number(i)?),
        [b'd', b'i', i @ ..] => Cond::InputEdge(false, number(i)?),
        _ => {
            let (t, step) = cut(bytes, b'/')?;
            let t = number(t)?;
            if !(1..=3_600_000).contains(&t) {
                return None;
            }
            Cond::Delay(t, number(step.strip_prefix(b"x")?)?)
        }
    })
}

fn names_undeclared(cond: &Cond, chart: &Chart) -> bool {
    match cond {
        Cond::Or(parts) | Cond::And(parts) => parts.iter().any(|p| names_undeclared(p, chart)),
        Cond::Not(part) => names_undeclared(part, chart),
        Cond::Truth(_) => false,
        Cond::Step(s) | Cond::StepEdge(_, s) | Cond::Delay(_, s) => *s >= chart.steps,
        Cond::Input(i) | Cond::InputEdge(_, i) => *i >= chart.inputs,
    }
}

fn has_edge(cond: &Cond) -> bool {
    match cond {
        Cond::Or(parts) | Cond::And(parts) => parts.iter().any(has_edge),
        Cond::Not(part) => has_edge(part),
        Cond::StepEdge(..) | Cond::InputEdge(..) => true,
        _ => false,
    }
}

/// "condition 1 to 64 bytes" and of the grammar.
fn whole_cond(bytes: &[u8]) -> Option<Cond> {
    if (1..=64).contains(&bytes.len()) {
        cond(bytes)
    } else {
        None
    }
}

/// The lowest of the faults found.
fn lowest(faults: &[(bool, u32)]) -> Result<(), u32> {
    match faults.iter().filter(|fault| fault.0).map(|fault| fault.1).min() {
        Some(number) => Err(number),
        None => Ok(()),
    }
}

const KINDS: [&[u8]; 10] = [
    b"chart=",
    b"steps=",
    b"initial=",
    b"inputs=",
    b"outputs=",
    b"limit=",
    b"move=",
    b"hold=",
    b"latch=",
    b"end=",
];

/// One line of a kind, without its byte 10, into the chart.
fn line(chart: &mut Chart, kind: usize, value: &[u8], place: usize) -> Result<(), u32> {
    match kind {
        2 => {
            let steps = list(value).ok_or(2u32)?;
            let undeclared = steps.iter().any(|s| *s >= chart.steps);
            lowest(&[(steps.is_empty() || !rises(&steps), 3), (undeclared, 6)])?;
            chart.initial = steps;
        }
        0..=5 => {
            let n = number(value).ok_or(2u32)?;
            let range = [1..=1, 1..=30, 0..=0, 0..=32, 0..=32, 1..=1024][kind].clone();
            lowest(&[(!range.contains(&n), 3)])?;
            match kind {
                1 => chart.steps = n,
                3 => chart.inputs = n,
                4 => chart.outputs = n,
                5 => chart.limit = n,
                _ => (),
            }
        }
        6 => {
            let (lists, text) = cut(value, b':').ok_or(2u32)?;
            let (before, after) = cut(lists, b'>').ok_or(2u32)?;
            let (before, after) = (list(before).ok_or(2u32)?, list(after).ok_or(2u32)?);
            let cond = whole_cond(text);
            let undeclared = before.iter().chain(&after).any(|s| *s >= chart.steps)
                || cond.as_ref().is_some_and(|c| names_undeclared(c, chart));
            lowest(&[
                (chart.moves.len() == 64, 3),
                (!rises(&before) || !rises(&after), 3),
                (before.is_empty() && after.is_empty(), 3),
                (cond.is_none(), 4),
                (undeclared, 6),
            ])?;
            chart.moves.push((before, after, cond.unwrap()));
            chart.places.push((place + lists.len() + 1, text.len()));
        }
        7 => {
            let (step, rest) = cut(value, b':').ok_or(2u32)?;
            let (output, text) = cut(rest, b':').ok_or(2u32)?;
            let (step, output) = (number(step).ok_or(2u32)?, number(output).ok_or(2u32)?);
            let cond = whole_cond(text);
            let undeclared = step >= chart.steps
                || output >= chart.outputs
                || cond.as_ref().is_some_and(|c| names_undeclared(c, chart));
            lowest(&[
                (chart.holds.len() == 64, 3),
                (cond.is_none(), 4),
                (undeclared, 6),
                (cond.as_ref().is_some_and(has_edge), 7),
            ])?;
            chart.holds.push((step, output, cond.unwrap()));
        }
        8 => {
            let parts: Vec<_> = value.split(|byte| *byte == b':').collect();
            let [step, edge, output, on] = parts[..] else { return Err(2) };
            let (step, output) = (number(step).ok_or(2u32)?, number(output).ok_or(2u32)?);
            let wrong = !matches!(edge, b"u" | b"d") || !matches!(on, b"0" | b"1");
            lowest(&[
                (wrong, 2),
                (chart.latches.len() == 64, 3),
                (step >= chart.steps || output >= chart.outputs, 6),
                (chart.holds.iter().any(|hold| hold.1 == output), 8),
            ])?;
            chart.latches.push((step, edge == b"u", output, on == b"1"));
        }
        _ => {
            let total = number(value).ok_or(2u32)? as usize;
            let lines = chart.moves.len() + chart.holds.len() + chart.latches.len();
            lowest(&[(total != lines, 9)])?;
        }
    }
    Ok(())
}

fn read(text: &[u8]) -> Result<Chart, (u32, u32)> {
    if text.len() > 16_384 {
        return Err((1, 0));
    }
    let mut chart = Chart::default();
    let (mut kind, mut number, mut place) = (0, 0, 0);
    loop {
        number += 1;
        let fault = |fault: u32| (fault, number);
        let (whole, _) = cut(&text[place..], b'\n').ok_or(fault(2))?;
        // A line may be of the kind that is due, and after the head of any
        // later kind.
        let kinds = if kind < 6 { kind..=kind } else { kind..=9 };
        let found = kinds.into_iter().find(|k| whole.starts_with(KINDS[*k])).ok_or(fault(2))?;
        let key = KINDS[found].len();
        line(&mut chart, found, &whole[key..], place + key).map_err(fault)?;
        place += whole.len() + 1;
        if found == 9 {
            return if place == text.len() { Ok(chart) } else { Err((2, number + 1)) };
        }
        kind = if found < 6 { found + 1 } else { found };
    }
}

// Evolution.

struct Look<'a> {
    now: u32,
    before: u32,
    inputs: u32,
    risen: u32,
    fallen: u32,
    ages: &'a [u32; 30],
}

fn on(word: u32, item: u32) -> bool {
    word >> item & 1 == 1
}

fn truth(cond: &Cond, look: &Look) -> bool {
    match cond {
        Cond::Or(parts) => parts.iter().any(|part| truth(part, look)),
        Cond::And(parts) => parts.iter().all(|part| truth(part, look)),
        Cond::Not(part) => !truth(part, look),
        Cond::Truth(value) => *value,
        Cond::Step(s) => on(look.now, *s),
        Cond::Input(i) => on(look.inputs, *i),
        Cond::StepEdge(true, s) => on(look.now, *s) && !on(look.before, *s),
        Cond::StepEdge(false, s) => !on(look.now, *s) && on(look.before, *s),
        Cond::InputEdge(true, i) => on(look.risen, *i),
        Cond::InputEdge(false, i) => on(look.fallen, *i),
        Cond::Delay(t, s) => on(look.now, *s) && look.ages[*s as usize] >= *t,
    }
}

fn refusal(number: u32, count: u32, state: State) -> Answer {
    Answer { number, count, state, outputs: 0 }
}

/// `given` is the state handed back with a refusal, `from` the one after time
/// and inputs.
fn evolve(
    chart: &Chart,
    given: State,
    from: State,
    risen: u32,
    fallen: u32,
    trace: &mut [u32],
) -> Answer {
    let ages = from.ages;
    let mut look = Look {
        now: from.situation,
        before: from.situation,
        inputs: from.inputs,
        risen,
        fallen,
        ages: &ages,
    };
    let mut latched = from.latched;
    let mut pairs: Vec<(u32, u32)> = vec![];
    let number = loop {
        let cleared: Vec<_> = chart
            .moves
            .iter()
            .filter(|(before, _, cond)| {
                before.iter().all(|s| on(look.now, *s)) && truth(cond, &look)
            })
            .collect();
        if cleared.is_empty() {
            break 0;
        }
        if pairs.len() == chart.limit as usize {
            break 13;
        }
        let mut next = look.now;
        cleared.iter().flat_map(|line| &line.0).for_each(|s| next &= !(1 << s));
        cleared.iter().flat_map(|line| &line.1).for_each(|s| next |= 1 << s);
        let acting = |value: bool| {
            chart.latches.iter().filter(move |(s, up, _, v)| {
                *v == value && on(look.now, *s) != on(next, *s) && on(next, *s) == *up
            })
        };
        acting(true).for_each(|line| latched |= 1 << line.2);
        acting(false).for_each(|line| latched &= !(1 << line.2));
        look = Look { now: next, before: look.now, risen: 0, fallen: 0, ..look };
        pairs.push((look.now, look.before));
        if pairs[..pairs.len() - 1].contains(&(look.now, look.before)) {
            break 12;
        }
    };
    pairs.iter().zip(trace).for_each(|(pair, word)| *word = pair.0);
    let count = pairs.len() as u32;
    if number != 0 {
        return refusal(number, count, given);
    }
    let mut state = State { situation: look.now, inputs: from.inputs, latched, ages: [0; 30] };
    let mut outputs = latched;
    for step in 0..30 {
        if on(given.situation, step) && on(look.now, step) {
            state.ages[step as usize] = ages[step as usize];
        }
    }
    for (step, output, cond) in &chart.holds {
        if on(look.now, *step) && truth(cond, &look) {
            outputs |= 1 << output;
        }
    }
    Answer { number: 0, count, state, outputs }
}

fn declared(word: u32, count: u32) -> bool {
    (count..32).all(|item| !on(word, item))
}

fn accepted(chart: &Chart, state: &State) -> bool {
    let latchable = |output: u32| chart.latches.iter().any(|line| line.2 == output);
    declared(state.situation, chart.steps)
        && declared(state.inputs, chart.inputs)
        && (0..32).all(|output| !on(state.latched, output) || latchable(output))
        && state.ages.iter().all(|age| *age <= 3_600_000)
        && (0..30).all(|step| on(state.situation, step) || state.ages[step as usize] == 0)
}

// The calls.

pub fn check(text: &[u8]) -> (u32, u32) {
    read(text).err().unwrap_or((0, 0))
}

pub fn lookup(text: &[u8], k: u32) -> (usize, usize) {
    let Ok(chart) = read(text) else { return (0, 0) };
    if k == 0 || k as usize > chart.places.len() {
        (0, 0)
    } else {
        chart.places[k as usize - 1]
    }
}

pub fn start(text: &[u8], inputs: u32, trace: &mut [u32]) -> Answer {
    let zero = State::default();
    let chart = match read(text) {
        Ok(chart) => chart,
        Err((number, line)) => return refusal(number, line, zero),
    };
    if !declared(inputs, chart.inputs) {
        return refusal(11, 0, zero);
    }
    let situation = chart.initial.iter().map(|step| 1 << step).sum();
    evolve(&chart, zero, State { situation, inputs, ..zero }, 0, 0, trace)
}

pub fn event(text: &[u8], state: &State, elapsed: u32, inputs: u32, trace: &mut [u32]) -> Answer {
    let chart = match read(text) {
        Ok(chart) => chart,
        Err((number, line)) => return refusal(number, line, *state),
    };
    if !accepted(&chart, state) {
        return refusal(10, 0, *state);
    }
    if elapsed > 60_000 || !declared(inputs, chart.inputs) {
        return refusal(11, 0, *state);
    }
    let mut from = State { inputs, ..*state };
    for step in 0..30 {
        if on(state.situation, step) {
            let age = &mut from.ages[step as usize];
            *age = (*age + elapsed).min(3_600_000);
        }
    }
    evolve(&chart, *state, from, inputs & !state.inputs, state.inputs & !inputs, trace)
}
