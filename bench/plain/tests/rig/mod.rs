//! The rig's program: a chart text and the bytes of standard input go in, what
//! it prints comes out.

use plain::{event, start, Answer, State};

/// "The program reads the chart from `chart.txt` and standard input: `go=W`,
/// then `ev=E:W` lines [...], each ended by byte 10."
pub fn run(chart: &[u8], log: &[u8]) -> Vec<u8> {
    let mut printed = String::new();
    let mut state = State::default();
    let mut rest = log;
    let mut line = 1;
    while line == 1 || !rest.is_empty() {
        let Some(order) = next_order(&mut rest, line == 1) else {
            printed += &format!("bad={line}\n");
            break;
        };
        let answer = match order {
            (None, inputs) => start(chart, inputs, &mut []),
            (Some(elapsed), inputs) => event(chart, &state, elapsed, inputs, &mut []),
        };
        printed += &block(&answer);
        state = answer.state;
        if line == 1 && answer.number != 0 {
            break;
        }
        line += 1;
    }
    printed.into_bytes()
}

/// "For each it prints four lines: answer number, count, situation word,
/// outputs word."
fn block(answer: &Answer) -> String {
    let Answer { number, count, state, outputs } = answer;
    format!("ans={number}\nn={count}\nsit={}\nout={outputs}\n", state.situation)
}

/// The elapsed time, none for `go`, and the inputs of the next line.
fn next_order(rest: &mut &[u8], first: bool) -> Option<(Option<u32>, u32)> {
    let end = rest.iter().position(|byte| *byte == b'\n')?;
    let line = &rest[..end];
    *rest = &rest[end + 1..];
    if first {
        return Some((None, word(line.strip_prefix(b"go=")?)?));
    }
    let numbers = line.strip_prefix(b"ev=")?;
    let colon = numbers.iter().position(|byte| *byte == b':')?;
    Some((Some(word(&numbers[..colon])?), word(&numbers[colon + 1..])?))
}

/// "1 to 10 digits, no leading zero but for 0 itself, at most 4,294,967,295"
fn word(digits: &[u8]) -> Option<u32> {
    let right = !digits.is_empty()
        && digits.len() <= 10
        && digits.iter().all(u8::is_ascii_digit)
        && (digits[0] != b'0' || digits.len() == 1);
    if !right {
        return None;
    }
    std::str::from_utf8(digits).ok()?.parse().ok()
}
