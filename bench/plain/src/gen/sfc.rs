//! Random SFC texts: programs with and without faults of every kind, damaged
//! ones, and noise. The n-th case is the same on every machine.

mod layout;
mod program;

use super::{damage_lines, Random};
use crate::sfc;
use layout::{any_token, spoil_tokens, Layout};
use program::Program;

/// The paper's example.
pub const PRESS: &str = "(* one press *)
INITIAL_STEP Rest: Lamp(N); END_STEP
TRANSITION FROM Rest TO (Up, Down) := go AND NOT (stop OR FALSE); END_TRANSITION
STEP Down: Valve(R); END_STEP
STEP Up: Valve(S); lamp(n); END_STEP
TRANSITION FROM (Down, Up) TO rest := TRUE; END_TRANSITION
";

/// As many declarations as a text has room for, in one line: the 31st step is
/// one too many, and every later one in that line may still have a lower number.
pub fn crowd() -> Vec<u8> {
    let declared: String = (0..).map(|k| format!("STEP S{k}: END_STEP ")).take(820).collect();
    declared.into_bytes()
}

/// The program of a plant with up to ten stations, as a person would write it:
/// about 1,400 bytes for each station.
pub fn plant(stations: usize) -> Vec<u8> {
    let mut text = String::new();
    for k in 0..stations {
        let [waits, works, done] =
            ["waits", "works", "is_done"].map(|state| format!("Station_{k}_{state}"));
        text += &format!("(* Station {k}: a part comes, is clamped, worked on and let go.\n");
        text += "   The lamp is lit while the station waits for a part and while it works;\n";
        text += "   the clamp stays closed until the work is done or given up. *)\n";
        text += &format!("INITIAL_STEP {waits}:\n    Lamp_{k}(N);\nEND_STEP\n");
        text += &format!("STEP {works}:\n    Clamp_{k}(S);\n    Motor_{k}(N);\n");
        text += &format!("    lamp_{k}(N);\nEND_STEP\n");
        text += &format!("STEP {done}:\n    Clamp_{k}(R);\nEND_STEP\n");
        let ready = format!("Part_at_station_{k} AND NOT Emergency_stop");
        let pressed = format!("Automatic AND (Button_{k} OR NOT End_switch_{k})");
        for (why, from, to, condition) in [
            ("a part has come", &waits, &works, format!("{ready} AND {pressed}")),
            ("the work is done", &works, &done, format!("End_switch_{k} OR NOT ({ready})")),
            ("the work is given up", &works, &waits, format!("NOT Automatic AND Button_{k}")),
            ("the part is taken away", &done, &waits, format!("NOT Part_at_station_{k}")),
            ("all stands still", &format!("({done}, {works})"), &waits, format!("NOT ({pressed})")),
            ("for tests only", &waits, &format!("({works}, {done})"), format!("FALSE AND {ready}")),
        ] {
            text += &format!("(* Station {k}: {why}. *)\nTRANSITION FROM {from} TO {to}\n");
            text += &format!("    := {condition};\nEND_TRANSITION\n");
        }
    }
    text.into_bytes()
}

/// All that goes into one import.
#[derive(Clone, Debug)]
pub struct Case {
    pub text: Vec<u8>,
    /// Bytes lent.
    pub room: usize,
}

/// The n-th case: three quarters programs, the rest damaged or no programs.
pub fn case(n: u64) -> Case {
    let random = &mut Random::new(n);
    let text = match random.below(100) {
        0..=2 => filling(random),
        3..=4 => at_the_last_byte(random),
        5..=74 => any_program(random),
        75..=92 => damaged(random),
        93..=96 => any_tokens(random),
        _ => any_bytes(random),
    };
    Case { text, room: any_room(random) }
}

fn any_room(random: &mut Random) -> usize {
    match random.below(40) {
        0 => 0,
        1..=2 => 16_383,
        3..=8 => 16_385,
        9..=14 => 40_000,
        _ => 16_384,
    }
}

/// A program with no fault, one or some.
fn any_program(random: &mut Random) -> Vec<u8> {
    let mut program = Program::any(random);
    for _ in 0..random.pick(&[0, 0, 0, 0, 0, 1, 1, 1, 1, 2, 3]) {
        program.spoil(random);
    }
    let mut tokens = program.tokens(random);
    if random.percent(15) {
        spoil_tokens(random, &mut tokens);
    }
    Layout::any(random).write(random, &tokens)
}

/// A program whose result has 16,384 bytes, or some less or more. The text is
/// within bounds.
fn filling(random: &mut Random) -> Vec<u8> {
    let mut program = Program::full(random);
    let order = random.draw();
    let mut write =
        |program: &Program| Layout::DENSE.write(random, &program.tokens(&mut Random::new(order)));
    let length = sfc::import(&write(&program), &mut [0; 16_384]).length;
    program.lengthen(16_384 + order as usize % 7 - 3 - length);
    write(&program)
}

/// A program with blanks or a comment before its last token, up to 16,384
/// bytes or some less or more.
fn at_the_last_byte(random: &mut Random) -> Vec<u8> {
    let mut program = Program::any(random);
    if random.percent(30) {
        program.spoil(random);
    }
    let tokens = program.tokens(random);
    let text = Layout::any(random).write(random, &tokens);
    let length = 16_384 + random.below(5) - 2;
    let missing = length.saturating_sub(text.len());
    let place = text.iter().rposition(u8::is_ascii_whitespace).unwrap_or(0);
    let mut blank = vec![random.pick(b" \n\r"); missing];
    if random.percent(50) && missing >= 4 {
        blank[..2].copy_from_slice(b"(*");
        blank[missing - 2..].copy_from_slice(b"*)");
    }
    [&text[..place], &blank, &text[place..]].concat()
}

/// A program with some bytes changed, dropped or put in, lines moved, or cut
/// off.
fn damaged(random: &mut Random) -> Vec<u8> {
    let program = Program::any(random);
    let tokens = program.tokens(random);
    let mut text = Layout::any(random).write(random, &tokens);
    for _ in 0..random.pick(&[1, 1, 1, 2, 3]) {
        let place = random.below(text.len() + 1);
        let byte = any_byte(random);
        match random.below(8) {
            0..=2 if place < text.len() => text[place] = byte,
            3 if place < text.len() => drop(text.remove(place)),
            4 => text.truncate(place),
            5 => damage_lines(random, &mut text),
            _ => text.insert(place, byte),
        }
    }
    text
}

fn any_byte(random: &mut Random) -> u8 {
    match random.below(10) {
        0 => random.word() as u8,
        1..=2 => random.pick(b"\t\n\r \x00\x0b\x0c\x7f\x80\xa0\xff"),
        _ => random.pick(b"()(*)*:=;,,__ \n?.&/{}#%'019aAnNsSrRzZ@[`{"),
    }
}

/// A row of tokens in no order.
fn any_tokens(random: &mut Random) -> Vec<u8> {
    let tokens: Vec<_> = (0..1 + random.below(40)).map(|_| any_token(random)).collect();
    Layout::any(random).write(random, &tokens)
}

/// Bytes in no order, or none.
fn any_bytes(random: &mut Random) -> Vec<u8> {
    let length = random.pick(&[0, 0, 1, 7, 100, 16_384, 16_385, 20_000]);
    (0..length).map(|_| any_byte(random)).collect()
}
