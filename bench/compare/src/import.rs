//! SFC texts on both importers: the differential run, and texts for an
//! instruction meter.

use std::collections::BTreeMap;
use std::hint::black_box;

use grafcet::boundary::{self, ANSWER_WORDS, PAIR_WORDS, REFUSED};
use grafcet::Item;
use plain::gen::sfc::{self, Case};
use plain::gen::Random;
use plain::sfc::{Imported, Names, Place};

/// What the lent words hold before a call that must not touch them.
const JUNK: u32 = 0xDEAD_BEEF;

/// How often each thing was seen.
#[derive(Default)]
struct Counts {
    /// By answer number: at a line, and at line 0.
    answers: BTreeMap<u32, [u64; 2]>,
    names: u64,
    empty_parts: u64,
    refused: u64,
}

/// Runs the first cases; true if there is no difference.
pub fn run(count: u64) -> bool {
    let mut counts = Counts::default();
    for n in 0..count {
        let case = sfc::case(n);
        let random = &mut Random::new(!n);
        if !(agrees(&case, &mut counts)
            && names_agree(random, &case.text, &mut counts)
            && refuses(random, &case, &mut counts))
        {
            println!("import {n} differs");
            return false;
        }
    }
    counts.show(count);
    true
}

/// The bytes lent, with something in them that must stay where nothing is
/// written.
fn lent(bytes: usize) -> Vec<u8> {
    (0..bytes).map(|place| place as u8 ^ 0xA5).collect()
}

/// Number, line, length and every byte of the room are the same.
fn agrees(case: &Case, counts: &mut Counts) -> bool {
    let (mut ours, mut theirs) = (lent(case.room), lent(case.room));
    let grafcet::Imported { number, line, length } = grafcet::import(&case.text, &mut ours);
    let answer = plain::sfc::import(&case.text, &mut theirs);
    counts.answers.entry(answer.number).or_default()[(answer.line == 0) as usize] += 1;
    Imported { number, line, length } == answer && ours == theirs
}

/// Every name stands at the same place, and there is none behind the last. Of a
/// long text only some are asked for, since each asking reads the text.
fn names_agree(random: &mut Random, text: &[u8], counts: &mut Counts) -> bool {
    let Names { steps, inputs, outputs } = plain::sfc::names(text);
    let kinds = [(Item::Step, steps), (Item::Input, inputs), (Item::Output, outputs)];
    kinds.into_iter().all(|(kind, places)| {
        let count = places.len() as u32;
        let mut asked: Vec<u32> = (0..count).collect();
        if text.len() > 2_000 && count > 2 {
            asked = vec![0, random.below(places.len()) as u32, count - 1];
        }
        asked.extend([count, random.pick(&[count + 1, 29, 30, 31, 32, 255, u32::MAX])]);
        asked.into_iter().all(|k| name_agrees(text, kind, k, &places, counts))
    })
}

fn name_agrees(text: &[u8], kind: Item, k: u32, places: &[Place], counts: &mut Counts) -> bool {
    let (start, length) = places.get(k as usize).copied().unwrap_or((0, 0));
    counts.names += 1;
    counts.empty_parts += (length == 0) as u64;
    std::ptr::eq(grafcet::name(text, kind, k), &text[start..][..length])
}

/// Both calls with a wrong length of the answer: refused, and nothing touched.
fn refuses(random: &mut Random, case: &Case, counts: &mut Counts) -> bool {
    let mut other = |right: usize| {
        let length = random.below(100);
        let any = random.pick(&[0, 1, right - 1, right + 1, 2 * right, length]);
        vec![JUNK; if any == right { right + 1 } else { any }]
    };
    let mut room = lent(case.room);
    let (mut out, mut part) = (other(ANSWER_WORDS), other(PAIR_WORDS));
    counts.refused += 2;
    boundary::import(&case.text, &mut room, &mut out) == REFUSED
        && boundary::name(&case.text, 0, 0, &mut part) == REFUSED
        && out.iter().chain(&part).all(|word| *word == JUNK)
        && room == lent(case.room)
}

impl Counts {
    fn show(&self, count: u64) {
        println!("| Answer | at a line | at line 0 |\n|---|---|---|");
        for (number, [line, line_0]) in &self.answers {
            println!("| {number:6} | {line:9} | {line_0:9} |");
        }
        println!("{} names asked for, of which {} are not there", self.names, self.empty_parts);
        println!("{} calls with a wrong length refused, nothing touched", self.refused);
        println!("{count} imports on both: 0 differences");
    }
}

/// Four texts with their answers: the paper's example, plants of two and of ten
/// stations, and the slowest text found, which is refused.
fn text(name: &str) -> Option<(Vec<u8>, u32)> {
    match name {
        "press" => Some((sfc::PRESS.as_bytes().to_vec(), 0)),
        "small" => Some((sfc::plant(2), 0)),
        "large" => Some((sfc::plant(10), 0)),
        "crowd" => Some((sfc::crowd(), 18)),
        _ => None,
    }
}

/// Prints the bytes of a text.
pub fn bytes(name: &str) -> Option<bool> {
    println!("{}", text(name)?.0.len());
    Some(true)
}

/// Imports one text again and again.
pub fn imports(ours: bool, name: &str, count: u64) -> Option<bool> {
    let (text, answer) = text(name)?;
    let mut room = [0; 16_384];
    let answered = (0..count).all(|_| {
        let (text, room) = (black_box(&text[..]), black_box(&mut room[..]));
        let number = match ours {
            true => grafcet::import(text, room).number,
            false => plain::sfc::import(text, room).number,
        };
        black_box(number) == answer
    });
    Some(answered)
}
