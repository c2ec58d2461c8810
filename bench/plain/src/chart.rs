//! The chart text: read in one pass into tables of masks and tests.
//!
//! A line is judged as soon as it is read. The checks of a line stand in the
//! order of their numbers, so the first one that fails is the "lowest number
//! within it".

use crate::condition::{byte_at, compile, number, Condition};
use crate::state::{number as fault, State};
use crate::test::{Guard, Test};

/// "text at most 16,384 bytes"
pub(crate) const MAX_TEXT: usize = 16_384;
/// "up to 64" lines of a kind.
pub(crate) const MAX_LINES: usize = 64;
/// "L 1 to 1,024"
pub(crate) const MAX_LIMIT: u32 = 1_024;
/// "M and K 0 to 32"
pub(crate) const MAX_ITEMS: u32 = 32;

/// The head lines, and which outputs the hold and latch lines name.
#[derive(Clone, Copy, Default)]
pub(crate) struct Head {
    pub(crate) steps: u32,
    pub(crate) initial: u32,
    pub(crate) inputs: u32,
    pub(crate) outputs: u32,
    pub(crate) limit: u32,
    held: u32,
    pub(crate) latchable: u32,
}

/// `move=LIST>LIST:COND`
#[derive(Clone, Copy)]
pub(crate) struct Move {
    pub(crate) guard: Guard,
    pub(crate) before: u32,
    pub(crate) after: u32,
    /// Where the condition stands in the text.
    place: u16,
    bytes: u16,
}

/// `hold=STEP:OUTPUT:COND`
#[derive(Clone, Copy)]
pub(crate) struct Hold {
    pub(crate) guard: Guard,
    pub(crate) output: u32,
}

/// All `latch=STEP:E:OUTPUT:V` lines of one step: the outputs they put on or
/// off at its activation (u) and at its deactivation (d).
#[derive(Clone, Copy)]
pub(crate) struct Latches {
    pub(crate) on_at_u: u32,
    pub(crate) off_at_u: u32,
    pub(crate) on_at_d: u32,
    pub(crate) off_at_d: u32,
}

/// A chart that was read.
pub(crate) struct Chart<'t> {
    pub(crate) head: Head,
    pub(crate) moves: &'t [Move],
    pub(crate) holds: &'t [Hold],
    pub(crate) latches: &'t [Latches; State::STEPS],
    pub(crate) tests: &'t [Test],
}

impl Chart<'_> {
    /// "The lookup, given a move's number, counted from 1 among the move
    /// lines": start and length of its condition.
    pub(crate) fn condition_place(&self, move_number: u32) -> Option<(usize, usize)> {
        let index = (move_number as usize).checked_sub(1)?;
        let line = self.moves.get(index)?;
        Some((line.place as usize, line.bytes as usize))
    }
}

/// Tables to read a chart into, with room for LINES lines of a kind and TESTS
/// tests.
pub(crate) struct Tables<const LINES: usize, const TESTS: usize> {
    moves: [Move; LINES],
    holds: [Hold; LINES],
    latches: [Latches; State::STEPS],
    tests: [Test; TESTS],
}

impl<const LINES: usize, const TESTS: usize> Tables<LINES, TESTS> {
    #[inline(always)]
    pub(crate) fn blank() -> Self {
        let guard = Guard::NONE;
        Tables {
            moves: [Move { guard, before: 0, after: 0, place: 0, bytes: 0 }; LINES],
            holds: [Hold { guard, output: 0 }; LINES],
            latches: [Latches { on_at_u: 0, off_at_u: 0, on_at_d: 0, off_at_d: 0 }; State::STEPS],
            tests: [Test::NONE; TESTS],
        }
    }

    /// Reads a text into the blank tables. A refusal is its number and line.
    #[inline(always)]
    pub(crate) fn read(&mut self, text: &[u8]) -> Result<Chart<'_>, (u32, u32)> {
        let Tables { moves, holds, latches, tests } = self;
        read(text, Room { moves, holds, latches, tests })
    }
}

/// The tables lent to the reading.
struct Room<'t> {
    moves: &'t mut [Move],
    holds: &'t mut [Hold],
    latches: &'t mut [Latches; State::STEPS],
    tests: &'t mut [Test],
}

#[inline(never)]
fn read<'t>(text: &[u8], room: Room<'t>) -> Result<Chart<'t>, (u32, u32)> {
    // "Answer 1 comes first"
    if text.len() > MAX_TEXT {
        return Err((fault::TOO_LONG, 0));
    }
    let head = Head::default();
    let mut lines =
        Lines { text, at: 0, line: 0, head, room, moves: 0, holds: 0, latches: 0, tests: 0 };
    if let Err(number) = lines.read_all() {
        return Err((number, lines.line));
    }
    let Lines { head, room, moves, holds, tests, .. } = lines;
    let Room { moves: all_moves, holds: all_holds, latches, tests: all_tests } = room;
    Ok(Chart {
        head,
        moves: &all_moves[..moves],
        holds: &all_holds[..holds],
        latches,
        tests: &all_tests[..tests],
    })
}

/// A list of steps: "numbers joined by commas, perhaps empty".
struct List {
    bits: u32,
    empty: bool,
    rises: bool,
    undeclared: bool,
}

#[inline(always)]
fn refuse_if(broken: bool, number: u32) -> Result<(), u32> {
    if broken {
        Err(number)
    } else {
        Ok(())
    }
}

/// The text with the place in it, the number of the line being read, and what
/// was read so far. What is not of a line's shape is refused with 2 at once:
/// no number is lower there.
struct Lines<'x, 't> {
    text: &'x [u8],
    at: usize,
    line: u32,
    head: Head,
    room: Room<'t>,
    moves: usize,
    holds: usize,
    latches: usize,
    tests: usize,
}

impl Lines<'_, '_> {
    /// "Key=value lines in this fixed order"
    #[inline(always)]
    fn read_all(&mut self) -> Result<(), u32> {
        self.read_head(b"chart=", 1, 1)?;
        self.head.steps = self.read_head(b"steps=", 1, State::STEPS as u32)?;
        self.head.initial = self.read_initial()?;
        self.head.inputs = self.read_head(b"inputs=", 0, MAX_ITEMS)?;
        self.head.outputs = self.read_head(b"outputs=", 0, MAX_ITEMS)?;
        self.head.limit = self.read_head(b"limit=", 1, MAX_LIMIT)?;
        self.line += 1;
        while self.takes(b"move=") {
            self.read_move()?;
            self.line += 1;
        }
        while self.takes(b"hold=") {
            self.read_hold()?;
            self.line += 1;
        }
        while self.takes(b"latch=") {
            self.read_latch()?;
            self.line += 1;
        }
        self.read_end()
    }

    /// A whole head line with a number from `low` to `high`.
    #[inline(always)]
    fn read_head(&mut self, key: &[u8], low: u32, high: u32) -> Result<u32, u32> {
        self.line += 1;
        self.key(key)?;
        let value = self.number()?;
        self.sign(b'\n')?;
        refuse_if(value < low || value > high, fault::RULE)?;
        Ok(value)
    }

    /// `initial=LIST`: "`initial` is not empty. Lists rise strictly."
    #[inline(always)]
    fn read_initial(&mut self) -> Result<u32, u32> {
        self.line += 1;
        self.key(b"initial=")?;
        let list = self.list()?;
        self.sign(b'\n')?;
        refuse_if(list.empty || !list.rises, fault::RULE)?;
        refuse_if(list.undeclared, fault::UNDECLARED)?;
        Ok(list.bits)
    }

    /// `move=LIST>LIST:COND`: "A move may have one empty list, not both."
    #[inline(always)]
    fn read_move(&mut self) -> Result<(), u32> {
        let before = self.list()?;
        self.sign(b'>')?;
        let after = self.list()?;
        self.sign(b':')?;
        let rule_kept = before.rises && after.rises && !(before.empty && after.empty);
        if self.moves == MAX_LINES || !rule_kept {
            return Err(self.fault_if_ended(fault::RULE));
        }
        let place = self.at as u16;
        let condition = self.condition()?;
        let undeclared = before.undeclared || after.undeclared || condition.undeclared;
        refuse_if(undeclared, fault::UNDECLARED)?;
        let guard = self.guard(before.bits, &condition);
        let (before, after, bytes) = (before.bits, after.bits, condition.bytes as u16);
        self.room.moves[self.moves] = Move { guard, before, after, place, bytes };
        self.moves += 1;
        Ok(())
    }

    /// `hold=STEP:OUTPUT:COND`
    #[inline(always)]
    fn read_hold(&mut self) -> Result<(), u32> {
        let step = self.number()?;
        self.sign(b':')?;
        let output = self.number()?;
        self.sign(b':')?;
        if self.holds == MAX_LINES {
            return Err(self.fault_if_ended(fault::RULE));
        }
        let condition = self.condition()?;
        let undeclared = self.undeclared(step, output) || condition.undeclared;
        refuse_if(undeclared, fault::UNDECLARED)?;
        refuse_if(condition.edge, fault::EDGE_IN_HOLD)?;
        let guard = self.guard(1 << step, &condition);
        self.room.holds[self.holds] = Hold { guard, output: 1 << output };
        self.holds += 1;
        self.head.held |= 1 << output;
        Ok(())
    }

    /// `latch=STEP:E:OUTPUT:V`, "E is `u` (activation) or `d` (deactivation),
    /// V is 0 or 1"
    #[inline(always)]
    fn read_latch(&mut self) -> Result<(), u32> {
        let step = self.number()?;
        self.sign(b':')?;
        let at_u = self.either(b'u', b'd')?;
        self.sign(b':')?;
        let output = self.number()?;
        self.sign(b':')?;
        let on = self.either(b'1', b'0')?;
        self.sign(b'\n')?;
        refuse_if(self.latches == MAX_LINES, fault::RULE)?;
        refuse_if(self.undeclared(step, output), fault::UNDECLARED)?;
        // "An output has hold or latch lines, not both."
        refuse_if(self.head.held >> output & 1 != 0, fault::LATCH_ON_HELD)?;
        let of_step = &mut self.room.latches[step as usize];
        let outputs = match (at_u, on) {
            (true, true) => &mut of_step.on_at_u,
            (true, false) => &mut of_step.off_at_u,
            (false, true) => &mut of_step.on_at_d,
            (false, false) => &mut of_step.off_at_d,
        };
        *outputs |= 1 << output;
        self.latches += 1;
        self.head.latchable |= 1 << output;
        Ok(())
    }

    /// "`end=T`, T the total of move, hold and latch lines; then nothing"
    #[inline(always)]
    fn read_end(&mut self) -> Result<(), u32> {
        self.key(b"end=")?;
        let total = self.number()?;
        self.sign(b'\n')?;
        let lines = self.moves + self.holds + self.latches;
        refuse_if(total as usize != lines, fault::TOTAL)?;
        self.line += 1;
        refuse_if(self.at != self.text.len(), fault::SHAPE)
    }

    fn undeclared(&self, step: u32, output: u32) -> bool {
        step >= self.head.steps || output >= self.head.outputs
    }

    /// The condition here and the byte 10 after it.
    #[inline(always)]
    fn condition(&mut self) -> Result<Condition, u32> {
        let free = &mut self.room.tests[self.tests..];
        match compile(self.text, self.at, self.head.steps, self.head.inputs, free) {
            None => Err(self.fault_if_ended(fault::CONDITION)),
            Some(condition) => {
                self.at += condition.bytes + 1;
                Ok(condition)
            }
        }
    }

    /// The guard of a line with the condition just read.
    #[inline(always)]
    fn guard(&mut self, steps: u32, condition: &Condition) -> Guard {
        let tests = &mut self.room.tests[self.tests..self.tests + condition.tests];
        let guard = Guard::new(steps, self.tests, tests, condition.term);
        self.tests = guard.past();
        guard
    }

    /// A fault in a line whose rest may be any bytes: a line without its byte
    /// 10 is 2 before all others.
    #[cold]
    #[inline(never)]
    fn fault_if_ended(&self, number: u32) -> u32 {
        if self.text[self.at..].contains(&b'\n') {
            number
        } else {
            fault::SHAPE
        }
    }

    #[inline(always)]
    fn byte(&self) -> u8 {
        byte_at(self.text, self.at)
    }

    /// Goes past the key if it stands here.
    #[inline(always)]
    fn takes(&mut self, key: &[u8]) -> bool {
        let here = self.text[self.at..].starts_with(key);
        if here {
            self.at += key.len();
        }
        here
    }

    #[inline(always)]
    fn key(&mut self, key: &[u8]) -> Result<(), u32> {
        refuse_if(!self.takes(key), fault::SHAPE)
    }

    #[inline(always)]
    fn sign(&mut self, sign: u8) -> Result<(), u32> {
        refuse_if(self.byte() != sign, fault::SHAPE)?;
        self.at += 1;
        Ok(())
    }

    /// One of two letters: is it the first?
    #[inline(always)]
    fn either(&mut self, first: u8, second: u8) -> Result<bool, u32> {
        let byte = self.byte();
        refuse_if(byte != first && byte != second, fault::SHAPE)?;
        self.at += 1;
        Ok(byte == first)
    }

    #[inline(always)]
    fn number(&mut self) -> Result<u32, u32> {
        let (value, at) = number(self.text, self.at).ok_or(fault::SHAPE)?;
        self.at = at;
        Ok(value)
    }

    #[inline(always)]
    fn list(&mut self) -> Result<List, u32> {
        let mut list = List { bits: 0, empty: true, rises: true, undeclared: false };
        if !self.byte().is_ascii_digit() {
            return Ok(list);
        }
        list.empty = false;
        let mut least = 0;
        loop {
            let step = self.number()?;
            list.rises &= step >= least;
            list.bits |= 1 << (step % 32);
            least = step + 1;
            if self.byte() != b',' {
                break;
            }
            self.at += 1;
        }
        // In a list that rises the last step is the greatest; one that does
        // not is refused with a lower number.
        list.undeclared = least > self.head.steps;
        Ok(list)
    }
}
