//! SFC text from other shops, read and written as chart text.
//!
//! The subset is that of the paper's request P4: "INITIAL_STEP, STEP, and
//! TRANSITION FROM .. TO .. := .. ; END_TRANSITION, conditions with AND, OR,
//! NOT, TRUE, FALSE and brackets, and N, S and R actions". Words in quotation
//! marks are the request's, or those of the rulings on it.
//!
//! The text becomes tokens first, since what a name stands for is "told from
//! the tokens of the whole text". One pass over the tokens then judges and
//! writes.

mod reader;
mod tokens;

use crate::chart::MAX_TEXT;
use crate::state::number;
use reader::Reader;
pub use tokens::Place;
use tokens::Tokens;

/// What an import gives beside the bytes in the room.
#[derive(Clone, Copy, Debug, PartialEq, Eq)]
pub struct Imported {
    /// 0, or the number of the refusal.
    pub number: u32,
    /// The faulty line, or 0.
    pub line: u32,
    /// Bytes of the chart's text, 0 for a refusal.
    pub length: usize,
}

/// The names of an SFC text, by their numbers in the chart: where each stands
/// "in the spelling of its first appearance".
#[derive(Clone, Debug, Default, PartialEq, Eq)]
pub struct Names {
    pub steps: Vec<Place>,
    pub inputs: Vec<Place>,
    pub outputs: Vec<Place>,
}

/// Writes the chart text of an SFC text to the start of the room. "All of
/// these" refusals "leave the lent bytes untouched, a success those past its
/// result."
pub fn import(text: &[u8], room: &mut [u8]) -> Imported {
    // "29, less room lent, before all others"
    if room.len() < MAX_TEXT {
        return Imported { number: number::LESS_ROOM, line: 0, length: 0 };
    }
    match translate(text) {
        Err(Fault { line, number }) => Imported { number, line, length: 0 },
        Ok((chart, _)) => {
            room[..chart.len()].copy_from_slice(chart.as_bytes());
            Imported { number: number::STABLE, line: 0, length: chart.len() }
        }
    }
}

/// The names of an SFC text; none for a refused one.
pub fn names(text: &[u8]) -> Names {
    translate(text).map_or_else(|_| Names::default(), |(_, names)| names)
}

/// A fault in the order in which one is told: "the first faulty line, lowest
/// number within it".
#[derive(Clone, Copy, PartialEq, Eq, PartialOrd, Ord)]
struct Fault {
    line: u32,
    number: u32,
}

/// The chart's text and the names.
fn translate(text: &[u8]) -> Result<(String, Names), Fault> {
    let at_line_0 = |number| Err(Fault { line: 0, number });
    // "18 at line 0, SFC text over 16,384 bytes; then the first faulty line"
    if text.len() > MAX_TEXT {
        return at_line_0(number::PASSED);
    }
    let tokens = Tokens::of(text);
    let program = Reader::new(text, &tokens).read()?;
    // "last, at line 0, 16 for no initial step, 18 for a result over 16,384
    // bytes"
    if program.initial.is_empty() {
        return at_line_0(number::OUTSIDE);
    }
    let chart = program.chart();
    if chart.len() > MAX_TEXT {
        return at_line_0(number::PASSED);
    }
    Ok((chart, program.names))
}
