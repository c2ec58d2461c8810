//! The tokens read by the grammar, judged, and written as lines of the chart.

use std::collections::BTreeSet;
use std::fmt::Write;

use super::tokens::{Place, Sign, Token, Tokens};
use super::{Fault, Names};
use crate::chart::{MAX_ITEMS, MAX_LIMIT, MAX_LINES};
use crate::condition::MAX_BYTES;
use crate::state::{number, State};

/// What is known of a name.
#[derive(Clone, Copy, Default)]
struct Known {
    /// "A name is *declared* if it follows STEP or INITIAL_STEP anywhere in
    /// the text", also below the place that is being read.
    declared: bool,
    /// "*driven* if `( N )`, `( S )` or `( R )` follows it anywhere".
    driven: bool,
    /// A declaration of it was read.
    step_was_read: bool,
    /// It has an N action; an S or R action.
    held: bool,
    latched: bool,
    /// Its numbers as a step, an input and an output.
    step: Option<usize>,
    input: Option<usize>,
    output: Option<usize>,
}

/// "N, S or R in either case".
#[derive(Clone, Copy)]
enum Qualifier {
    N,
    S,
    R,
}

/// The line of the first token "that the grammar has not there".
struct Outside {
    line: u32,
}

/// Lines of one kind of the chart.
#[derive(Default)]
struct Lines {
    text: String,
    count: usize,
}

impl Lines {
    fn add(&mut self, line: std::fmt::Arguments) {
        writeln!(self.text, "{line}").expect("a string takes all");
        self.count += 1;
    }
}

/// A program that was read, with its lines as the chart has them.
#[derive(Default)]
pub(super) struct Program {
    pub(super) names: Names,
    pub(super) initial: BTreeSet<usize>,
    moves: Lines,
    holds: Lines,
    latches: Lines,
}

impl Program {
    /// The chart's text: "`chart=1` always, `limit=1024`; moves in order of
    /// transitions, holds and latches in order of actions".
    pub(super) fn chart(&self) -> String {
        let Names { steps, inputs, outputs } = &self.names;
        let Program { initial, moves, holds, latches, .. } = self;
        format!(
            "chart=1\nsteps={}\ninitial={}\ninputs={}\noutputs={}\nlimit={MAX_LIMIT}\n{}{}{}end={}\n",
            steps.len(),
            list(initial),
            inputs.len(),
            outputs.len(),
            moves.text,
            holds.text,
            latches.text,
            moves.count + holds.count + latches.count,
        )
    }
}

/// The tokens with the place among them, and what was read so far. After a
/// fault the reading goes on, since its line may have a lower number yet.
pub(super) struct Reader<'t> {
    text: &'t [u8],
    tokens: &'t [Token],
    at: usize,
    known: Vec<Known>,
    program: Program,
    first_fault: Option<Fault>,
}

impl Reader<'_> {
    pub(super) fn new<'t>(text: &'t [u8], tokens: &'t Tokens) -> Reader<'t> {
        let mut reader = Reader {
            text,
            tokens: &tokens.row,
            at: 0,
            known: vec![Known::default(); tokens.names],
            program: Program::default(),
            first_fault: None,
        };
        reader.look_ahead();
        reader
    }

    /// "Reading goes token by token up to the first one that the grammar has
    /// not there; that is 16 at its line".
    pub(super) fn read(mut self) -> Result<Program, Fault> {
        if let Err(Outside { line }) = self.read_text() {
            self.fault(line, number::OUTSIDE);
        }
        self.first_fault.map_or(Ok(self.program), Err)
    }

    /// Which names are declared and which are driven: "both are told from the
    /// tokens of the whole text, also behind a fault".
    fn look_ahead(&mut self) {
        for (place, token) in self.tokens.iter().enumerate() {
            let Sign::Name(name) = token.sign else { continue };
            let before = place.checked_sub(1).map(|place| self.tokens[place].sign);
            self.known[name].declared |= matches!(before, Some(Sign::Step | Sign::InitialStep));
            if let [open, qualifier, close, ..] = &self.tokens[place + 1..] {
                self.known[name].driven |= open.sign == Sign::Open
                    && self.qualifier(qualifier).is_some()
                    && close.sign == Sign::Close;
            }
        }
    }

    fn qualifier(&self, token: &Token) -> Option<Qualifier> {
        let (start, length) = token.place;
        match &self.text[start..][..length] {
            b"N" | b"n" => Some(Qualifier::N),
            b"S" | b"s" => Some(Qualifier::S),
            b"R" | b"r" => Some(Qualifier::R),
            _ => None,
        }
    }

    /// `text = { step | transition }`
    fn read_text(&mut self) -> Result<(), Outside> {
        loop {
            let token = self.take();
            match token.sign {
                Sign::InitialStep => self.read_step(true)?,
                Sign::Step => self.read_step(false)?,
                Sign::Transition => {
                    let passed = self.program.moves.count == MAX_LINES;
                    self.fault_if(passed, token.line, number::PASSED);
                    self.read_transition()?;
                }
                Sign::End => return Ok(()),
                _ => return outside(token),
            }
        }
    }

    /// `step = ( "INITIAL_STEP" | "STEP" ) name ":" { action } "END_STEP"`,
    /// from the name on.
    fn read_step(&mut self, initial: bool) -> Result<(), Outside> {
        let (name, token) = self.name()?;
        let again = std::mem::replace(&mut self.known[name].step_was_read, true);
        self.fault_if(again, token.line, number::OUTSIDE);
        let step = self.step(name, token);
        if initial {
            self.program.initial.insert(step);
        }
        self.expect(Sign::Colon)?;
        loop {
            let token = self.take();
            match token.sign {
                Sign::EndStep => return Ok(()),
                Sign::Name(name) => self.read_action(step, name, token)?,
                _ => return outside(token),
            }
        }
    }

    /// `action = name "(" ( "N" | "S" | "R" ) ")" ";"`, from the bracket on.
    /// Limits are "judged once its `)` is read", at the line of the name.
    fn read_action(&mut self, step: usize, name: usize, token: Token) -> Result<(), Outside> {
        // "a step's name as a variable"
        self.fault_if(self.known[name].declared, token.line, number::OUTSIDE);
        self.expect(Sign::Open)?;
        let qualifier = self.take();
        let Some(qualifier) = self.qualifier(&qualifier) else { return outside(qualifier) };
        self.expect(Sign::Close)?;
        self.write_action(step, qualifier, name, token);
        self.expect(Sign::Semicolon)
    }

    /// An N action is a hold; "an S or R action becomes a latch on activation".
    fn write_action(&mut self, step: usize, qualifier: Qualifier, name: usize, token: Token) {
        let known = &mut self.known[name];
        let output = numbered(&mut known.output, &mut self.program.names.outputs, token.place);
        let lines = match qualifier {
            Qualifier::N => {
                known.held = true;
                self.program.holds.add(format_args!("hold={step}:{output}:1"));
                self.program.holds.count
            }
            Qualifier::S | Qualifier::R => {
                let value = matches!(qualifier, Qualifier::S) as u32;
                known.latched = true;
                self.program.latches.add(format_args!("latch={step}:u:{output}:{value}"));
                self.program.latches.count
            }
        };
        // "a limit of 01 passed or an output with both N and S or R"
        let both = known.held && known.latched;
        let passed = output >= MAX_ITEMS as usize || lines > MAX_LINES;
        self.fault_if(both || passed, token.line, number::PASSED);
    }

    /// `transition = "TRANSITION" "FROM" steps "TO" steps ":=" cond ";"
    /// "END_TRANSITION"`, from FROM on.
    fn read_transition(&mut self) -> Result<(), Outside> {
        self.expect(Sign::From)?;
        let before = self.read_steps()?;
        self.expect(Sign::To)?;
        let after = self.read_steps()?;
        self.expect(Sign::Becomes)?;
        let condition = self.read_condition()?;
        self.expect(Sign::EndTransition)?;
        self.program.moves.add(format_args!("move={}>{}:{condition}", list(&before), list(&after)));
        Ok(())
    }

    /// `steps = name | "(" name "," name { "," name } ")"`
    fn read_steps(&mut self) -> Result<BTreeSet<usize>, Outside> {
        let mut steps = BTreeSet::new();
        if self.peek() != Sign::Open {
            self.read_listed(&mut steps)?;
            return Ok(steps);
        }
        self.take();
        self.read_listed(&mut steps)?;
        self.expect(Sign::Comma)?;
        loop {
            self.read_listed(&mut steps)?;
            let token = self.take();
            match token.sign {
                Sign::Comma => {}
                Sign::Close => return Ok(steps),
                _ => return outside(token),
            }
        }
    }

    /// A name in a list: "17 a step name never declared", 16 for one "already
    /// in this very list".
    fn read_listed(&mut self, steps: &mut BTreeSet<usize>) -> Result<(), Outside> {
        let (name, token) = self.name()?;
        self.fault_if(!self.known[name].declared, token.line, number::NEVER_DECLARED);
        let again = !steps.insert(self.step(name, token));
        self.fault_if(again, token.line, number::OUTSIDE);
        Ok(())
    }

    /// `cond = term { "OR" term }`, `term = factor { "AND" factor }`, `factor =
    /// [ "NOT" ] ( "TRUE" | "FALSE" | name | "(" cond ")" )`, and the `;` after
    /// it. The chart's conditions bind as these do, so the tokens are written
    /// one by one, and all that must be known is how many brackets are open.
    fn read_condition(&mut self) -> Result<String, Outside> {
        let (mut written, mut open) = (String::new(), 0);
        loop {
            open += self.read_operand(&mut written)?;
            loop {
                let token = self.take();
                match token.sign {
                    Sign::Semicolon if open == 0 => return Ok(written),
                    Sign::Close if open > 0 => {
                        open -= 1;
                        self.write(&mut written, ")", token);
                    }
                    Sign::And => {
                        self.write(&mut written, ".", token);
                        break;
                    }
                    Sign::Or => {
                        self.write(&mut written, "+", token);
                        break;
                    }
                    _ => return outside(token),
                }
            }
        }
    }

    /// Brackets that open, and the name or the constant behind them; gives the
    /// number of brackets.
    fn read_operand(&mut self, written: &mut String) -> Result<usize, Outside> {
        let mut open = 0;
        loop {
            let mut token = self.take();
            if token.sign == Sign::Not {
                self.write(written, "!", token);
                token = self.take();
            }
            match token.sign {
                Sign::Open => {
                    open += 1;
                    self.write(written, "(", token);
                    continue;
                }
                Sign::True => self.write(written, "1", token),
                Sign::False => self.write(written, "0", token),
                Sign::Name(name) => {
                    let input = self.input(name, token);
                    self.write(written, &format!("i{input}"), token);
                }
                _ => return outside(token),
            }
            return Ok(open);
        }
    }

    /// Adds to a condition; 18 where "its bytes take the written condition past
    /// 64".
    fn write(&mut self, written: &mut String, bytes: &str, token: Token) {
        written.push_str(bytes);
        self.fault_if(written.len() > MAX_BYTES, token.line, number::PASSED);
    }

    /// The number of a step's name, which is its first appearance or a later
    /// one.
    fn step(&mut self, name: usize, token: Token) -> usize {
        let step = numbered(&mut self.known[name].step, &mut self.program.names.steps, token.place);
        self.fault_if(step >= State::STEPS, token.line, number::PASSED);
        step
    }

    /// The number of a name in a condition: "an output in a condition, a step's
    /// name as a variable" is outside the subset.
    fn input(&mut self, name: usize, token: Token) -> usize {
        let known = &mut self.known[name];
        let other = known.declared || known.driven;
        let input = numbered(&mut known.input, &mut self.program.names.inputs, token.place);
        self.fault_if(other, token.line, number::OUTSIDE);
        self.fault_if(input >= MAX_ITEMS as usize, token.line, number::PASSED);
        input
    }

    /// The next token. None is asked for behind the end.
    fn take(&mut self) -> Token {
        self.at += 1;
        self.tokens[self.at - 1]
    }

    fn peek(&self) -> Sign {
        self.tokens[self.at].sign
    }

    fn expect(&mut self, sign: Sign) -> Result<(), Outside> {
        let token = self.take();
        if token.sign == sign {
            Ok(())
        } else {
            outside(token)
        }
    }

    fn name(&mut self) -> Result<(usize, Token), Outside> {
        let token = self.take();
        match token.sign {
            Sign::Name(name) => Ok((name, token)),
            _ => outside(token),
        }
    }

    fn fault_if(&mut self, broken: bool, line: u32, number: u32) {
        if broken {
            self.fault(line, number);
        }
    }

    /// "The lowest line wins, then the lowest number in it."
    fn fault(&mut self, line: u32, number: u32) {
        let fault = Fault { line, number };
        self.first_fault = Some(self.first_fault.map_or(fault, |first| first.min(fault)));
    }
}

fn outside<T>(token: Token) -> Result<T, Outside> {
    Err(Outside { line: token.line })
}

/// The number of a name: its own, or at its first appearance the next free one.
fn numbered(own: &mut Option<usize>, places: &mut Vec<Place>, place: Place) -> usize {
    *own.get_or_insert_with(|| {
        places.push(place);
        places.len() - 1
    })
}

/// "Lists and `initial` are written sorted, since 01 wants them to rise."
fn list(steps: &BTreeSet<usize>) -> String {
    steps.iter().map(usize::to_string).collect::<Vec<_>>().join(",")
}
