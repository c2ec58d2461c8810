//! The state, the answer and the answer numbers.

/// The numbers of the table "Answer numbers", and those of SFC texts.
pub mod number {
    /// "accepted; some s_k with k at most L stable"
    pub const STABLE: u32 = 0;
    /// "text over 16,384 bytes"
    pub const TOO_LONG: u32 = 1;
    /// "line not of its shape or place, no final byte 10, anything after `end`"
    pub const SHAPE: u32 = 2;
    /// "head number or list rule broken, 65th line of a kind"
    pub const RULE: u32 = 3;
    /// "condition empty, too long or not of the grammar (T out of range too)"
    pub const CONDITION: u32 = 4;
    /// "undeclared step, input or output"
    pub const UNDECLARED: u32 = 6;
    /// "edge atom in a hold"
    pub const EDGE_IN_HOLD: u32 = 7;
    /// "latch on an output that has a hold"
    pub const LATCH_ON_HELD: u32 = 8;
    /// "`end` total wrong"
    pub const TOTAL: u32 = 9;
    /// "state not accepted"
    pub const STATE: u32 = 10;
    /// "event or start inputs not accepted"
    pub const EVENT: u32 = 11;
    /// "no stable state; s_j equals an earlier s_i"
    pub const UNSTABLE: u32 = 12;
    /// "none of s0 to sL stable, s1 to sL all different"
    pub const CUT: u32 = 13;
    /// SFC text "outside the subset", or one with no initial step
    pub const OUTSIDE: u32 = 16;
    /// "a step name never declared"
    pub const NEVER_DECLARED: u32 = 17;
    /// "a limit of 01 passed or an output with both N and S or R", SFC text or
    /// a result "over 16,384 bytes"
    pub const PASSED: u32 = 18;
    /// "less room lent"
    pub const LESS_ROOM: u32 = 29;
}

/// "The state holds the situation, the last inputs and the latched outputs as
/// 32-bit words (bit j for item j) and an array of thirty step ages in
/// milliseconds."
#[derive(Clone, Copy, Debug, Default, PartialEq, Eq)]
pub struct State {
    pub situation: u32,
    pub inputs: u32,
    pub latched: u32,
    pub ages: [u32; State::STEPS],
}

impl State {
    /// Steps a chart may have at most.
    pub const STEPS: usize = 30;
    /// "ages are at most 3,600,000"
    pub const MAX_AGE: u32 = 3_600_000;
    /// Words of a state written one after the other.
    pub const WORDS: usize = 3 + State::STEPS;

    /// The state as words: situation, inputs, latched, then the thirty ages.
    pub fn to_words(&self) -> [u32; State::WORDS] {
        let mut words = [0; State::WORDS];
        words[0] = self.situation;
        words[1] = self.inputs;
        words[2] = self.latched;
        words[3..].copy_from_slice(&self.ages);
        words
    }

    /// The state written by `to_words`.
    pub fn from_words(words: &[u32; State::WORDS]) -> State {
        let mut ages = [0; State::STEPS];
        ages.copy_from_slice(&words[3..]);
        State { situation: words[0], inputs: words[1], latched: words[2], ages }
    }

    /// "ages are at most 3,600,000, and the age of every step not active is 0".
    /// The latter is so exactly if the active steps have the sum of all ages.
    pub(crate) fn ages_accepted(&self) -> bool {
        let sum: u64 = self.ages.iter().map(|age| *age as u64).sum();
        let (mut of_active, mut over) = (0, false);
        for step in steps_of(self.situation) {
            of_active += self.ages[step] as u64;
            over |= self.ages[step] > State::MAX_AGE;
        }
        sum == of_active && !over
    }

    /// "An event first adds the elapsed time to the ages of active steps,
    /// stopping at 3,600,000".
    pub(crate) fn ages_after(&self, elapsed: u32) -> [u32; State::STEPS] {
        let mut ages = self.ages;
        for step in steps_of(self.situation) {
            ages[step] = (ages[step] + elapsed).min(State::MAX_AGE);
        }
        ages
    }
}

/// The ages of the steps in `kept`, 0 for all others.
pub(crate) fn ages_of(kept: u32, ages: &[u32; State::STEPS]) -> [u32; State::STEPS] {
    let mut left = [0; State::STEPS];
    for step in steps_of(kept) {
        left[step] = ages[step];
    }
    left
}

/// The steps of a word, one after the other. None has a number over 29.
#[inline(always)]
pub(crate) fn steps_of(word: u32) -> impl Iterator<Item = usize> {
    let mut left = word & ((1 << State::STEPS) - 1);
    std::iter::from_fn(move || {
        let step = left.trailing_zeros() as usize;
        left &= left.wrapping_sub(1);
        (step < State::STEPS).then_some(step)
    })
}

/// What a start or an event gives back.
#[derive(Clone, Copy, Debug, PartialEq, Eq)]
pub struct Answer {
    pub number: u32,
    pub count: u32,
    pub state: State,
    pub outputs: u32,
}

impl Answer {
    /// "Every answer but 0 is a refusal, 12 and 13 too: it shows outputs 0
    /// and the given state".
    pub(crate) fn refusal(number: u32, count: u32, given: &State) -> Answer {
        Answer { number, count, state: *given, outputs: 0 }
    }
}
