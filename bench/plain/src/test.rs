//! Compiled conditions: rows of bit tests, and what they look at.

use crate::state::State;

/// The words a test may look at; `| NOT` is the same word with all bits
/// turned over. An edge's word is its letter's word after UP or DOWN.
pub(crate) mod word {
    pub const STEP: u8 = 0;
    pub const INPUT: u8 = 1;
    pub const UP: u8 = 2;
    pub const DOWN: u8 = 4;
    /// No bit is ever set here: the atom `0`, and with NOT the atom `1`.
    pub const NEVER: u8 = 6;
    /// Not a word of bits: an on-delay, which looks at an age.
    pub const DELAY: u8 = 7;
    pub const NOT: u8 = 8;
    pub const NOT_STEP: u8 = NOT | STEP;
    pub const ALWAYS: u8 = NOT | NEVER;
    pub const COUNT: usize = 16;
}

/// What becomes of a test's value, or of the two values on top of the stack.
#[derive(Clone, Copy, PartialEq, Eq)]
#[repr(u8)]
pub(crate) enum Join {
    /// Put the test's value on the stack.
    Push,
    /// Top = top and test.
    And,
    /// Top = top or test.
    Or,
    /// Take two, put their "and".
    AndTop,
    /// Take two, put their "or".
    OrTop,
}

/// One element of a compiled condition.
#[derive(Clone, Copy)]
pub(crate) struct Test {
    /// All of these bits, or any, must be set in the word; of an on-delay: T.
    pub(crate) mask: u32,
    pub(crate) word: u8,
    pub(crate) join: Join,
    /// The step of an on-delay.
    pub(crate) step: u8,
    /// One of the bits is enough.
    pub(crate) any: bool,
}

impl Test {
    pub(crate) const NONE: Test = Test { mask: 0, word: 0, join: Join::Push, step: 0, any: false };

    fn is_delay(&self) -> bool {
        self.word & word::DELAY == word::DELAY
    }

    /// Of a single bit, "any" and "all" are the same.
    fn is(&self, any: bool) -> bool {
        self.any == any || self.mask & (self.mask - 1) == 0
    }

    /// Takes the test after it in by a wider mask, if it can: both look at the
    /// same word, and this one is joined likewise or stands alone.
    #[inline(always)]
    pub(crate) fn takes_in(&mut self, next: &Test, join: Join) -> bool {
        let any = join == Join::Or;
        let alike = self.word == next.word
            && (self.join == Join::Push || self.join == join)
            && !self.is_delay()
            && self.is(any)
            && next.is(any);
        if alike {
            self.mask |= next.mask;
            self.any = any;
        }
        alike
    }
}

/// When a line counts: the steps in `care` stand as in `want`, and the
/// condition's remaining tests hold.
#[derive(Clone, Copy)]
pub(crate) struct Guard {
    care: u32,
    want: u32,
    /// The remaining tests among all tests of the chart.
    first: u16,
    count: u8,
    /// They are a term: all must hold.
    term: bool,
}

impl Guard {
    pub(crate) const NONE: Guard = Guard { care: 0, want: 0, first: 0, count: 0, term: false };

    /// The guard of a line whose `steps` must be active and whose condition
    /// has these tests, the first of them at `first` in the chart.
    #[inline(always)]
    pub(crate) fn new(steps: u32, first: usize, tests: &mut [Test], term: bool) -> Guard {
        let (first, count) = (first as u16, tests.len() as u8);
        let mut guard = Guard { care: steps, want: steps, first, count, term };
        if term {
            guard.thin_out(tests);
        }
        guard
    }

    /// The steps that a term asks for are taken out of its tests and tested by
    /// mask.
    #[inline(always)]
    fn thin_out(&mut self, tests: &mut [Test]) {
        let mut kept = 0;
        for place in 0..tests.len() {
            let test = tests[place];
            if !self.takes_in(&test) {
                tests[kept] = test;
                kept += 1;
            }
        }
        self.count = kept as u8;
    }

    /// Takes a test of steps in, if it does not contradict what is wanted.
    #[inline(always)]
    fn takes_in(&mut self, test: &Test) -> bool {
        let want = match test.word {
            word::STEP => test.mask,
            word::NOT_STEP => 0,
            word::ALWAYS => return true,
            _ => return false,
        };
        let fits = test.is(false) && self.care & test.mask & (self.want ^ want) == 0;
        if fits {
            self.care |= test.mask;
            self.want |= want;
        }
        fits
    }

    /// The place after its tests.
    pub(crate) fn past(&self) -> usize {
        self.first as usize + self.count as usize
    }
}

/// What the conditions see of one state s_k of an evolution.
#[derive(Clone, Copy)]
pub(crate) struct View<'a> {
    words: [u32; word::COUNT],
    /// Ages after time was added: "Ages do not move during evolution."
    ages: &'a [u32; State::STEPS],
}

impl<'a> View<'a> {
    /// s0: "`ux`, `dx` [...] in s0 they are false"; input edges compare the
    /// inputs before with the inputs now.
    pub(crate) fn first(
        situation: u32,
        inputs_before: u32,
        inputs: u32,
        ages: &'a [u32; State::STEPS],
    ) -> View<'a> {
        let mut view = View { words: [0; word::COUNT], ages };
        view.set(word::STEP, situation);
        view.set(word::INPUT, inputs);
        view.set(word::UP | word::STEP, 0);
        view.set(word::DOWN | word::STEP, 0);
        view.set(word::UP | word::INPUT, inputs & !inputs_before);
        view.set(word::DOWN | word::INPUT, inputs_before & !inputs);
        view.set(word::NEVER, 0);
        view
    }

    /// From s_k to s_k+1: step edges compare "the current situation with the
    /// one before it"; "`ui`, `di` hold in s0 only".
    pub(crate) fn advance(&mut self, next: u32) {
        let now = self.situation();
        self.set(word::STEP, next);
        self.set(word::UP | word::STEP, next & !now);
        self.set(word::DOWN | word::STEP, now & !next);
        self.set(word::UP | word::INPUT, 0);
        self.set(word::DOWN | word::INPUT, 0);
    }

    pub(crate) fn situation(&self) -> u32 {
        self.words[word::STEP as usize]
    }

    pub(crate) fn inputs(&self) -> u32 {
        self.words[word::INPUT as usize]
    }

    pub(crate) fn ages(&self) -> &[u32; State::STEPS] {
        self.ages
    }

    #[inline(always)]
    fn set(&mut self, word: u8, bits: u32) {
        self.words[word as usize] = bits;
        self.words[(word | word::NOT) as usize] = !bits;
    }

    /// Does this one test hold?
    #[inline(always)]
    fn test(&self, test: &Test) -> bool {
        if test.is_delay() {
            self.delay(test) != (test.word & word::NOT != 0)
        } else {
            let seen = self.words[test.word as usize % word::COUNT] & test.mask;
            (seen == test.mask) | (test.any & (seen != 0))
        }
    }

    /// "`T/xS` holds when S is in the current situation and its age, after
    /// time was added, is at least T."
    fn delay(&self, test: &Test) -> bool {
        let step = test.step as usize % 32;
        self.situation() >> step & 1 != 0 && step < State::STEPS && self.ages[step] >= test.mask
    }

    /// Does a guard let its line count? `tests` are those of the chart.
    #[inline(always)]
    pub(crate) fn passes(&self, guard: &Guard, tests: &[Test]) -> bool {
        if self.situation() & guard.care != guard.want {
            return false;
        }
        let tests = &tests[guard.first as usize..guard.past()];
        if guard.term {
            tests.iter().all(|test| self.test(test))
        } else {
            self.holds(tests)
        }
    }

    /// Does the compiled condition hold? The stack is a word, its top bit 0.
    #[inline(always)]
    fn holds(&self, condition: &[Test]) -> bool {
        let mut stack = 0u64;
        for test in condition {
            match test.join {
                Join::Push => stack = stack << 1 | self.test(test) as u64,
                Join::And => stack &= self.test(test) as u64 | !1,
                Join::Or => stack |= self.test(test) as u64,
                Join::AndTop => stack = stack >> 1 & (stack | !1),
                Join::OrTop => stack = stack >> 1 | stack & 1,
            }
        }
        stack & 1 != 0
    }
}
