//! Evolution: from one state to the next stable one.

use crate::chart::{Chart, MAX_LIMIT};
use crate::state::{ages_of, number, steps_of, Answer, State};
use crate::test::View;

/// "An event is elapsed ms 0 to 60,000"
const MAX_ELAPSED: u32 = 60_000;

/// Situations kept at first: enough for most evolutions.
const SHORT: usize = 16;
/// s0 to sL for the greatest L.
const LONG: usize = MAX_LIMIT as usize + 1;

/// How an evolution ended.
enum End {
    /// Stable after that many firings, with these latched outputs.
    Stable { firings: usize, latched: u32 },
    /// s_j equals an earlier one; the least such j.
    Unstable { least: usize },
    /// The limit was reached.
    Cut,
}

impl Chart<'_> {
    /// "Start takes an input word: the situation is `initial`, ages and
    /// latched outputs 0, no edges; initial steps perform no latch".
    pub(crate) fn start(&self, inputs: u32, trace: &mut [u32]) -> Answer {
        let zero = State::default();
        if inputs & !bits_below(self.head.inputs) != 0 {
            return Answer::refusal(number::EVENT, 0, &zero);
        }
        let first = View::first(self.head.initial, inputs, inputs, &zero.ages);
        self.evolve(&zero, first, trace)
    }

    /// One event on a state.
    pub(crate) fn event(
        &self,
        given: &State,
        elapsed: u32,
        inputs: u32,
        trace: &mut [u32],
    ) -> Answer {
        if !self.accepts(given) {
            return Answer::refusal(number::STATE, 0, given);
        }
        if elapsed > MAX_ELAPSED || inputs & !bits_below(self.head.inputs) != 0 {
            return Answer::refusal(number::EVENT, 0, given);
        }
        let ages = given.ages_after(elapsed);
        let first = View::first(given.situation, given.inputs, inputs, &ages);
        self.evolve(given, first, trace)
    }

    /// "A state is accepted exactly if no word has a bit for an undeclared
    /// item, latched bits belong only to outputs named by a latch line, ages
    /// are at most 3,600,000, and the age of every step not active is 0."
    fn accepts(&self, state: &State) -> bool {
        state.situation & !bits_below(self.head.steps) == 0
            && state.inputs & !bits_below(self.head.inputs) == 0
            && state.latched & !self.head.latchable == 0
            && state.ages_accepted()
    }

    /// "Then both evolve." `given` is the state before the call, for a start
    /// the zero state. A long evolution begins again at s0, with more room.
    #[inline(always)]
    fn evolve(&self, given: &State, first: View, trace: &mut [u32]) -> Answer {
        let mut view = first;
        let end = match self.run::<SHORT>(given.latched, &mut view, trace) {
            Some(end) => end,
            None => {
                view = first;
                self.run_long(given.latched, &mut view, trace)
            }
        };
        match end {
            End::Stable { firings, latched } => self.settle(given, &view, firings, latched),
            End::Unstable { least } => Answer::refusal(number::UNSTABLE, least as u32, given),
            End::Cut => Answer::refusal(number::CUT, self.head.limit, given),
        }
    }

    /// There is room for the situations of every evolution.
    #[cold]
    #[inline(never)]
    fn run_long(&self, latched: u32, view: &mut View, trace: &mut [u32]) -> End {
        self.run::<LONG>(latched, view, trace).unwrap_or(End::Cut)
    }

    /// Fires until stable, unstable or cut. None: the evolution is longer than
    /// there is room for; then nothing was written to the trace.
    ///
    /// After s0 a state determines the next one: if one comes back, all
    /// states from its first place on lie on a cycle. A mark set at s1, s2, s4,
    /// s8 and so on finds a cycle early; at the limit one look back over all
    /// states settles whether there was one.
    #[inline(always)]
    fn run<const ROOM: usize>(
        &self,
        mut latched: u32,
        view: &mut View,
        trace: &mut [u32],
    ) -> Option<End> {
        let mut situations = [0; ROOM];
        let mut now = view.situation();
        situations[0] = now;
        let mut firings = 0;
        let mut mark = Mark::new();
        loop {
            let Some(next) = self.fire(view) else {
                write_trace(trace, &situations, firings);
                return Some(End::Stable { firings, latched });
            };
            if firings == self.head.limit as usize {
                let period = period_at(&situations, firings);
                return Some(repeat_or_cut(&situations, firings, period, trace));
            }
            if firings + 1 == ROOM {
                return None;
            }
            latched = self.latch(latched, now, next);
            view.advance(next);
            firings += 1;
            situations[firings] = next;
            if let Some(period) = mark.meets((next, now)) {
                return Some(repeat_or_cut(&situations, firings, Some(period), trace));
            }
            now = next;
        }
    }

    /// "A move is cleared when all its steps before are active and its
    /// condition holds. An empty list before is always enabled." Then "all
    /// cleared moves fire at once: next = (current without all their steps
    /// before) plus all their steps after". None: "If none is cleared the
    /// situation is stable"; no move has both lists empty.
    #[inline(always)]
    fn fire(&self, view: &View) -> Option<u32> {
        let (mut before, mut after) = (0, 0);
        for line in self.moves {
            if view.passes(&line.guard, self.tests) {
                before |= line.before;
                after |= line.after;
            }
        }
        (before | after != 0).then_some(view.situation() & !before | after)
    }

    /// "At each firing latches of steps that became active (u) or idle (d)
    /// act. Off wins over on for one output."
    #[inline(always)]
    fn latch(&self, latched: u32, now: u32, next: u32) -> u32 {
        if self.head.latchable == 0 {
            return latched;
        }
        let (mut on, mut off) = (0, 0);
        for step in steps_of(next & !now) {
            on |= self.latches[step].on_at_u;
            off |= self.latches[step].off_at_u;
        }
        for step in steps_of(now & !next) {
            on |= self.latches[step].on_at_d;
            off |= self.latches[step].off_at_d;
        }
        (latched | on) & !off
    }

    /// The stable end: ages, outputs and the new state.
    #[inline(always)]
    fn settle(&self, given: &State, view: &View, firings: usize, latched: u32) -> Answer {
        let situation = view.situation();
        // "steps active before the call and now keep their age, even if they
        // left and came back; all others get 0"
        let ages = ages_of(given.situation & situation, view.ages());
        Answer {
            number: number::STABLE,
            count: firings as u32,
            state: State { situation, inputs: view.inputs(), latched, ages },
            outputs: latched | self.held_outputs(view),
        }
    }

    /// "some hold line has its step active in the stable situation and its
    /// condition true"
    #[inline(always)]
    fn held_outputs(&self, view: &View) -> u32 {
        let mut outputs = 0;
        for line in self.holds {
            if outputs & line.output == 0 && view.passes(&line.guard, self.tests) {
                outputs |= line.output;
            }
        }
        outputs
    }
}

/// A word with a bit for each of `count` items, at most 32.
fn bits_below(count: u32) -> u32 {
    ((1u64 << count) - 1) as u32
}

/// A pair seen before, to meet again: one comparison for each firing.
struct Mark {
    pair: (u32, u32),
    /// Firings since the mark was set.
    since: usize,
    /// Firings after which the next mark is set.
    reach: usize,
}

impl Mark {
    /// No pair yet: the first one met becomes the mark.
    fn new() -> Mark {
        Mark { pair: (0, 0), since: 0, reach: 0 }
    }

    /// The firings since the mark was set, if this pair is the marked one.
    #[inline(always)]
    fn meets(&mut self, pair: (u32, u32)) -> Option<usize> {
        if self.reach != 0 {
            self.since += 1;
            if self.pair == pair {
                return Some(self.since);
            }
        }
        if self.since == self.reach {
            *self = Mark { pair, since: 0, reach: (2 * self.reach).max(1) };
        }
        None
    }
}

/// "States s1, s2, ... are pairs (situation, predecessor). Two are equal when
/// both parts are."
#[inline(always)]
fn equal(situations: &[u32], i: usize, j: usize) -> bool {
    situations[i] == situations[j] && situations[i - 1] == situations[j - 1]
}

/// How far back the last of s1 to s_last stood before. If any two of them are
/// equal, the last one lies on the cycle and stood there one round before.
fn period_at(situations: &[u32], last: usize) -> Option<usize> {
    (1..last).find(|back| equal(situations, last - back, last))
}

/// Not stable: 12 with the least j if there is a cycle of that period, else 13.
/// The cycle begins with the first s_i that comes back after one period, and
/// that is the first repeat of all.
#[cold]
fn repeat_or_cut(situations: &[u32], last: usize, period: Option<usize>, trace: &mut [u32]) -> End {
    let first = period.and_then(|p| (1..=last - p).find(|i| equal(situations, *i, i + p)));
    let (count, end) = match (first, period) {
        (Some(first), Some(period)) => (first + period, End::Unstable { least: first + period }),
        _ => (last, End::Cut),
    };
    write_trace(trace, situations, count);
    end
}

/// "Answers 0, 12 and 13 write situations s1, s2, ... up to the reported count
/// or the slice's length, whichever is less".
#[inline(always)]
fn write_trace(trace: &mut [u32], situations: &[u32], count: usize) {
    let written = count.min(trace.len());
    trace[..written].copy_from_slice(&situations[1..=written]);
}
