//! Programs before they are written down, and faults of every kind of the table
//! in them.

use super::Random;

/// A program before it is written down.
pub(super) struct Program {
    steps: Vec<Step>,
    transitions: Vec<Transition>,
    names: Names,
}

struct Step {
    initial: bool,
    name: String,
    /// Each as tokens.
    actions: Vec<Vec<String>>,
}

struct Transition {
    from: Vec<String>,
    to: Vec<String>,
    /// As tokens.
    condition: Vec<String>,
}

struct Names {
    steps: Vec<String>,
    inputs: Vec<String>,
    outputs: Vec<String>,
}

/// How many there are of everything; actions by the kind of their output.
struct Sizes {
    names: [usize; 3],
    transitions: usize,
    holds: usize,
    latches: usize,
}

impl Sizes {
    /// Small, or near a limit, or a crowd.
    fn any(random: &mut Random) -> Sizes {
        let mut up_to = |most: usize| random.below(most + 1);
        let small = [1 + up_to(6), up_to(5), up_to(4)];
        let crowd = [1 + up_to(59), up_to(70), up_to(70)];
        let around = up_to(3);
        let [steps, inputs, outputs] = small;
        let (transitions, holds, latches) = (up_to(7), up_to(5), up_to(5));
        let of = |names, [transitions, holds, latches]: [usize; 3]| Sizes {
            names,
            transitions,
            holds,
            latches,
        };
        match up_to(19) {
            0 => of([28 + around, inputs, outputs], [transitions, holds, latches]),
            1 => of([steps, 30 + around, outputs], [35, holds, latches]),
            2 => of([steps, inputs, 30 + around], [transitions, 40, 40]),
            3 => of(small, [62 + around, holds, latches]),
            4 => of([steps, inputs, 2], [transitions, 62 + around, latches]),
            5 => of([steps, inputs, 2], [transitions, holds, 62 + around]),
            6 => of(crowd, [up_to(64), up_to(64), up_to(64)]),
            _ => of(small, [transitions, holds, latches]),
        }
    }
}

impl Program {
    /// A program without a fault, but perhaps over a limit.
    pub(super) fn any(random: &mut Random) -> Program {
        let sizes = Sizes::any(random);
        let [steps, inputs, outputs] = sizes.names;
        let names = Names {
            steps: any_names(random, "s", steps),
            inputs: any_names(random, "x", inputs),
            outputs: any_names(random, "q", outputs),
        };
        let mut program = Program { steps: Vec::new(), transitions: Vec::new(), names };
        program.add_steps(random, &sizes);
        program.add_transitions(random, sizes.transitions);
        program
    }

    /// The program with the longest lines: every list full, every condition of
    /// one byte. The names are short, so that its text is not too long.
    pub(super) fn full(random: &mut Random) -> Program {
        let signs = |letters: &str| letters.chars().map(|sign| sign.to_string()).collect();
        let mut steps: Vec<String> = signs("abcdefghijklmnopqrstuvwxyz");
        steps.extend((0..4).map(|k| format!("_{k}")));
        let outputs = (0..32).map(|k| format!("q{k}")).collect();
        let names = Names { steps: steps.clone(), inputs: Vec::new(), outputs };
        let mut program = Program { steps: Vec::new(), transitions: Vec::new(), names };
        let sizes = Sizes { names: [30, 0, 32], transitions: 64, holds: 64, latches: 64 };
        program.add_steps(random, &sizes);
        for _ in 0..sizes.transitions {
            let (from, to, condition) = (steps.clone(), steps.clone(), deep_condition(1));
            program.transitions.push(Transition { from, to, condition });
        }
        program
    }

    /// Makes the conditions of a full program longer, by so many bytes in all
    /// as they are written.
    pub(super) fn lengthen(&mut self, mut bytes: usize) {
        for transition in &mut self.transitions {
            let more = bytes.min(63);
            transition.condition = deep_condition(1 + more);
            bytes -= more;
        }
    }

    /// Every step with its actions, the first one initial. Outputs of even
    /// numbers are held, those of odd ones latched.
    fn add_steps(&mut self, random: &mut Random, sizes: &Sizes) {
        for (k, name) in self.names.steps.iter().enumerate() {
            let initial = k == 0 || random.percent(10);
            self.steps.push(Step { initial, name: name.clone(), actions: Vec::new() });
        }
        let kinds = [(sizes.holds, &["N", "n"][..]), (sizes.latches, &["S", "R", "s", "r"][..])];
        for (odd, (actions, qualifiers)) in kinds.into_iter().enumerate() {
            let outputs = self.names.outputs.iter().skip(odd).step_by(2).cycle();
            for output in outputs.take(actions) {
                let action = action(output, random.pick(qualifiers));
                any_of(random, &mut self.steps).expect("a step").actions.push(action);
            }
        }
    }

    /// Conditions are short where there are many inputs, so that each of them
    /// comes up in one.
    fn add_transitions(&mut self, random: &mut Random, count: usize) {
        let bytes = random.pick(&[1, 3, 10, 10, 30, 55]);
        let inputs = &self.names.inputs;
        for k in 0..count {
            let condition = match inputs.get(k % inputs.len().max(1)) {
                Some(input) if inputs.len() > 20 => vec![input.clone()],
                _ => any_condition(random, inputs, bytes),
            };
            let (from, to) = (self.any_list(random), self.any_list(random));
            self.transitions.push(Transition { from, to, condition });
        }
    }

    /// Mostly one step, sometimes many.
    fn any_list(&self, random: &mut Random) -> Vec<String> {
        let mut left = self.names.steps.clone();
        let count = match random.below(10) {
            0..=6 => 1,
            7..=8 => 2,
            _ => 1 + random.below(left.len()),
        };
        (0..count.min(left.len())).map(|_| left.swap_remove(random.below(left.len()))).collect()
    }

    /// One fault of the table, where the program has what it takes.
    pub(super) fn spoil(&mut self, random: &mut Random) {
        let Program { steps, transitions, names } = self;
        let any_name = |random: &mut Random, names: &[String]| match names.len() {
            0 => "other".to_string(),
            count => names[random.below(count)].clone(),
        };
        let step = any_name(random, &names.steps);
        let output = any_name(random, &names.outputs);
        match random.below(12) {
            // "a step name never declared"
            0..=1 => spoil_list(random, transitions, |list, place| list[place].push('z')),
            2 if steps.len() > 1 => drop(steps.remove(1 + random.below(steps.len() - 1))),
            // "a name declared or listed twice"
            3 => {
                let initial = random.percent(50);
                let again = Step { initial, name: step, actions: Vec::new() };
                steps.insert(random.below(steps.len() + 1), again);
            }
            4 => spoil_list(random, transitions, |list, place| list.push(list[place].clone())),
            // "an output in a condition, a step's name as a variable"
            5 => extend_condition(random, transitions, &["AND", &output]),
            6 => extend_condition(random, transitions, &["OR", &step]),
            7 => add_action(random, steps, step),
            // "an output with both N and S or R", if it is of the other kind
            8 => add_action(random, steps, output),
            9 => steps.iter_mut().for_each(|step| step.initial = false),
            _ => {
                if let Some(transition) = any_of(random, transitions) {
                    transition.condition = deep_condition(random.from_to(62, 67) as usize);
                }
            }
        }
    }

    /// The tokens, mostly with the steps and transitions in any order.
    pub(super) fn tokens(&self, random: &mut Random) -> Vec<String> {
        let steps = self.steps.iter().map(Step::tokens);
        let mut parts: Vec<_> =
            steps.chain(self.transitions.iter().map(Transition::tokens)).collect();
        if random.percent(70) {
            for place in 1..parts.len() {
                parts.swap(place, random.below(place + 1));
            }
        }
        parts.concat()
    }
}

fn any_of<'p, T>(random: &mut Random, of: &'p mut [T]) -> Option<&'p mut T> {
    (!of.is_empty()).then(|| random.below(of.len())).map(|place| &mut of[place])
}

/// Changes one list at one of its places.
fn spoil_list(
    random: &mut Random,
    transitions: &mut [Transition],
    change: impl FnOnce(&mut Vec<String>, usize),
) {
    if let Some(Transition { from, to, .. }) = any_of(random, transitions) {
        let list = if random.percent(50) { from } else { to };
        if !list.is_empty() {
            change(list, random.below(list.len()));
        }
    }
}

fn extend_condition(random: &mut Random, transitions: &mut [Transition], tokens: &[&str]) {
    if let Some(transition) = any_of(random, transitions) {
        transition.condition.extend(owned(tokens));
    }
}

/// An action more, sometimes one that breaks off.
fn add_action(random: &mut Random, steps: &mut [Step], name: String) {
    let mut added = action(&name, random.pick(&["N", "S", "R"]));
    if random.percent(40) {
        added.truncate(1 + random.below(4));
    }
    if let Some(step) = any_of(random, steps) {
        step.actions.insert(random.below(step.actions.len() + 1), added);
    }
}

fn action(name: &str, qualifier: &str) -> Vec<String> {
    owned(&[name, "(", qualifier, ")", ";"])
}

fn owned(tokens: &[&str]) -> Vec<String> {
    tokens.iter().map(|token| token.to_string()).collect()
}

impl Step {
    fn tokens(&self) -> Vec<String> {
        let keyword = if self.initial { "INITIAL_STEP" } else { "STEP" };
        let mut tokens = owned(&[keyword, &self.name, ":"]);
        tokens.extend(self.actions.concat());
        tokens.push("END_STEP".to_string());
        tokens
    }
}

impl Transition {
    fn tokens(&self) -> Vec<String> {
        let mut tokens = owned(&["TRANSITION", "FROM"]);
        tokens.extend(list_tokens(&self.from));
        tokens.push("TO".to_string());
        tokens.extend(list_tokens(&self.to));
        tokens.push(":=".to_string());
        tokens.extend_from_slice(&self.condition);
        tokens.extend(owned(&[";", "END_TRANSITION"]));
        tokens
    }
}

fn list_tokens(names: &[String]) -> Vec<String> {
    match names {
        [name] => vec![name.clone()],
        _ => {
            let mut tokens = vec!["(".to_string()];
            for name in names {
                tokens.extend([name.clone(), ",".to_string()]);
            }
            tokens.pop();
            tokens.push(")".to_string());
            tokens
        }
    }
}

/// Different names of one kind, which its letter keeps from the other kinds.
fn any_names(random: &mut Random, letter: &str, count: usize) -> Vec<String> {
    let style = random.below(5);
    let any_name = |k: usize| match style {
        0 => format!("{letter}_{k}"),
        1 => format!("_{k}{letter}"),
        2 => format!("{letter}{}{k}", "_of_the_plant".repeat(k % 3)),
        _ => format!("{letter}{k}"),
    };
    let mut names: Vec<_> = (0..count).map(any_name).collect();
    if count > 0 && random.percent(10) {
        // A qualifier, and words that are none of the keywords.
        let plain = match letter {
            "s" => ["N", "ACTION", "end"],
            "x" => ["S", "XOR", "steps"],
            _ => ["R", "PRIORITY", "_to"],
        };
        names[random.below(count)] = random.pick(&plain).to_string();
    }
    names
}

/// The tokens of a condition of about so many bytes as it is written.
fn any_condition(random: &mut Random, inputs: &[String], bytes: usize) -> Vec<String> {
    let (mut tokens, mut open) = (Vec::new(), 0);
    loop {
        if random.percent(25) {
            tokens.push("NOT".to_string());
        }
        if random.percent(25) {
            tokens.push("(".to_string());
            open += 1;
            continue;
        }
        tokens.push(match random.below(inputs.len() + 2) {
            0 => "TRUE".to_string(),
            1 => "FALSE".to_string(),
            input => inputs[input - 2].clone(),
        });
        while open > 0 && random.percent(50) {
            tokens.push(")".to_string());
            open -= 1;
        }
        if tokens.len() + open >= bytes || random.percent(20) {
            tokens.extend(vec![")".to_string(); open]);
            return tokens;
        }
        tokens.push(random.pick(&["AND", "OR"]).to_string());
    }
}

/// The tokens of a condition of exactly so many bytes as it is written.
fn deep_condition(bytes: usize) -> Vec<String> {
    let depth = (bytes - 1) / 2;
    let mut tokens = owned(if bytes.is_multiple_of(2) { &["NOT"] } else { &[] });
    tokens.extend(vec!["(".to_string(); depth]);
    tokens.push("TRUE".to_string());
    tokens.extend(vec![")".to_string(); depth]);
    tokens
}
