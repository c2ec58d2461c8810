//! The paper's small charts, both sides of each edge, its rig log, and the
//! faults of texts one by one.

mod rig;

use plain::gen::{self, RIG};
use plain::{check, event, lookup, start, Answer, Compiled, State};

/// A chart text: steps, initial, inputs, outputs, limit and the lines.
fn chart(head: (u32, &str, u32, u32, u32), lines: &[&str]) -> String {
    let (steps, initial, inputs, outputs, limit) = head;
    let mut text = format!(
        "chart=1\nsteps={steps}\ninitial={initial}\ninputs={inputs}\noutputs={outputs}\nlimit={limit}\n"
    );
    for line in lines {
        text += line;
        text += "\n";
    }
    text + &format!("end={}\n", lines.len())
}

fn begin(text: &str) -> Answer {
    start(text.as_bytes(), 0, &mut [])
}

/// Number, count and situation of an answer.
fn short(answer: &Answer) -> (u32, u32, u32) {
    (answer.number, answer.count, answer.state.situation)
}

#[test]
fn a_and_b_a_loop_of_two() {
    let lines = ["move=0>1:1", "move=1>0:1"];
    assert_eq!(short(&begin(&chart((2, "0", 0, 0, 3), &lines))), (12, 3, 0));
    assert_eq!(short(&begin(&chart((2, "0", 0, 0, 2), &lines))), (13, 2, 0));
}

#[test]
fn c_and_d_a_loop_of_one() {
    assert_eq!(short(&begin(&chart((1, "0", 0, 0, 2), &["move=0>0:1"]))), (12, 2, 0));
    assert_eq!(short(&begin(&chart((1, "0", 0, 0, 1), &["move=0>0:1"]))), (13, 1, 0));
}

#[test]
fn e_both_moves_fire() {
    let text = chart((3, "0", 0, 0, 16), &["move=0>1:1", "move=0>2:1"]);
    assert_eq!(short(&begin(&text)), (0, 1, 6));
}

#[test]
fn f_step_1_never_left() {
    let lines = ["move=0>1:1", "move=1>:x0", "latch=1:d:0:1", "latch=1:u:1:1"];
    let answer = begin(&chart((2, "0,1", 0, 2, 16), &lines));
    assert_eq!(short(&answer), (0, 1, 2));
    assert_eq!(answer.outputs, 0);
}

#[test]
fn g_and_h_there_and_back_keeps_the_age() {
    let text = chart((2, "0", 1, 0, 16), &["move=0>1:ui0", "move=1>0:1"]);
    let first = begin(&text);
    assert_eq!(short(&first), (0, 0, 1));
    assert_eq!(short(&event(text.as_bytes(), &first.state, 0, 1, &mut [])), (0, 2, 1));
    let mut state = first.state;
    state.ages[0] = 300;
    let mut trace = [9; 4];
    let answer = event(text.as_bytes(), &state, 5, 1, &mut trace);
    assert_eq!(short(&answer), (0, 2, 1));
    assert_eq!(answer.state.ages[0], 305);
    assert_eq!(trace, [2, 1, 9, 9]);
}

#[test]
fn i_a_situation_seen_twice() {
    let lines = ["move=0>1:ui0", "move=1>2:dx0", "move=2>1:1"];
    let text = chart((3, "0", 1, 0, 16), &lines);
    let answer = event(text.as_bytes(), &begin(&text).state, 0, 1, &mut []);
    assert_eq!(short(&answer), (0, 3, 2));
}

#[test]
fn j_more_firings_than_steps() {
    let lines =
        ["move=0>1:1", "move=1>0:!(x3.x5)", "move=2>3:x1", "move=3>2:x1.!x5", "move=4>5:x1.x3"];
    assert_eq!(short(&begin(&chart((6, "0,2,4", 0, 0, 16), &lines))), (0, 7, 42));
}

#[test]
fn k_off_wins() {
    let lines = ["move=0>1:1", "latch=0:d:0:1", "latch=1:u:0:0"];
    let answer = begin(&chart((2, "0", 0, 1, 16), &lines));
    assert_eq!((short(&answer), answer.outputs), ((0, 1, 2), 0));
}

#[test]
fn l_the_longest_elapsed_time() {
    let text = chart((1, "0", 1, 0, 16), &[]);
    let state = begin(&text).state;
    let answer = event(text.as_bytes(), &state, 60_000, 0, &mut []);
    assert_eq!((answer.number, answer.state.ages[0]), (0, 60_000));
    let refused = event(text.as_bytes(), &answer.state, 60_001, 0, &mut []);
    assert_eq!(refused, Answer { number: 11, count: 0, state: answer.state, outputs: 0 });
}

#[test]
fn the_rig_log() {
    let printed = rig::run(RIG.as_bytes(), b"go=0\nev=0:1\nev=199:1\nev=1:3\nev=0:0\n");
    let wanted = "\
        ans=0\nn=0\nsit=1\nout=0\n\
        ans=0\nn=2\nsit=4\nout=2\n\
        ans=0\nn=0\nsit=4\nout=2\n\
        ans=0\nn=1\nsit=8\nout=3\n\
        ans=0\nn=1\nsit=1\nout=0\n";
    assert_eq!(String::from_utf8_lossy(&printed), wanted);
}

/// A text of two steps, two inputs and two outputs with these lines instead of
/// the head's or after it; the fault is at the first of them.
fn fault_of(line: &str) -> u32 {
    let head = ["chart=1", "steps=2", "initial=0", "inputs=2", "outputs=2", "limit=9"];
    let key = |line: &str| line.split('=').next().unwrap_or("").to_string();
    let mut lines: Vec<&str> = head.to_vec();
    match head.iter().position(|of_head| key(of_head) == key(line)) {
        Some(place) => lines[place] = line,
        None => lines.push(line),
    }
    let place = 1 + lines.iter().position(|other| *other == line).unwrap_or(0);
    if !line.starts_with("end=") {
        lines.push(if lines.len() > head.len() { "end=1" } else { "end=0" });
    }
    let (number, at) = check((lines.join("\n") + "\n").as_bytes());
    assert!(number == 0 && at == 0 || at as usize == place, "{line}: {number} at {at}");
    number
}

#[test]
fn faults_of_one_line() {
    let long = |n: usize| format!("move=0>1:{}x0", "!".repeat(n - 2));
    let deep = |n: usize| format!("move=0>1:{}1{}", "(".repeat(n), ")".repeat(n));
    let cases: &[(u32, &[&str])] = &[
        (
            0,
            &["chart=1", "steps=30", "steps=1", "inputs=32", "outputs=32", "limit=1", "limit=1024"],
        ),
        (
            2,
            &[
                "chart=01",
                "chart=",
                "chart=00000001",
                "steps=+1",
                "steps=2 ",
                " steps=2",
                "inputs=0x",
            ],
        ),
        (3, &["chart=0", "chart=2", "chart=9999999", "steps=0", "steps=31", "inputs=33"]),
        (3, &["outputs=33", "limit=0", "limit=1025", "steps=9999999"]),
        (2, &["initial=0,,1", "initial=,1", "initial=1,", "initial=00", "initial=12345678"]),
        (3, &["initial=", "initial=9,8", "initial=1,0", "initial=1,1"]),
        (6, &["initial=0,9", "initial=2", "initial=0,9999999"]),
        (0, &["initial=0,1", "move=0>1:1", "move=>1:1", "move=0>:1", "move=0,1>0,1:0"]),
        (
            2,
            &["move=0>1>0:1", "move=0:1>1:1", "move=0>1", "move=0-1:1", "move=0,>1:1", "mov=0>1:1"],
        ),
        (3, &["move=>:1", "move=>:?", "move=1,0>1:1", "move=0>1,1:", "move=9,8>0:ux9"]),
        (4, &["move=9>1:?", "move=0>1:", "move=0>1:x0>x1", "move=0>1:x0 ", "move=0>1:\tx0"]),
        (4, &["move=0>1:0/x0", "move=0>1:3600001/x0", "move=0>1:0/x9", "move=0>1:1/i0"]),
        (4, &["move=0>1:2", "move=0>1:10", "move=0>1:01", "move=0>1:x00", "move=0>1:x12345678"]),
        (
            4,
            &[
                "move=0>1:()",
                "move=0>1:(1",
                "move=0>1:1)",
                "move=0>1:1+",
                "move=0>1:.1",
                "move=0>1:!",
            ],
        ),
        (4, &["move=0>1:x0\r", "move=0>1:u", "move=0>1:u1", "move=0>1:1x0", "move=0>1:x0x0"]),
        (
            0,
            &[
                "move=0>1:1/x0",
                "move=0>1:3600000/x0",
                "move=0>1:((1))",
                "move=0>1:!!x0",
                "move=0>1:2/x0",
            ],
        ),
        (6, &["move=2>1:1", "move=0>2:1", "move=0>1:x2", "move=0>1:i2", "move=0>1:ui9999999"]),
        (6, &["move=0>1:1/x2", "move=0>1:x32", "hold=0:0:ux9", "hold=2:0:1", "hold=0:2:1"]),
        (2, &["hold=0:0", "hold=0:1", "hold=0,1:0:1", "hold=:0:1", "hold=00:0:1", "hold=0:-1:1"]),
        (4, &["hold=0:0:", "hold=9:9:ux0.", "hold=0:0:1:1"]),
        (7, &["hold=0:0:ux0", "hold=0:0:1+!(di1)", "hold=0:0:dx1", "hold=0:0:ui0"]),
        (0, &["hold=0:0:1", "hold=1:1:200/x1", "latch=0:u:0:1", "latch=1:d:1:0"]),
        (2, &["latch=0:U:0:1", "latch=0:u:0:2", "latch=0:u:0:", "latch=0:u:0:10", "latch=0::0:1"]),
        (6, &["latch=2:u:0:1", "latch=0:u:2:1", "latch=9999999:u:0:1"]),
        (9, &["end=1", "end=9999999"]),
        (2, &["end=", "end=00000000", "end=-0", "", "x", "end=0 "]),
        (0, &["end=0"]),
        (0, &[&long(64), &deep(31)]),
        (4, &[&long(65), &deep(32), &deep(33), &deep(1_000)]),
    ];
    for (number, lines) in cases {
        for line in *lines {
            assert_eq!(fault_of(line), *number, "{line}");
        }
    }
}

#[test]
fn faults_of_whole_texts() {
    let rig = RIG.as_bytes();
    assert_eq!(check(rig), (0, 0));
    assert_eq!(check(b""), (2, 1));
    assert_eq!(check(b"\n"), (2, 1));
    assert_eq!(check(b"chart=1\n"), (2, 2));
    assert_eq!(check(b"chart=9"), (2, 1));
    assert_eq!(check(&rig[..rig.len() - 1]), (2, 15));
    assert_eq!(check(&RIG.replace("end=8\n", "end=7").into_bytes()), (2, 15));
    assert_eq!(check(&RIG.replace("end=8", "end=7").into_bytes()), (9, 15));
    assert_eq!(check(&RIG.replace("end=8\n", "").into_bytes()), (2, 15));
    assert_eq!(check(&[rig, b"x"].concat()), (2, 16));
    assert_eq!(check(&[rig, b"\n"].concat()), (2, 16));
    assert_eq!(check(&RIG.replace("end=8", "end=9\n").into_bytes()), (9, 15));
    assert_eq!(
        check(
            &RIG.replace("move=3>0:!i0\nhold=1:0:1\n", "hold=1:0:1\nmove=3>0:!i0\n").into_bytes()
        ),
        (2, 11)
    );
    assert_eq!(
        check(&RIG.replace("steps=4\ninitial=0\n", "initial=0\nsteps=4\n").into_bytes()),
        (2, 2)
    );
    assert_eq!(check(&RIG.replace("inputs=2\n", "").into_bytes()), (2, 4));
    assert_eq!(check(&RIG.replace("latch=1:u:1:1", "latch=1:u:0:1").into_bytes()), (8, 13));
    assert_eq!(check(&RIG.replace("latch=1:u:1:1", "latch=4:u:0:1").into_bytes()), (6, 13));
    assert_eq!(check(&vec![b'a'; 16_384]), (2, 1));
    assert_eq!(check(&vec![b'a'; 16_385]), (1, 0));
}

#[test]
fn the_65th_line_of_a_kind() {
    for (line, wrong_shape, other_fault) in [
        ("move=0>1:1", "move=0>1;1", "move=9>1:?"),
        ("hold=0:0:1", "hold=0:0;1", "hold=9:0:ux0"),
        ("latch=0:u:0:1", "latch=0:u:0:2", "latch=9:u:9:1"),
    ] {
        let with = |lines: Vec<&str>| check(chart((2, "0", 0, 1, 9), &lines).as_bytes());
        assert_eq!(with(vec![line; 64]), (0, 0));
        assert_eq!(with(vec![line; 65]), (3, 71));
        assert_eq!(with([vec![line; 64], vec![wrong_shape]].concat()), (2, 71));
        assert_eq!(with([vec![line; 64], vec![other_fault]].concat()), (3, 71));
    }
    let unended = chart((2, "0", 0, 1, 9), &["move=0>1:1"; 65]);
    let place = unended.find("\nend=").unwrap_or(0);
    assert_eq!(check(&unended.as_bytes()[..place]), (2, 71));
}

#[test]
fn lookups() {
    let part = |k: u32| {
        let (place, length) = lookup(RIG.as_bytes(), k);
        (place, &RIG[place..place + length])
    };
    assert_eq!(part(1), (63, "ui0"));
    assert_eq!(part(3).1, "200/x2");
    assert_eq!(part(4).1, "!i0");
    for k in [0, 5, 6, 64, 65, u32::MAX] {
        assert_eq!(part(k), (0, ""));
    }
    let refused = RIG.replace("end=8", "end=9");
    assert_eq!(lookup(refused.as_bytes(), 1), (0, 0));
}

#[test]
fn states_not_accepted() {
    let good = State { situation: 4, inputs: 3, latched: 2, ..State::default() };
    let number = |change: &dyn Fn(&mut State)| {
        let mut state = good;
        change(&mut state);
        let answer = event(RIG.as_bytes(), &state, 60_001, 4, &mut [0; 3]);
        assert_eq!((answer.state, answer.outputs, answer.count), (state, 0, 0));
        answer.number
    };
    assert_eq!(number(&|_| ()), 11);
    assert_eq!(number(&|state| state.situation = 0), 11);
    assert_eq!(number(&|state| state.ages[2] = 3_600_000), 11);
    assert_eq!(number(&|state| state.situation |= 16), 10);
    assert_eq!(number(&|state| state.inputs |= 4), 10);
    assert_eq!(number(&|state| state.latched |= 1), 10);
    assert_eq!(number(&|state| state.latched |= 4), 10);
    assert_eq!(number(&|state| state.ages[2] = 3_600_001), 10);
    assert_eq!(number(&|state| state.ages[1] = 1), 10);
    assert_eq!(number(&|state| state.ages[29] = 1), 10);
}

#[test]
fn ages_stop_at_their_bound() {
    let mut state = State { situation: 4, inputs: 1, ..State::default() };
    state.ages[2] = 3_599_990;
    let text = RIG.replace("200/x2", "3600000/x2");
    let answer = event(text.as_bytes(), &state, 9, 1, &mut []);
    assert_eq!((short(&answer), answer.state.ages[2]), ((0, 0, 4), 3_599_999));
    let answer = event(text.as_bytes(), &state, 60_000, 1, &mut []);
    assert_eq!((short(&answer), answer.state.ages), ((0, 1, 8), [0; 30]));
    let text = RIG.replace("200/x2", "0");
    let answer = event(text.as_bytes(), &state, 60_000, 1, &mut []);
    assert_eq!((short(&answer), answer.state.ages[2]), ((0, 0, 4), 3_600_000));
}

#[test]
fn a_thousand_firings() {
    let text = gen::thousand().text();
    let mut trace = [7; 1_030];
    let answer = event(&text, &State::default(), 0, 0, &mut trace);
    assert_eq!(short(&answer), (0, 1_024, 2_047));
    assert_eq!(trace[..3], [1, 2, 3]);
    assert_eq!(trace[1_021..1_026], [1_022, 1_023, 2_047, 7, 7]);
    let shorter = String::from_utf8_lossy(&text).replace("limit=1024", "limit=1023");
    let mut trace = [7; 1_030];
    let answer = event(shorter.as_bytes(), &State::default(), 0, 0, &mut trace);
    assert_eq!(short(&answer), (13, 1_023, 0));
    assert_eq!(trace[1_021..1_024], [1_022, 1_023, 7]);
}

/// A counter that goes round: s1 has the situation 2 and the predecessor 1;
/// the same pair comes back after a whole round.
#[test]
fn the_least_repeat() {
    for digits in 1..=9 {
        let round = 1 << digits;
        let number = |limit: u32| {
            let text = gen::counter(digits, false, limit).text();
            let mut trace = [u32::MAX; 1_100];
            let answer = start(&text, 0, &mut trace);
            let written = trace.iter().position(|word| *word == u32::MAX);
            assert_eq!(written, Some(answer.count as usize));
            (answer.number, answer.count)
        };
        assert_eq!(number(round + 1), (12, round + 1));
        assert_eq!(number(1_024), (12, round + 1));
        assert_eq!(number(round), (13, round));
        assert_eq!(number(1), (13, 1));
    }
}

/// Texts of every length around the sizes of the tables, as full of lines and
/// of tests as can be.
#[test]
fn dense_texts_of_every_size() {
    let condition = &"0.1+".repeat(16)[..63];
    let dense_move = format!("move=0>:{condition}");
    let dense_hold = format!("hold=0:0:{condition}");
    for bytes in [150..260, 1_000..1_100, 4_000..4_200].into_iter().flatten() {
        for line in [&dense_move, &dense_hold, "move=0>:1", "hold=0:0:1", "latch=0:u:0:1"] {
            let mut text = chart((1, "0", 0, 1, 1), &[]).replace("end=0\n", "");
            while text.len() < bytes {
                text = text + line + "\n";
            }
            text.truncate(bytes);
            assert_ne!(check(text.as_bytes()).0, 0);
            let whole = &text[..text.rfind('\n').map_or(0, |place| place + 1)];
            let lines = whole.matches(line).count();
            let ended = format!("{whole}end={lines}\n");
            let number = if lines <= 64 { 0 } else { 3 };
            assert_eq!(check(ended.as_bytes()).0, number, "{ended}");
        }
    }
    let lines = [vec![&dense_move[..]; 64], vec![&dense_hold[..]; 64]].concat();
    let text = chart((1, "0", 0, 1, 9), &lines);
    assert_eq!(short(&begin(&text)), (0, 0, 1));
}

#[test]
fn the_largest_chart() {
    let (plan, state, elapsed, inputs) = gen::largest();
    let text = plan.text();
    assert_eq!(text.len(), 16_384);
    assert_eq!((plan.moves.len(), plan.holds.len(), plan.latches.len()), (64, 64, 64));
    let conditions =
        plan.moves.iter().map(|line| &line.2).chain(plan.holds.iter().map(|line| &line.2));
    assert!(conditions.into_iter().all(|condition| condition.len() == 64));
    let answer = event(&text, &state, elapsed, inputs, &mut []);
    assert!(answer.number == 0 && answer.count >= 4);
}

#[test]
fn a_compiled_chart_answers_alike() {
    let Ok(compiled) = Compiled::new(RIG.as_bytes()) else { panic!("the rig chart is refused") };
    let mut state = compiled.start(0, &mut []).state;
    for (elapsed, inputs) in [(0, 1), (199, 1), (1, 3), (0, 0), (60_001, 0), (0, 4)] {
        let (mut ours, mut theirs) = ([5; 3], [5; 3]);
        let answer = compiled.event(&state, elapsed, inputs, &mut ours);
        assert_eq!(answer, event(RIG.as_bytes(), &state, elapsed, inputs, &mut theirs));
        assert_eq!(ours, theirs);
        state = answer.state;
    }
    assert_eq!(Compiled::new(b"chart=2\n").err(), Some((3, 1)));
}

#[test]
fn states_as_words() {
    let mut state = State { situation: 1, inputs: 2, latched: 3, ..State::default() };
    state.ages = std::array::from_fn(|step| 4 + step as u32);
    let words = state.to_words();
    assert!(words.iter().enumerate().all(|(place, word)| *word as usize == place + 1));
    assert_eq!(State::from_words(&words), state);
}
