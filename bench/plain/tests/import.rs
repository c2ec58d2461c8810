//! SFC texts: the recorded cases, the paper's `press` and its rulings' table,
//! and each limit from both sides.

use std::path::PathBuf;

use plain::sfc::{import, names, Imported, Names, Place};

/// Bytes lent by the program `import`.
const ROOM: usize = 16_384;

/// What the lent bytes hold before a call.
fn blank(bytes: usize) -> Vec<u8> {
    (0..bytes).map(|place| place as u8 | 0x80).collect()
}

/// An import that leaves what it must: a refusal all the room, a success the
/// bytes past its result, which the check accepts.
fn imported(text: &[u8], bytes: usize) -> (Imported, Vec<u8>) {
    let mut room = blank(bytes);
    let answer = import(text, &mut room);
    assert!(room[answer.length..] == blank(bytes)[answer.length..], "bytes past the result");
    room.truncate(answer.length);
    if answer.number == 0 {
        assert_eq!(plain::check(&room), (0, 0), "{}", String::from_utf8_lossy(&room));
    } else {
        assert_eq!(answer.length, 0);
    }
    (answer, room)
}

/// Number and line.
fn answer(text: &str) -> (u32, u32) {
    let (answer, _) = imported(text.as_bytes(), ROOM);
    (answer.number, answer.line)
}

/// What the program prints: "`ans=` and `n=`", then "the chart's text, then
/// the map", for a refusal "nothing more".
fn printed(text: &[u8], bytes: usize) -> Vec<u8> {
    let (answer, chart) = imported(text, bytes);
    let mut out = format!("ans={}\nn={}\n", answer.number, answer.line).into_bytes();
    if answer.number != 0 {
        return out;
    }
    out.extend(chart);
    let Names { steps, inputs, outputs } = names(text);
    for (kind, places) in [("step", steps), ("input", inputs), ("output", outputs)] {
        for (k, (start, length)) in places.into_iter().enumerate() {
            out.extend(format!("{kind}={k}:").bytes());
            out.extend(&text[start..][..length]);
            out.push(b'\n');
        }
    }
    out
}

/// The recorded files, which the project's own program of cases runs too.
fn file(name: &str) -> Vec<u8> {
    let folder = PathBuf::from(env!("CARGO_MANIFEST_DIR")).join("../../crates/import_cases");
    std::fs::read(folder.join(name)).expect("the recorded file")
}

/// "A case begins with a line `case=NAME:SFCBYTES:ROOM`", then the text: its
/// name, the bytes lent, the text, and what stands behind it.
fn first_case(bytes: &[u8]) -> (&str, usize, &[u8], &[u8]) {
    let length = bytes.iter().position(|byte| *byte == b'\n').expect("a frame line");
    let frame = std::str::from_utf8(&bytes[..length]).expect("a frame line");
    let frame = frame.strip_prefix("case=").expect("a frame line");
    let mut parts = frame.rsplitn(3, ':');
    let room = parts.next().unwrap().parse().expect("ROOM");
    let text: usize = parts.next().unwrap().parse().expect("SFCBYTES");
    let (text, rest) = bytes[length + 1..].split_at(text);
    (parts.next().unwrap(), room, text, rest)
}

#[test]
fn recorded_cases() {
    let (stdin, stdout) = (file("stdin"), file("stdout"));
    let (mut cases, mut wanted) = (&stdin[..], &stdout[..]);
    let mut count = 0;
    while !cases.is_empty() {
        let (name, room, text, rest) = first_case(cases);
        let mut out = format!("case={name}\n").into_bytes();
        out.extend(printed(text, room));
        assert!(wanted.starts_with(&out), "case {name}:\n{}", String::from_utf8_lossy(&out));
        (cases, wanted) = (rest, &wanted[out.len()..]);
        count += 1;
    }
    assert_eq!(count, 300);
    assert!(wanted.is_empty());
}

#[test]
fn press() {
    let text = plain::gen::sfc::PRESS.as_bytes();
    let chart = "chart=1\nsteps=3\ninitial=0\ninputs=2\noutputs=2\nlimit=1024\n\
        move=0>1,2:i0.!(i1+0)\nmove=1,2>0:1\nhold=0:0:1\nhold=1:0:1\n\
        latch=2:u:1:0\nlatch=1:u:1:1\nend=6\n";
    let map = "step=0:Rest\nstep=1:Up\nstep=2:Down\ninput=0:go\ninput=1:stop\n\
        output=0:Lamp\noutput=1:Valve\n";
    let wanted = format!("ans=0\nn=0\n{chart}{map}");
    assert_eq!(String::from_utf8(printed(text, ROOM)).unwrap(), wanted);
}

/// `INITIAL_STEP A: END_STEP`, then the rest.
fn after_a(rest: &str) -> (u32, u32) {
    answer(&format!("INITIAL_STEP A: END_STEP{rest}"))
}

#[test]
fn table_of_the_rulings() {
    let behind = "\nTRANSITION FROM A TO\nZ := x; END_TRANSITION\n?\nSTEP Z: END_STEP";
    assert_eq!(after_a(behind), (16, 4));
    assert_eq!(after_a("\nTRANSITION FROM A TO Z := x; END_TRANSITION\n?\n"), (17, 2));
    assert_eq!(after_a("\nTRANSITION FROM A TO (A,B,\nA) := x; END_TRANSITION"), (17, 2));
    assert_eq!(after_a("\nTRANSITION FROM B TO A := A; END_TRANSITION"), (16, 2));
    let driven = "\nTRANSITION FROM A TO A := y; END_TRANSITION\nSTEP B: y(N); END_STEP";
    assert_eq!(after_a(driven), (16, 2));
    assert_eq!(answer("INITIAL_STEP A: v(S);\nv(N); END_STEP"), (18, 2));
    assert_eq!(answer("INITIAL_STEP A:\n"), (16, 2));
    assert_eq!(answer("INITIAL_STEP A:"), (16, 1));
    assert_eq!(answer("STEP A: END_STEP"), (16, 0));
    assert_eq!(answer("STEP A: END_STEP x"), (16, 1));
}

#[test]
fn room_comes_first() {
    let too_long = [b' '; 16_385];
    for text in [&b"?"[..], b"", plain::gen::sfc::PRESS.as_bytes(), &too_long] {
        for bytes in [0, 1, ROOM - 1] {
            assert_eq!(imported(text, bytes).0, Imported { number: 29, line: 0, length: 0 });
        }
    }
    assert_eq!(imported(&too_long, 40_000).0, Imported { number: 18, line: 0, length: 0 });
    assert_eq!(imported(&too_long[1..], 40_000).0, Imported { number: 16, line: 0, length: 0 });
}

#[test]
fn tokens() {
    for (part, wanted) in [
        ("(**)", (0, 0)),
        ("(* ( * ) ** (* *)", (0, 0)),
        ("(*)", (16, 1)),
        ("\n(*\n*\n)", (16, 2)),
        ("(* *) *)", (16, 1)),
        ("// x", (16, 1)),
        ("{ }", (16, 1)),
        ("\u{b}", (16, 1)),
        ("\t\r\n ", (0, 0)),
        (" STEP _1: END_STEP", (0, 0)),
        (" STEP a_b_1: END_STEP", (0, 0)),
        (" STEP a__b: END_STEP", (16, 1)),
        (" STEP a_: END_STEP", (16, 1)),
        (" STEP _: END_STEP", (16, 1)),
        (" STEP 1a: END_STEP", (16, 1)),
        (" STEP from: END_STEP", (16, 1)),
        (" STEP N: S(N); xor(s); END_STEP", (0, 0)),
        (" sTeP B:v(*\n*)(n)\r;END_step", (0, 0)),
        ("STEP B: END_STEP", (16, 1)),
    ] {
        assert_eq!(after_a(part), wanted, "{part}");
    }
}

#[test]
fn lines_of_faults() {
    for (part, wanted) in [
        ("\nTRANSITION FROM (A\n) TO A := x; END_TRANSITION", (16, 3)),
        ("\nTRANSITION FROM A TO A := x\nEND_TRANSITION", (16, 3)),
        ("\nTRANSITION FROM A TO A := (x\n;END_TRANSITION", (16, 3)),
        ("\nTRANSITION FROM A TO A := x\n); END_TRANSITION", (16, 3)),
        ("\nTRANSITION FROM A TO A : = x; END_TRANSITION", (16, 2)),
        ("\nTRANSITION FROM (B,\nB) TO A := x; END_TRANSITION", (17, 2)),
        ("\nTRANSITION FROM (B,B) TO A := x; END_TRANSITION", (16, 2)),
        ("\nSTEP\na:\nEND_STEP", (16, 3)),
        ("\nSTEP B: v(N); v\n(S)\nEND_STEP", (18, 2)),
        ("\nSTEP B: v(N); v\n(S\n?", (16, 4)),
        ("\nSTEP B: B\n(\n?", (16, 2)),
        ("\nSTEP B: END_STEP\n;", (16, 3)),
    ] {
        assert_eq!(after_a(part), wanted, "{part}");
    }
}

/// "31st step name", "33rd input", "33rd output", "65th N action", "65th S or
/// R action", 65th TRANSITION: the last thing within a limit, then the one
/// past it, each on a line of its own.
#[test]
fn limits() {
    let step = |k| format!("\nSTEP s{k}: END_STEP");
    let input = |k| format!("\nTRANSITION FROM A TO A := v{k}; END_TRANSITION");
    let output = |k| format!("\nSTEP s{k}: v{k}(N); w{k}(R); END_STEP");
    let hold = |k| format!("\nSTEP s{k}: v(N);v(N);v(N);v(N);v(N);v(N);v(N);v(N); END_STEP");
    let latch = |k| format!("\nSTEP s{k}: v(R);v(S);v(R);v(S);v(R);v(S);v(R);v(S); END_STEP");
    let transition = |_| "\nTRANSITION FROM A TO A := TRUE; END_TRANSITION".to_string();
    type Part<'p> = &'p dyn Fn(u32) -> String;
    let limited: [(Part, u32); 6] =
        [(&step, 29), (&input, 32), (&output, 16), (&hold, 8), (&latch, 8), (&transition, 64)];
    for (part, most) in limited {
        let text = |count| (0..count).map(part).collect::<String>();
        assert_eq!(after_a(&text(most)), (0, 0));
        assert_eq!(after_a(&text(most + 1)), (18, most + 2));
    }
}

/// "its bytes take the written condition past 64 (`i10` counts 3, whatever the
/// name)"
#[test]
fn long_conditions() {
    let with = |condition: &str| {
        after_a(&format!("\nTRANSITION FROM A TO A := {condition}; END_TRANSITION"))
    };
    let deep = |n: usize| format!("{}TRUE{}", "(".repeat(n), "\n)".repeat(n));
    assert_eq!(with(&deep(31)), (0, 0));
    assert_eq!(with(&deep(32)), (18, 34));
    assert_eq!(with(&format!("NOT {}", deep(31))), (0, 0));
    assert_eq!(with(&format!("NOT {}", deep(32))), (18, 33));
    assert_eq!(with(&"(".repeat(10_000)), (16, 2));
    assert_eq!(with(&format!("{}\n", "(".repeat(10_000))), (18, 2));
    let ten = (0..10).map(|k| format!("x{k} AND ")).collect::<String>();
    let long = format!("{ten}{}", "y AND ".repeat(7));
    assert_eq!(with(&format!("{long}NOT (y)")), (0, 0));
    assert_eq!(with(&format!("{long}NOT (NOT y\n)")), (18, 3));
    assert_eq!(with(&format!("{long}NOT (NOT\n(y\n))")), (18, 3));
}

fn spelled(text: &str, places: &[Place]) -> Vec<String> {
    places.iter().map(|(start, length)| text[*start..][..*length].to_string()).collect()
}

#[test]
fn names_as_first_spelled() {
    let text = "TRANSITION FROM (Up,DOWN) TO up := Go OR gO AND STOP; END_TRANSITION \
        INITIAL_STEP UP: Lamp(N); lamp(n); END_STEP STEP down: valve(R); END_STEP";
    assert_eq!(answer(text), (0, 0));
    let Names { steps, inputs, outputs } = names(text.as_bytes());
    assert_eq!(spelled(text, &steps), ["Up", "DOWN"]);
    assert_eq!(spelled(text, &inputs), ["Go", "STOP"]);
    assert_eq!(spelled(text, &outputs), ["Lamp", "valve"]);
    assert_eq!(names(format!("{text}?").as_bytes()), Names::default());
}

/// Random texts: a success is a chart whose names stand in the text, each
/// answer comes often enough, and the same text gives the same with any room.
#[test]
fn random_texts() {
    let mut seen = std::collections::BTreeMap::new();
    for n in 0..20_000 {
        let plain::gen::sfc::Case { text, room } = plain::gen::sfc::case(n);
        let (answer, chart) = imported(&text, room);
        let names = names(&text);
        if answer.number != 29 {
            assert_eq!(imported(&text, ROOM), (answer, chart), "case {n}");
            assert_eq!(names == Names::default(), answer.number != 0, "case {n}");
        }
        *seen.entry((answer.number, answer.line == 0)).or_insert(0) += 1;
    }
    let often =
        [(0, true), (16, false), (16, true), (17, false), (18, false), (18, true), (29, true)];
    assert!(seen.keys().eq(&often), "{seen:?}");
    assert!(seen.values().all(|times| *times >= 300), "{seen:?}");
}
