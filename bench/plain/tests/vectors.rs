//! The recorded cases: chart and log of each, and what the rig's program must
//! print for them.

mod rig;

use std::path::PathBuf;

/// The recorded files, which the project's own program of cases runs too.
fn file(name: &str) -> Vec<u8> {
    let folder = PathBuf::from(env!("CARGO_MANIFEST_DIR")).join("../../crates/cases");
    std::fs::read(folder.join(name)).expect("the recorded file")
}

struct Recorded {
    name: String,
    chart: Vec<u8>,
    log: Vec<u8>,
}

/// "a line `case=NAME:CHARTBYTES:LOGBYTES`, then that many bytes of chart
/// text, then that many bytes of what the program would read"
fn cases(bytes: &[u8]) -> Vec<Recorded> {
    let mut rest = bytes;
    let mut take = |length: usize| {
        let (part, after) = rest.split_at(length);
        rest = after;
        part.to_vec()
    };
    let mut cases = Vec::new();
    let mut at = 0;
    while at < bytes.len() {
        let length = 1 + bytes[at..].iter().position(|byte| *byte == b'\n').expect("a frame line");
        let frame = String::from_utf8(take(length)).expect("a frame line");
        let frame = frame.trim_end().strip_prefix("case=").expect("a frame line");
        let mut parts = frame.rsplitn(3, ':');
        let log: usize = parts.next().unwrap().parse().expect("LOGBYTES");
        let chart: usize = parts.next().unwrap().parse().expect("CHARTBYTES");
        let name = parts.next().unwrap().to_string();
        cases.push(Recorded { name, chart: take(chart), log: take(log) });
        at += length + chart + log;
    }
    cases
}

#[test]
fn recorded_cases() {
    let cases = cases(&file("stdin"));
    assert_eq!(cases.len(), 1209);
    let expected = file("stdout");
    let mut at = 0;
    for case in &cases {
        let mut printed = format!("case={}\n", case.name).into_bytes();
        printed.extend(rig::run(&case.chart, &case.log));
        let wanted = &expected[at..expected.len().min(at + printed.len())];
        assert!(
            printed == wanted,
            "case {}:\n{}\nwanted:\n{}",
            case.name,
            String::from_utf8_lossy(&printed),
            String::from_utf8_lossy(wanted)
        );
        at += printed.len();
    }
    assert_eq!(at, expected.len());
}

/// The rig's programs, each with its chart, its log and what it must print. A
/// `chart.txt` that cannot be read counts as empty text.
#[test]
fn rig_programs() {
    let crates = PathBuf::from(env!("CARGO_MANIFEST_DIR")).join("../../crates");
    let mut programs = 0;
    for entry in std::fs::read_dir(&crates).expect("crates") {
        let folder = entry.expect("a crate").path();
        let name = folder.file_name().expect("its name").to_string_lossy().into_owned();
        if name != "rig" && !name.starts_with("rig_") {
            continue;
        }
        let chart = std::fs::read(folder.join("data/chart.txt")).unwrap_or_default();
        let log = std::fs::read(folder.join("stdin")).expect("a log");
        let expected = std::fs::read(folder.join("stdout")).expect("what it prints");
        assert!(rig::run(&chart, &log) == expected, "program {name}");
        programs += 1;
    }
    assert!(programs >= 4);
}
