//! The proved engine beside the plain one.
//!
//!     compare differ N                        the first N random and damaged calls on both, everything compared
//!     compare calls ours|plain CHART ROOM N   N text-in events with a trace of ROOM words lent and nothing else,
//!                                             for an instruction meter; CHART is rig, largest or firings
//!     compare times                           the text-in event on the three charts, in ns per call
//!     compare import N                        the first N random and damaged SFC texts on both, everything compared
//!     compare imports ours|plain TEXT N       N imports and nothing else; TEXT is press, small or large
//!     compare bytes TEXT                      the bytes of that text

mod differ;
mod import;
mod speed;

fn main() {
    let words: Vec<String> = std::env::args().skip(1).collect();
    let words: Vec<&str> = words.iter().map(String::as_str).collect();
    match run(&words) {
        Some(true) => {}
        Some(false) => std::process::exit(1),
        None => {
            eprintln!("compare differ N | calls ours|plain rig|largest|firings ROOM N | times");
            eprintln!("compare import N | imports ours|plain press|small|large N | bytes TEXT");
            std::process::exit(2);
        }
    }
}

/// True if it passed; None for words that say nothing.
fn run(words: &[&str]) -> Option<bool> {
    let number = |word: &str| word.parse::<u64>().ok();
    match *words {
        ["differ", count] => number(count).map(differ::run),
        ["calls", engine, chart, room, count] => {
            speed::calls(is_ours(engine)?, chart, number(room)?, number(count)?)
        }
        ["times"] => {
            speed::times();
            Some(true)
        }
        ["import", count] => number(count).map(import::run),
        ["imports", engine, text, count] => import::imports(is_ours(engine)?, text, number(count)?),
        ["bytes", text] => import::bytes(text),
        _ => None,
    }
}

fn is_ours(engine: &str) -> Option<bool> {
    match engine {
        "ours" => Some(true),
        "plain" => Some(false),
        _ => None,
    }
}
