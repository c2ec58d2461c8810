//! The quarter-turn rig brought in from SFC text, from Rust: the answer, the
//! chart's text and the map of names, as the import program prints them.

use grafcet::Item;
use std::io::{self, Write};

const SFC: &[u8] = include_bytes!("../../../examples/sfc/sfc.txt");

fn main() -> io::Result<()> {
    let mut room = [0; grafcet::boundary::IMPORT_ROOM];
    let brought = grafcet::import(SFC, &mut room);
    let mut out = io::stdout();
    writeln!(out, "ans={}\nn={}", brought.number, brought.line)?;
    if brought.number != 0 {
        return Ok(());
    }
    out.write_all(&room[..brought.length])?;
    for (item, key) in [(Item::Step, "step"), (Item::Input, "input"), (Item::Output, "output")] {
        let names = (0..).map(|k| grafcet::name(SFC, item, k)).take_while(|name| !name.is_empty());
        for (k, name) in names.enumerate() {
            write!(out, "{key}={k}:")?;
            out.write_all(name)?;
            out.write_all(b"\n")?;
        }
    }
    Ok(())
}
