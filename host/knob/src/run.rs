//! `knob run thin`, or another of the programs: a sheet on standard input, its answer on standard output, by the library's own call. A
//! release has it where the proved programs are for another machine; bin/thin gives the exit status.

use std::io::{self, Read, Write};

use crate::trouble::Trouble;

/// So much is read by all but `salvage`. The longest sheet is shorter, and a longer text has the same first wrong line.
const MOST: u64 = 65536;

type Call = fn(&[u8]) -> Vec<u8>;

pub fn answered(program: &str) -> Result<(), Trouble> {
    let (call, most): (Call, u64) = match program {
        "thin" => (knobthistle::thin_sheet, MOST),
        "moved" => (knobthistle::moved_sheet, MOST),
        "salvage" => (knobthistle::salvage, u64::MAX),
        _ => return Err(Trouble::Cannot(format!("there is no program {program} to run"))),
    };
    let mut text = Vec::new();
    let read = io::stdin().lock().take(most).read_to_end(&mut text);
    read.and_then(|_| io::stdout().write_all(&call(&text)))
        .map_err(|why| Trouble::Cannot(format!("the sheet could not be answered: {why}")))
}
