//! knob: thins a boosted ensemble that is given in decimals, as CSV or TSV. What decides is the library's; here it is read and shown.

mod answer;
mod arguments;
mod decimals;
mod ensemble;
mod json;
mod outcome;
mod picture;
mod refused;
mod run;
mod sheet;
mod table;
mod text;
mod trouble;
mod verdicts;

use std::fs;
use std::io::{self, Write};
use std::process::exit;

use arguments::{Command, Request};
use trouble::Trouble;
use verdicts::Verdicts;

fn main() {
    let words: Vec<String> = std::env::args_os().skip(1).map(|word| word.to_string_lossy().into_owned()).collect();
    match arguments::read(&words).and_then(run) {
        Ok(status) => exit(status),
        Err(trouble) => {
            eprintln!("knob: {}", trouble.why());
            exit(trouble.status())
        }
    }
}

/// What is asked for; the exit status.
fn run(command: Command) -> Result<i32, Trouble> {
    match command {
        Command::Help => say(include_str!("../help.txt")).map(|()| 0),
        Command::Version => say(concat!("knob ", env!("CARGO_PKG_VERSION"), "\n")).map(|()| 0),
        Command::Thin(request) => thin(&request),
        Command::Sheet(request) => {
            let ensemble = ensemble::read(&request)?;
            say(&sheet::written(&ensemble, &request)?).map(|()| 0)
        }
        Command::Answer(file) => {
            let content = table::bytes(&file)?;
            if content.starts_with(b"thin\t") {
                return say(&sheet::as_table(&file, &content)?).map(|()| 0);
            }
            let (text, status) = answer::in_decimals(&file, &content)?;
            say(&text).map(|()| status)
        }
        Command::Run(program) => run::answered(&program).map(|()| 0),
    }
}

fn thin(request: &Request) -> Result<i32, Trouble> {
    let ensemble = ensemble::read(request)?;
    let thresholds = ensemble::thresholds(request, &ensemble)?;
    let outcome = match outcome::of(&Verdicts::of(&ensemble), &thresholds, request) {
        Ok(outcome) => outcome,
        Err(refusal) => {
            if request.json {
                say(&json::refused(refusal))?;
            }
            return Err(Trouble::Refused(refusal.number(), refused::why(refusal, &ensemble, &thresholds, request)));
        }
    };
    if let Some(file) = &request.svg {
        let picture = picture::drawn(&ensemble, &outcome, request);
        fs::write(file, picture).map_err(|why| Trouble::Cannot(format!("{file} cannot be written: {why}")))?;
    }
    say(&if request.json { json::written(&ensemble, &outcome, request) } else { text::written(&ensemble, &outcome, request) }).map(|()| 0)
}

/// Writes to standard output. Where nobody reads on, as behind `head`, there is nothing to complain of.
fn say(text: &str) -> Result<(), Trouble> {
    let mut output = io::stdout().lock();
    match output.write_all(text.as_bytes()).and_then(|()| output.flush()) {
        Err(why) if why.kind() != io::ErrorKind::BrokenPipe => Err(Trouble::Cannot(format!("standard output cannot be written: {why}"))),
        _ => Ok(()),
    }
}
