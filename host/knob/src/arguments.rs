//! The command line.

use knobthistle::{Edition, Job, Rule};

use crate::trouble::Trouble;

pub enum Command {
    Help,
    Version,
    Thin(Request),
    Sheet(Request),
    Answer(String),
    /// What a release runs where the proved programs are for another machine.
    Run(String),
}

/// A job, the file that it is for, and what is to be shown.
pub struct Request {
    pub file: String,
    pub job: Job,
    pub by_word: bool,
    pub header: bool,
    pub names: bool,
    pub thresholds: Option<String>,
    pub json: bool,
    pub moved: Option<usize>,
    pub svg: Option<String>,
}

fn cannot<T>(why: String) -> Result<T, Trouble> {
    Err(Trouble::Cannot(format!("{why}; knob --help says more")))
}

pub fn read(words: &[String]) -> Result<Command, Trouble> {
    if words.iter().any(|word| word == "--help" || word == "-h") {
        return Ok(Command::Help);
    }
    match words.split_first() {
        None => cannot("say thin, sheet or answer".into()),
        Some((word, _)) if word == "--version" => Ok(Command::Version),
        Some((word, rest)) if word == "thin" => request(rest, true).map(Command::Thin),
        Some((word, rest)) if word == "sheet" => request(rest, false).map(Command::Sheet),
        Some((word, rest)) if word == "answer" => match rest {
            [] => Ok(Command::Answer("-".into())),
            [file] if file == "-" || !file.starts_with('-') => Ok(Command::Answer(file.clone())),
            _ => cannot("answer takes one file".into()),
        },
        Some((word, [program])) if word == "run" => Ok(Command::Run(program.clone())),
        Some((word, _)) => cannot(format!("there is no command {word}")),
    }
}

/// What may stand behind an option.
struct Words<'a> {
    rest: std::slice::Iter<'a, String>,
}

impl Words<'_> {
    /// The value of an option: behind its `=`, or the next word.
    fn value(&mut self, option: &str, joined: Option<&str>) -> Result<String, Trouble> {
        match joined.map(str::to_owned).or_else(|| self.rest.next().cloned()) {
            Some(value) => Ok(value),
            None => cannot(format!("{option} wants a value")),
        }
    }

    fn count(&mut self, option: &str, joined: Option<&str>) -> Result<usize, Trouble> {
        let value = self.value(option, joined)?;
        let digits = !value.is_empty() && value.bytes().all(|byte| byte.is_ascii_digit());
        // More than a word holds is more than any ensemble has.
        if digits {
            Ok(value.parse().unwrap_or(usize::MAX))
        } else {
            cannot(format!("{option} wants a whole number, not {value}"))
        }
    }

    fn double(&mut self, option: &str, joined: Option<&str>) -> Result<f64, Trouble> {
        let value = self.value(option, joined)?;
        match crate::decimals::read(&value) {
            Some(number) => Ok(number),
            None => cannot(format!("{option} wants a number, not {value}")),
        }
    }

    /// The library has two, and refuses any other by 13.
    fn edition(&mut self, option: &str, joined: Option<&str>) -> Result<Edition, Trouble> {
        match self.value(option, joined)?.as_str() {
            "1" => Ok(Edition::First),
            "2" => Ok(Edition::Second),
            value => Err(Trouble::Refused(13, format!("the edition is 1 or 2, not {value}"))),
        }
    }

    fn seed(&mut self, option: &str, joined: Option<&str>) -> Result<u64, Trouble> {
        let value = self.value(option, joined)?;
        let seed = match value.strip_prefix("0x") {
            Some(digits) if digits.bytes().all(|byte| byte.is_ascii_hexdigit()) => u64::from_str_radix(digits, 16).ok(),
            Some(_) => None,
            None if value.bytes().all(|byte| byte.is_ascii_digit()) => value.parse().ok(),
            None => None,
        };
        seed.map_or_else(|| cannot(format!("{option} wants a number below 2^64, as 7 or 0x1F, not {value}")), Ok)
    }
}

fn request(words: &[String], shown: bool) -> Result<Request, Trouble> {
    let (mut target, mut within, mut cap, mut seed, mut edition) = (None, None, None, 0, Edition::First);
    let (mut file, mut thresholds, mut svg, mut moved) = (None, None, None, None);
    let (mut by_word, mut header, mut names, mut json) = (false, false, false, false);
    let mut words = Words { rest: words.iter() };
    while let Some(word) = words.rest.next() {
        let (option, joined) = match word.split_once('=') {
            Some((option, value)) if option.starts_with("--") => (option, Some(value)),
            _ => (word.as_str(), None),
        };
        match option {
            "--target" => target = Some(words.count(option, joined)?),
            "--within" => within = Some(words.double(option, joined)?),
            "--cap" => cap = Some(words.count(option, joined)?),
            "--seed" => seed = words.seed(option, joined)?,
            "--edition" => edition = words.edition(option, joined)?,
            "--thresholds" if shown => thresholds = Some(words.value(option, joined)?),
            "--svg" if shown => svg = Some(words.value(option, joined)?),
            "--moved" if shown => moved = Some(words.count(option, joined)?),
            _ if joined.is_some() => return cannot(format!("there is no option {word}")),
            "--by-word" => by_word = true,
            "--header" => header = true,
            "--names" => names = true,
            "--json" if shown => json = true,
            "-" => file = one_file(file, word)?,
            _ if word.starts_with('-') => return cannot(format!("there is no option {word}")),
            _ => file = one_file(file, word)?,
        }
    }
    let rule = match (target, within, cap) {
        (Some(target), None, None) => Rule::Target(target),
        (None, Some(allowance), cap) => Rule::Within { allowance, cap },
        (Some(_), Some(_), _) => return cannot("say --target or --within, not both".into()),
        (Some(_), None, Some(_)) => return cannot("--cap stands beside --within".into()),
        (None, None, _) => return cannot("say --target or --within".into()),
    };
    let Some(file) = file else { return cannot("say which file".into()) };
    Ok(Request { file, job: Job { seed, edition, rule }, by_word, header, names, thresholds, json, moved, svg })
}

fn one_file(known: Option<String>, word: &str) -> Result<Option<String>, Trouble> {
    match known {
        None => Ok(Some(word.to_owned())),
        Some(file) => cannot(format!("one file at a time, not {file} and {word}")),
    }
}
