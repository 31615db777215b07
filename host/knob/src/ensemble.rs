//! An ensemble as it stands in a file: weights, verdicts and names, and where each of them stands.

use std::borrow::Cow;

use crate::arguments::Request;
use crate::decimals;
use crate::table::{self, Line};
use crate::trouble::Trouble;

pub struct Ensemble {
    pub file: String,
    /// How many hypotheses, and how many words.
    pub m: usize,
    pub n: usize,
    pub weights: Vec<f64>,
    /// The verdicts, hypothesis after hypothesis.
    pub verdicts: Vec<f64>,
    /// Names, or none at all.
    pub hypotheses: Vec<String>,
    pub words: Vec<String>,
    layout: Layout,
}

/// Which lines and fields hold numbers.
struct Layout {
    by_word: bool,
    names: bool,
    /// The number of each line that holds numbers.
    lines: Vec<usize>,
}

impl Layout {
    /// Where the number at this place stands: of a line that holds numbers, from 0, and of its numbers, from 0.
    fn at(&self, line: usize, number: usize) -> String {
        format!("line {}, field {}", self.lines.get(line).copied().unwrap_or(0), number + 1 + usize::from(self.names))
    }
}

impl Ensemble {
    pub fn place_of_weight(&self, j: usize) -> String {
        if self.layout.by_word {
            self.layout.at(0, j)
        } else {
            self.layout.at(j, 0)
        }
    }

    pub fn place_of_verdict(&self, j: usize, i: usize) -> String {
        if self.layout.by_word {
            self.layout.at(i + 1, j)
        } else {
            self.layout.at(j, i + 1)
        }
    }

    pub fn hypothesis(&self, j: usize) -> Option<&str> {
        self.hypotheses.get(j).map(String::as_str)
    }

    pub fn word(&self, i: usize) -> Option<&str> {
        self.words.get(i).map(String::as_str)
    }
}

fn wrong<T>(file: &str, place: &str, what: &str) -> Result<T, Trouble> {
    let parted = if place.is_empty() { "" } else { ", " };
    Err(Trouble::Form(format!("{}{parted}{place}: {what}", table::named(file))))
}

/// A field as a message shows it.
fn shown(field: &str) -> String {
    let short: String = field.chars().take(24).collect();
    if short.len() < field.len() {
        format!("'{short}..'")
    } else {
        format!("'{short}'")
    }
}

fn is_number(field: &str) -> bool {
    decimals::read(field).is_some()
}

fn says_weight(field: Option<&Cow<str>>) -> bool {
    field.is_some_and(|field| field.eq_ignore_ascii_case("weight") || field.eq_ignore_ascii_case("weights"))
}

/// A header names what stands below it: it has the word weight at its place, or no number at all.
fn is_header(fields: &[Cow<str>], by_word: bool) -> bool {
    let named = !by_word && (says_weight(fields.first()) || says_weight(fields.get(1)));
    let alone = by_word && says_weight(fields.first());
    named || (!alone && !fields.iter().any(|field| is_number(field)))
}

/// Whether each line begins with a name. Lines of both kinds are a mistake, unless the header or an option says which.
fn has_names(file: &str, header: &[Cow<str>], lines: &[Line], request: &Request) -> Result<bool, Trouble> {
    let by_word = request.by_word;
    let weight_first = !by_word && says_weight(header.first());
    if request.names || (!by_word && says_weight(header.get(1)) && !weight_first) {
        return Ok(true);
    }
    if weight_first {
        return Ok(false);
    }
    let (mut number, mut name, mut corner) = (None, None, false);
    for line in lines {
        let field = line.first(file)?;
        // The corner over the names of words may be empty.
        if by_word && field.is_empty() {
            corner = true;
        } else if is_number(&field) {
            number = number.or(Some(line.number));
        } else {
            name = name.or(Some((line.number, field)));
        }
    }
    match (number, name) {
        (None, _) => Ok(true),
        (Some(_), None) => Ok(corner),
        (Some(number), Some((line, field))) => wrong(
            file,
            &format!("line {line}, field 1"),
            &format!("{} is not a number, and line {number} begins with one; if these are names, say --names", shown(&field)),
        ),
    }
}

/// The numbers of a line, behind its name.
fn numbers(file: &str, line: &Line, fields: &[Cow<str>], names: bool, numbers: &mut Vec<f64>) -> Result<(), Trouble> {
    for (k, field) in fields.iter().enumerate().skip(usize::from(names)) {
        match decimals::read(field) {
            Some(number) => numbers.push(number),
            None => {
                let what = match field.as_ref() {
                    "" => "it is empty".to_owned(),
                    _ if is_number(&field.replace(',', ".")) => format!("{} is not a number: write a point, not a comma", shown(field)),
                    _ => format!("{} is not a number", shown(field)),
                };
                return wrong(file, &format!("line {}, field {}", line.number, k + 1), &what);
            }
        }
    }
    Ok(())
}

/// A line of another width than the first that holds numbers.
fn other_width<T>(file: &str, line: &Line, has: usize, first: &Line, width: usize) -> Result<T, Trouble> {
    let has = if has == 1 { "1 field".to_owned() } else { format!("{has} fields") };
    wrong(file, &format!("line {}", line.number), &format!("it has {has}, and line {} has {width}", first.number))
}

/// Fills a row with the numbers of a line, which has as many fields as the first.
fn fill(file: &str, line: &Line, first: &Line, names: bool, row: &mut Vec<f64>) -> Result<(), Trouble> {
    if line.numbers(names, row).is_some() {
        return Ok(());
    }
    let (fields, width) = (line.fields(file)?, row.len() + usize::from(names));
    if fields.len() != width {
        return other_width(file, line, fields.len(), first, width);
    }
    row.clear();
    numbers(file, line, &fields, names, row)
}

/// The weights, and the verdicts hypothesis after hypothesis.
fn weights_and_verdicts(request: &Request, lines: &[Line], names: bool, width: usize) -> Result<(Vec<f64>, Vec<f64>), Trouble> {
    let (mut weights, mut verdicts) = (Vec::new(), Vec::new());
    let mut row = vec![0.0; width - usize::from(names)];
    for (k, line) in lines.iter().enumerate() {
        fill(&request.file, line, &lines[0], names, &mut row)?;
        // The first line has all the weights, or each line begins with its own.
        let count = match request.by_word {
            true if k == 0 => row.len(),
            true => 0,
            false => row.len().min(1),
        };
        weights.extend_from_slice(&row[..count]);
        verdicts.extend_from_slice(&row[count..]);
    }
    if request.by_word {
        let m = weights.len();
        verdicts = (0..m).flat_map(|j| verdicts.iter().skip(j).step_by(m)).copied().collect();
    }
    Ok((weights, verdicts))
}

pub fn read(request: &Request) -> Result<Ensemble, Trouble> {
    let (file, by_word) = (&request.file, request.by_word);
    let content = table::bytes(file)?;
    let all_lines = table::lines(file, &content)?;
    let Some(top) = all_lines.first() else { return wrong(file, "", "there is no line in it") };
    let header = top.fields(file)?;
    let (header, lines) = if request.header || is_header(&header, by_word) { (header, &all_lines[1..]) } else { (vec![], &all_lines[..]) };
    let Some(first) = lines.first() else { return wrong(file, "", "there is nothing below the header") };
    let names = has_names(file, &header, lines, request)?;
    let width = first.fields(file)?.len();
    // A header may lack the field over the names.
    if !header.is_empty() && header.len() != width && header.len() + usize::from(names) != width {
        return other_width(file, top, header.len(), first, width);
    }
    let (weights, verdicts) = weights_and_verdicts(request, lines, names, width)?;
    // A line without a number has no weight.
    if weights.is_empty() && !by_word {
        return wrong(file, &format!("line {}", first.number), "there is no weight");
    }
    let (m, n) = if by_word { (weights.len(), lines.len() - 1) } else { (lines.len(), width - 1 - usize::from(names)) };
    let layout = Layout { by_word, names, lines: lines.iter().map(|line| line.number).collect() };
    let firsts: Vec<String> =
        if names { lines.iter().map(|line| line.first(file).map(Cow::into_owned)).collect::<Result<_, _>>()? } else { Vec::new() };
    let (hypotheses, words) = if by_word { (last(&header, m), firsts.into_iter().skip(1).collect()) } else { (firsts, last(&header, n)) };
    Ok(Ensemble { file: file.clone(), m, n, weights, verdicts, hypotheses, words, layout })
}

fn last(fields: &[Cow<str>], count: usize) -> Vec<String> {
    fields[fields.len().saturating_sub(count)..].iter().map(|field| field.to_string()).collect()
}

/// The thresholds, one for each word: 0, or those of a file, a word a line, behind its name if it has one.
pub fn thresholds(request: &Request, ensemble: &Ensemble) -> Result<Vec<f64>, Trouble> {
    let Some(file) = &request.thresholds else { return Ok(vec![0.0; ensemble.n]) };
    let content = table::bytes(file)?;
    let lines = table::lines(file, &content)?;
    let mut all = Vec::new();
    for (k, line) in lines.iter().enumerate() {
        let fields = line.fields(file)?;
        if fields.len() > 2 {
            let what = format!("it has {} fields; a threshold stands alone or behind a name", fields.len());
            return wrong(file, &format!("line {}", line.number), &what);
        }
        if k == 0 && fields.last().is_some_and(|field| field.eq_ignore_ascii_case("threshold")) {
            continue;
        }
        numbers(file, line, &fields, fields.len() == 2, &mut all)?;
    }
    if all.len() != ensemble.n {
        let what = format!("it has {} thresholds, and {} has {} words", all.len(), table::named(&ensemble.file), ensemble.n);
        return wrong(file, "", &what);
    }
    if let Some(k) = all.iter().position(|threshold| !threshold.is_finite()) {
        return Err(Trouble::Refused(8, format!("{}: the threshold of word {k} is not finite", table::named(file))));
    }
    Ok(all)
}
