//! A file of fields in lines: CSV, parted by commas or semicolons, or TSV.

use std::borrow::Cow;
use std::fs::File;
use std::io::{self, Read};

use crate::decimals;
use crate::trouble::Trouble;

/// A line that is not blank: its number in the file, from 1, its text, and what parts its fields. A large file has a million fields, so
/// that they are read when they are asked for.
pub struct Line<'a> {
    pub number: usize,
    text: &'a str,
    parted: char,
}

impl<'a> Line<'a> {
    /// The fields. One may stand in quotes, and a quote in it is then written twice.
    pub fn fields(&self, file: &str) -> Result<Vec<Cow<'a, str>>, Trouble> {
        let mut all = Vec::new();
        let mut rest = Some(self.text);
        while let Some(text) = rest {
            let (field, after) = first_field(text, self.parted)
                .map_err(|what| Trouble::Form(format!("{}, line {}, field {}: {what}", named(file), self.number, all.len() + 1)))?;
            all.push(field);
            rest = after;
        }
        Ok(all)
    }

    pub fn first(&self, file: &str) -> Result<Cow<'a, str>, Trouble> {
        if has(self.text, |byte| byte == b'"') {
            return self.fields(file).map(|mut fields| fields.swap_remove(0));
        }
        Ok(Cow::Borrowed(self.text.split(self.parted).next().unwrap_or("").trim()))
    }

    /// Fills a row with the numbers behind the name. None where there are not so many, or a field is no number. The time of a large file is
    /// spent here, so that most numbers are read without first looking for the end of their field.
    pub fn numbers(&self, names: bool, row: &mut [f64]) -> Option<()> {
        let mut rest = if names { first_field(self.text, self.parted).ok()?.1 } else { Some(self.text) };
        for place in row {
            let text = rest?;
            (*place, rest) = plain_number(text, self.parted).or_else(|| other_number(text, self.parted))?;
        }
        rest.is_none().then_some(())
    }
}

/// The number in a text's first field, and what stands behind the field. None where the field is not a plain decimal and nothing else.
#[inline(always)]
fn plain_number(text: &str, parted: char) -> Option<(f64, Option<&str>)> {
    let (number, length) = decimals::leading(text.as_bytes())?;
    match text.as_bytes().get(length) {
        None => Some((number, None)),
        Some(byte) => (char::from(*byte) == parted).then(|| (number, Some(&text[length + 1..]))),
    }
}

/// The same for any field that says a number.
#[cold]
fn other_number(text: &str, parted: char) -> Option<(f64, Option<&str>)> {
    plain_number(text.trim_start_matches(' '), parted).or_else(|| {
        let (field, after) = first_field(text, parted).ok()?;
        Some((decimals::read(&field)?, after))
    })
}

/// The largest file that is read. The largest ensemble, 256 by 4096, has a tenth of it with twelve digits a verdict.
const MOST: u64 = 1 << 28;

/// The whole of a file; `-` is standard input.
pub fn bytes(file: &str) -> Result<Vec<u8>, Trouble> {
    let mut content = Vec::new();
    let read = if file == "-" {
        io::stdin().lock().take(MOST + 1).read_to_end(&mut content)
    } else {
        File::open(file).and_then(|opened| opened.take(MOST + 1).read_to_end(&mut content))
    };
    match read {
        Err(why) => Err(Trouble::Cannot(format!("{} cannot be read: {why}", named(file)))),
        Ok(_) if content.len() as u64 > MOST => Err(Trouble::Form(format!("{} is larger than 256 MiB", named(file)))),
        Ok(_) => Ok(content),
    }
}

pub fn named(file: &str) -> &str {
    if file == "-" {
        "standard input"
    } else {
        file
    }
}

/// The lines of a file's text that are not blank, without a byte order mark before the first. Lines end in a newline, which a carriage
/// return may precede; the last need not. What parts the fields is what the first line has: a tab, else a semicolon, else a comma.
pub fn lines<'a>(file: &str, content: &'a [u8]) -> Result<Vec<Line<'a>>, Trouble> {
    let content = content.strip_prefix(b"\xEF\xBB\xBF").unwrap_or(content);
    let (text, whole) = beginning_in_utf8(content);
    let is_control = |byte: u8| byte < b' ' && byte != b'\t' || byte == 0x7F;
    let mut lines = Vec::new();
    let mut parted = None;
    let mut pieces = text.split('\n').enumerate().peekable();
    while let Some((k, line)) = pieces.next() {
        let number = k + 1;
        if !whole && pieces.peek().is_none() {
            return Err(Trouble::Form(format!("{}, line {number}: it is not text in UTF-8", named(file))));
        }
        let line = line.strip_suffix('\r').unwrap_or(line);
        if line.trim().is_empty() {
            continue;
        }
        let parted = *parted.get_or_insert_with(|| ['\t', ';', ','].into_iter().find(|letter| line.contains(*letter)).unwrap_or(','));
        if has(line, is_control) {
            let before = line.bytes().take_while(|byte| !is_control(*byte)).count();
            let field = line[..before].matches(parted).count() + 1;
            return Err(Trouble::Form(format!("{}, line {number}, field {field}: it has a control character", named(file))));
        }
        lines.push(Line { number, text: line, parted });
    }
    Ok(lines)
}

/// The text up to the first byte that is not UTF-8, and whether it is the whole.
fn beginning_in_utf8(content: &[u8]) -> (&str, bool) {
    match std::str::from_utf8(content) {
        Ok(text) => (text, true),
        Err(why) => (std::str::from_utf8(&content[..why.valid_up_to()]).unwrap_or(""), false),
    }
}

/// Whether a line has such a byte. It does not stop at the first, so that many bytes are asked at once.
fn has(line: &str, is_such: impl Fn(u8) -> bool) -> bool {
    line.bytes().fold(false, |found, byte| found | is_such(byte))
}

/// A text's first field, and what stands behind it; or what is wrong with it.
fn first_field(text: &str, parted: char) -> Result<(Cow<'_, str>, Option<&str>), &'static str> {
    let Some(quoted) = text.trim_start_matches(' ').strip_prefix('"') else {
        let (field, after) = text.split_once(parted).map_or((text, None), |(field, after)| (field, Some(after)));
        return Ok((Cow::Borrowed(field.trim()), after));
    };
    let (field, after) = unquoted(quoted).ok_or("its quote is not closed")?;
    let after = after.trim_start_matches(' ');
    match after.strip_prefix(parted) {
        None if !after.is_empty() => Err("something follows its closing quote"),
        after => Ok((Cow::Owned(field), after)),
    }
}

/// What stands before the closing quote, and what follows it.
fn unquoted(text: &str) -> Option<(String, &str)> {
    let mut field = String::new();
    let mut rest = text;
    loop {
        let (before, after) = rest.split_once('"')?;
        field.push_str(before);
        match after.strip_prefix('"') {
            Some(further) => {
                field.push('"');
                rest = further;
            }
            None => return Some((field.trim().to_owned(), after)),
        }
    }
}

#[cfg(test)]
mod tests {
    use super::*;

    /// The numbers of a line's fields, one after the other.
    fn by_fields(line: &Line, names: bool) -> Option<Vec<u64>> {
        let fields = line.fields("file").ok()?;
        fields.iter().skip(usize::from(names)).map(|field| field.parse().ok().map(f64::to_bits)).collect()
    }

    fn at_once(line: &Line, names: bool, count: usize) -> Option<Vec<u64>> {
        let mut row = vec![0.5; count];
        line.numbers(names, &mut row)?;
        Some(row.into_iter().map(f64::to_bits).collect())
    }

    #[test]
    fn numbers_are_those_of_the_fields() {
        let good =
            ["1", "-1", "0", "-0.5", "0.123456", "0.12345678901234567", " 2", "3 ", "  .5", " \"0.5\" ", "+1", "5.", "1e-5", "inf", "NaN"];
        let bad = ["", " ", "x", "0,5", "\"0.5", "\"0.5\"x", "5\"", "- 1", "1 1", "½", "0.5½"];
        let mut state = 3u64;
        let mut chance = move |below: usize| {
            state = state.wrapping_mul(6364136223846793005).wrapping_add(1442695040888963407);
            (state >> 33) as usize % below
        };
        let mut read = 0;
        for k in 0..30_000 {
            let mut field = || if chance(12) == 0 { bad[chance(bad.len())] } else { good[chance(good.len())] };
            let fields: Vec<&str> = (0..1 + k % 5).map(|_| field()).collect();
            let text = fields.join([",", ";", "\t"][k % 3]);
            for line in lines("file", text.as_bytes()).ok().unwrap() {
                for names in [false, true] {
                    let expected = by_fields(&line, names);
                    for count in 0..7 {
                        let exact = expected.clone().filter(|numbers| numbers.len() == count);
                        read += usize::from(exact.is_some());
                        assert_eq!(at_once(&line, names, count), exact, "{text}");
                    }
                }
            }
        }
        assert!(read > 10_000, "{read}");
    }
}
