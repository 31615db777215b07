//! An answer of `thin` or `moved` in decimals.

use crate::decimals::exact;
use crate::table::named;
use crate::text::columns;
use crate::trouble::Trouble;

/// The double whose bits these digits are.
fn double(field: &str) -> Option<f64> {
    let digits = field.len() == 16 && field.bytes().all(|byte| byte.is_ascii_digit() || (b'A'..=b'F').contains(&byte));
    if digits {
        u64::from_str_radix(field, 16).ok().map(f64::from_bits)
    } else {
        None
    }
}

fn count(field: &str) -> Option<u64> {
    field.parse().ok().filter(|count: &u64| count.to_string() == field)
}

/// The answer's text in decimals, and the exit status that `thin` gives with such an answer.
pub fn in_decimals(file: &str, content: &[u8]) -> Result<(String, i32), Trouble> {
    let wrong = |line: usize| Trouble::Form(format!("{}, line {line}: it is not a line of an answer", named(file)));
    let text = std::str::from_utf8(content).map_err(|_| Trouble::Form(format!("{}: it is not an answer of thin", named(file))))?;
    let lines: Vec<Vec<&str>> = text.lines().map(|line| line.split('\t').collect()).collect();
    let first = lines.first().ok_or_else(|| Trouble::Form(format!("{}: there is no line in it", named(file))))?;
    match first.as_slice() {
        ["refused", number] => Ok((format!("refused {}\n", count(number).ok_or_else(|| wrong(1))?), 1)),
        ["bad", number] => Ok((format!("line {} of the sheet is off the form\n", count(number).ok_or_else(|| wrong(1))?), 2)),
        ["ok", stage, left, change] => {
            let (Some(stage), Some(left), Some(change)) = (count(stage), count(left), double(change)) else { return Err(wrong(1)) };
            let mut text = format!("stage {stage}, {left} left, worst change {}\n", exact(change));
            let (mut weights, mut words) = (vec![], vec![]);
            for (k, line) in lines.iter().enumerate().skip(1) {
                match line.as_slice() {
                    [kind @ ("w" | "word"), place, bits] => {
                        let (Some(place), Some(number)) = (count(place), double(bits)) else { return Err(wrong(k + 1)) };
                        let list = if *kind == "w" { &mut weights } else { &mut words };
                        list.push(vec![place.to_string(), exact(number)]);
                    }
                    _ => return Err(wrong(k + 1)),
                }
            }
            for (title, list) in [(["hypothesis", "weight"], weights), (["word", "change"], words)] {
                if !list.is_empty() {
                    let mut all = vec![title.map(str::to_owned).to_vec()];
                    all.extend(list);
                    text += "\n";
                    text += &columns(&all, 1);
                }
            }
            Ok((text, 0))
        }
        _ => Err(wrong(1)),
    }
}
