//! A job as a sheet, the text that `thin` reads, and a sheet as a table.

use knobthistle::{read_sheet, write_sheet, Refusal, Sheet};

use crate::arguments::Request;
use crate::decimals::exact;
use crate::ensemble::Ensemble;
use crate::table::named;
use crate::trouble::Trouble;

pub fn written(ensemble: &Ensemble, request: &Request) -> Result<String, Trouble> {
    let (m, n) = (ensemble.m, ensemble.n);
    let columns = (0..m).map(|j| ensemble.verdicts[j * n..(j + 1) * n].to_vec()).collect();
    let sheet = Sheet { columns, rows: n, weights: ensemble.weights.clone(), job: request.job };
    let text = write_sheet(&sheet).map_err(|refusal| {
        let why = match refusal {
            Refusal::Size => format!(
                "{} has {m} hypotheses and {n} words; a sheet has at most 32 and 64, and no target or cap above 4294967295",
                named(&ensemble.file)
            ),
            _ => refusal.to_string(),
        };
        Trouble::Refused(refusal.number(), why)
    })?;
    Ok(String::from_utf8_lossy(&text).into_owned())
}

/// A sheet's table in decimals: a header, then a line for each column.
pub fn as_table(file: &str, content: &[u8]) -> Result<String, Trouble> {
    let sheet =
        read_sheet(content).map_err(|line| Trouble::Form(format!("{}, line {line}: it is off the form of a sheet", named(file))))?;
    let mut text = String::from("weight");
    (0..sheet.rows).for_each(|row| text += &format!(",{row}"));
    text += "\n";
    for (weight, column) in sheet.weights.iter().zip(&sheet.columns) {
        let numbers: Vec<String> = std::iter::once(weight).chain(column).map(|number| exact(*number)).collect();
        text += &numbers.join(",");
        text += "\n";
    }
    Ok(text)
}
