//! bin/why beside the library's own answers: every bad line and every refusal gets a reason of its own, on one line.

use std::fs;
use std::path::PathBuf;
use std::process::Command;

/// The answer to a sheet, and why.
fn why(test: &str, sheet: &[u8]) -> (String, String) {
    let folder = PathBuf::from(env!("CARGO_TARGET_TMPDIR")).join(test);
    fs::create_dir_all(&folder).unwrap();
    let (file, answered) = (folder.join("sheet"), folder.join("answer"));
    let answer = knobthistle::thin_sheet(sheet);
    fs::write(&file, sheet).unwrap();
    fs::write(&answered, &answer).unwrap();
    let script = concat!(env!("CARGO_MANIFEST_DIR"), "/../../bin/why");
    let said = Command::new(script).arg("thin").arg(&file).arg(&answered).output().unwrap();
    assert!(said.status.success() && said.stderr.is_empty(), "{:?}", String::from_utf8_lossy(&said.stderr));
    (String::from_utf8(answer).unwrap(), String::from_utf8_lossy(&said.stdout).into_owned())
}

const SHEET: &str = include_str!("../../../examples/sheet.tsv");

#[test]
fn every_way() {
    let (one, zero) = ("3FF0000000000000", "0000000000000000");
    let cases = [
        (String::new(), "the sheet is empty"),
        (SHEET.replacen('\n', "\r\n", 1), "line 1 ends in CR LF"),
        (SHEET.replace('\n', "\r\n"), "line 1 ends in CR LF"),
        (format!("\u{FEFF}{SHEET}"), "a byte order mark stands before line 1"),
        (SHEET.replace("3FE0", "3fe0"), "line 1, field 6: hex digits must be upper case"),
        (SHEET.replace("BFF0", "bff0"), "line 3, field 4: hex digits must be upper case"),
        (SHEET.replacen('2', "33", 1), "33 columns; a sheet has at most 32"),
        (SHEET.replacen("2\t2", "2\t65", 1), "65 rows; a sheet has at most 64"),
        (SHEET.replacen("2\t2", "02\t2", 1), "line 1, field 2: a count has no leading zero"),
        (SHEET.replacen("2\t2", "2\t", 1), "line 1, field 3: it is empty"),
        (SHEET.replacen("2\t2", "2\t2x", 1), "line 1, field 3: a count has digits alone"),
        (SHEET.replacen("thin", "Thin", 1), "line 1, field 1: a sheet begins with thin"),
        (SHEET.replacen("within", "withing", 1), "line 1, field 5: target or within must stand here"),
        (SHEET.replacen("\t-\n", "\n", 1), "line 1, field 7: the cap is missing: a count, or - for none"),
        (SHEET.replacen("\t-\n", "\t4294967296\n", 1), "line 1, field 7: a count is at most 4294967295"),
        (SHEET.replacen("\t-\n", "\t-\t3\n", 1), "line 1, field 8: an edition is 2 or is not written"),
        (SHEET.replacen("\t-\n", "\t-\t\n", 1), "line 1 ends in a space or a tab"),
        (SHEET.replacen("\t-\n", "\t-\t2\t2\n", 1), "line 1 has 9 fields; there are 7, or 8 with an edition"),
        (SHEET.replacen("4008000000000000", "400800000000000", 1), "line 3, field 2: 15 hex digits; there must be 16"),
        (SHEET.replacen("4008000000000000", "400800000000000O", 1), "line 3, field 2: a double is 16 hex digits of its bits"),
        (SHEET.replacen("col\t", "col\t\t", 1), "line 2, field 2: it is empty"),
        (SHEET.replacen("col\t", "row\t", 1), "line 2, field 1: a column begins with col"),
        (SHEET.replacen('\t', " ", 99), "line 1 has spaces where tabs must stand"),
        (format!("{SHEET}\n"), "line 4 follows the last column, and nothing may"),
        (SHEET.trim_end().to_owned(), "line 3 does not end in a newline"),
        (SHEET.lines().take(2).map(|line| format!("{line}\n")).collect(), "line 3 is missing: the first line says 2 columns"),
        (SHEET.replacen(&format!("\t{one}\n"), "\n", 1), "line 2 has 3 fields; with 2 rows there are 4"),
        (SHEET.replacen("BFF0", "BFF8", 1), "refused 7: line 3, field 4: a verdict outside [-1, 1]"),
        (SHEET.replacen("4008", "7FF0", 1), "refused 8: line 3, field 2: a weight that is not finite"),
        (SHEET.replacen("3FE0", "BFE0", 1), "refused 1: the allowance is negative or not a number"),
        (SHEET.replacen("3FE0", "7FF0", 1), "refused 12: the allowance is infinite"),
        (SHEET.replacen("\t-\n", "\t0\n", 1), "refused 2: the target or the cap is 0"),
        (
            SHEET.replacen(&format!("col\t{one}"), &format!("col\t{zero}"), 1).replacen("4008", "0000", 1),
            "refused 9: the magnitudes of the weights sum to 0 or to infinity",
        ),
        (format!("thin\t0\t2\t{zero}\ttarget\t1\n"), "refused 5: there is no column or no row"),
        (SHEET.to_owned(), ""),
    ];
    for (sheet, expected) in cases {
        let (answer, said) = why("every_way", sheet.as_bytes());
        let expected = if expected.is_empty() { String::new() } else { format!("thin: {expected}\n") };
        assert_eq!(said, expected, "{sheet:?} answered {answer:?}");
    }
}

/// A thousand damaged sheets: a bad line has a reason that names it.
#[test]
fn damaged() {
    let mut state = 11u64;
    let mut chance = move |below: usize| {
        state ^= state << 13;
        state ^= state >> 7;
        state ^= state << 17;
        state as usize % below
    };
    let odd = b"\0\xFF\n\r\t 0129AFafx-\xC3\x80";
    let mut bad = 0;
    for _ in 0..1000 {
        let mut bytes = SHEET.as_bytes().to_vec();
        for _ in 0..1 + chance(3) {
            let at = chance(bytes.len());
            match chance(5) {
                0 => bytes[at] = odd[chance(odd.len())],
                1 => bytes[at] = chance(256) as u8,
                2 => drop(bytes.remove(at)),
                3 => bytes.insert(at, odd[chance(odd.len())]),
                _ => bytes.truncate(at.max(1)),
            }
        }
        let (answer, said) = why("damaged_sheets", &bytes);
        if answer.starts_with("ok") {
            assert_eq!(said, "");
            continue;
        }
        assert!(said.lines().count() == 1 && said.starts_with("thin: "), "{bytes:?}: {answer} {said}");
        assert!(!said.contains("is off the form"), "{}: {answer} {said}", String::from_utf8_lossy(&bytes));
        if let Some(line) = answer.strip_prefix("bad\t") {
            bad += 1;
            let line = line.trim_end();
            let named = [format!("line {line} "), format!("line {line},"), format!("line {line}\n")].iter().any(|word| said.contains(word));
            let size = line == "1" && (said.contains("a sheet has at most") || said.contains("the sheet is empty"));
            assert!(named || size, "{}: {answer} {said}", String::from_utf8_lossy(&bytes));
        }
    }
    assert!(bad > 500, "{bad}");
}
