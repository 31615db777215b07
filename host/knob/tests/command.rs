//! The command as it is called: what it writes, and how it ends.

use std::fs;
use std::path::PathBuf;
use std::process::{Command, Output};

/// A folder of this test's own, with a file in it.
fn file(test: &str, text: impl AsRef<[u8]>) -> PathBuf {
    let folder = PathBuf::from(env!("CARGO_TARGET_TMPDIR")).join(test);
    fs::create_dir_all(&folder).unwrap();
    let file = folder.join("ensemble.csv");
    fs::write(&file, text).unwrap();
    file
}

fn knob(words: &[&str]) -> Output {
    Command::new(env!("CARGO_BIN_EXE_knob")).args(words).output().unwrap()
}

fn said(output: &Output) -> (i32, String, String) {
    let text = |bytes: &[u8]| String::from_utf8(bytes.to_vec()).unwrap();
    (output.status.code().unwrap(), text(&output.stdout), text(&output.stderr))
}

const NAMED: &str = "name,weight,alpha,beta\nfirst,1,1,1\nsecond,3,1,-1\n";

#[test]
fn the_table() {
    let file = file("the_table", NAMED);
    let (status, out, err) = said(&knob(&["thin", "--within", "0.5", "--moved", "1", file.to_str().unwrap()]));
    assert_eq!((status, err.as_str()), (0, ""));
    let (_, below) = out.split_once("\n\n").unwrap();
    assert_eq!(
        below,
        "stage  hypotheses  worst change  turned words\n    0           2             0             0\n    1           1           0.5             0  <- taken\n\
         \nkept, from 0:\nhypothesis  weight  name\n         1  1       second\n\nmoved most, from 0:\nword  change  name\n   1  0.5     beta\n"
    );
}

/// The same ensemble in every form that is taken.
#[test]
fn forms() {
    let forms: &[(&str, &[&str])] = &[
        (NAMED, &[]),
        ("weight,alpha,beta\n1,1,1\n3,1,-1\n", &[]),
        ("1,1,1\n3,1,-1\n", &[]),
        ("1\t1\t1\r\n3\t1\t-1\r\n", &[]),
        ("1;1.0;1e0\n3;+1;-1", &[]),
        ("\u{FEFF}name,weight,alpha,beta\n\"fi,\"\"rst\",1,1,1\n second , 3 , 1 , -1 \n\n", &[]),
        ("name,weight,0,1\n7,1,1,1\n8,3,1,-1\n", &[]),
        ("7,1,1,1\n8,3,1,-1\n", &["--names"]),
        ("0,1,2\n1,1,1\n3,1,-1\n", &["--header"]),
        ("1,3\n1,1\n1,-1\n", &["--by-word"]),
        ("first,second\n1,3\n1,1\n1,-1\n", &["--by-word"]),
        (",first,second\nweight,1,3\nalpha,1,1\nbeta,1,-1\n", &["--by-word"]),
        ("weight,1,3\nalpha,1,1\nbeta,1,-1\n", &["--by-word"]),
    ];
    for (k, (text, more)) in forms.iter().enumerate() {
        let file = file(&format!("forms-{k}"), text);
        let mut words = vec!["thin", "--json", "--target=1"];
        words.extend(*more);
        words.push(file.to_str().unwrap());
        let (status, out, err) = said(&knob(&words));
        assert_eq!((status, err.as_str()), (0, ""), "{text}");
        let record = "{\"number\": 0, \"stage\": 1, \"nonzeros\": 1, \"change\": 0.5, \"directions\": 1, \"sweeps\": 1,\n \"path\": [";
        assert!(out.starts_with(record), "{text}: {out}");
        assert!(out.contains("{\"hypothesis\": 1, \"name\": ") && out.contains("\"weight\": 1}"), "{text}: {out}");
    }
}

/// Votes of 1 and -1 are lent as bits; beside a verdict that is neither, as doubles. A hypothesis of weight 0 takes no part, so that with
/// such a one the same answer comes by the other form.
#[test]
fn votes_and_doubles() {
    let line = |j: usize| {
        let votes: Vec<&str> = (0..19).map(|i| if (j * 37 + i * i * 11 + j * i) % 9 < 4 { "-1" } else { "1" }).collect();
        format!("{},{}\n", 1 + j * j % 11, votes.join(","))
    };
    let votes: String = (0..24).map(line).collect();
    let doubles = format!("{votes}0{}\n", ",0.5".repeat(19));
    for rule in [&["--target=4"][..], &["--within=0.3"], &["--within=0.05", "--cap=3", "--edition=2"]] {
        let of = |test: &str, text: &str| {
            let file = file(test, text);
            let mut words = vec!["thin", "--json", "--moved=19", "--seed=5"];
            words.extend(rule);
            words.push(file.to_str().unwrap());
            said(&knob(&words))
        };
        let (status, out, err) = of("votes_and_doubles-votes", &votes);
        assert_eq!((status, err.as_str()), (0, ""));
        assert_eq!((status, out, err), of("votes_and_doubles-doubles", &doubles));
    }
}

/// What is wrong is told by file, line and field, and by the exit status.
#[test]
fn errors() {
    let cases: &[(&str, &[&str], i32, &str)] = &[
        ("1,1,1\n3,x,-1\n", &["--target=1"], 2, ", line 2, field 2: 'x' is not a number\n"),
        ("1,1,1\n3,,-1\n", &["--target=1"], 2, ", line 2, field 2: it is empty\n"),
        ("1;0,5\n1;1\n", &["--target=1"], 2, ", line 1, field 2: '0,5' is not a number: write a point, not a comma\n"),
        ("1\t0,5\n1\t1\n", &["--target=1"], 2, ", line 1, field 2: '0,5' is not a number: write a point, not a comma\n"),
        ("1,1,1\n3,1\n", &["--target=1"], 2, ", line 2: it has 2 fields, and line 1 has 3\n"),
        (
            "O.5,1,1\n3,1,1\n",
            &["--target=1"],
            2,
            ", line 1, field 1: 'O.5' is not a number, and line 2 begins with one; if these are names, say --names\n",
        ),
        ("", &["--target=1"], 2, ": there is no line in it\n"),
        ("name,weight,a\n", &["--target=1"], 2, ": there is nothing below the header\n"),
        ("1,\"1,1\n", &["--target=1"], 2, ", line 1, field 2: its quote is not closed\n"),
        ("1,1\u{7}\n", &["--target=1"], 2, ", line 1, field 2: it has a control character\n"),
        ("name,weight,a,b\nx,1,1,1\ny,1,1.5,1\n", &["--target=1"], 1, ", line 3, field 3: the verdict 1.5 lies outside [-1, 1]\n"),
        ("1,2\n1,1\n1,nan\n", &["--by-word", "--target=1"], 1, ", line 3, field 2: the verdict NaN lies outside [-1, 1]\n"),
        ("1,1\ninf,1\n", &["--target=1"], 1, ", line 2, field 1: the weight inf is not finite\n"),
        ("0,1\n0,1\n", &["--target=1"], 1, "refused 9: "),
        ("1,1\n", &["--target=0"], 1, "refused 2: the target or the cap is 0\n"),
        ("1,1\n", &["--within=-1"], 1, "refused 1: "),
        ("1,1\n", &["--within", "inf"], 1, "refused 12: "),
        ("1\n1\n", &["--target=1"], 1, "refused 5: "),
        ("1,1\n", &[], 3, "say --target or --within"),
        ("1,1\n", &["--target=1", "--cap=1"], 3, "--cap stands beside --within"),
        ("1,1\n", &["--target=one"], 3, "--target wants a whole number, not one"),
        ("1,1\n", &["--edition=3", "--target=1"], 1, "refused 13: the edition is 1 or 2, not 3\n"),
        ("1,1\n", &["--seed=-1", "--target=1"], 3, "--seed wants a number below 2^64"),
        ("1,1\n", &["--what", "--target=1"], 3, "there is no option --what"),
    ];
    for (k, (text, more, status, why)) in cases.iter().enumerate() {
        let file = file(&format!("errors-{k}"), text);
        let mut words = vec!["thin"];
        words.extend(*more);
        words.push(file.to_str().unwrap());
        let (ended, out, err) = said(&knob(&words));
        assert_eq!((ended, out.as_str()), (*status, ""), "{text}: {err}");
        assert!(err.starts_with("knob: ") && err.contains(why) && err.lines().count() == 1, "{text}: {err}");
    }
    let (status, _, err) = said(&knob(&["thin", "--target=1", "/no/such/file"]));
    assert_eq!(status, 3);
    assert!(err.starts_with("knob: /no/such/file cannot be read: "), "{err}");
}

#[test]
fn too_many() {
    let file = file("too_many", "1,1\n".repeat(257));
    let (status, out, err) = said(&knob(&["thin", "--json", "--target", "1", file.to_str().unwrap()]));
    assert_eq!(status, 1);
    assert!(out.starts_with("{\"number\": 3, ") && err.contains("has 257 hypotheses and 1 words; there may be 256 and 4096"), "{err}");
}

/// A first line that would have the others hold more than any memory does.
#[test]
fn too_wide() {
    let file = file("too_wide", format!("1{}\n{}", ",1".repeat(199_999), "1\n".repeat(200_000)));
    let (status, _, err) = said(&knob(&["thin", "--target", "1", file.to_str().unwrap()]));
    assert_eq!(status, 2);
    assert!(err.ends_with(", line 2: it has 1 field, and line 1 has 200000\n"), "{err}");
}

#[test]
fn thresholds() {
    let ensemble = file("thresholds", "0.5,1,1\n0.5,1,-1\n");
    let limits = ensemble.with_file_name("limits.csv");
    let turned = |text: &str| {
        fs::write(&limits, text).unwrap();
        let (status, out, err) =
            said(&knob(&["thin", "--json", "--target=1", "--thresholds", limits.to_str().unwrap(), ensemble.to_str().unwrap()]));
        (
            status,
            out.lines().find_map(|line| line.strip_prefix("  {\"stage\": 1, \"nonzeros\": 1, \"change\": 1, \"turned\": ")?.chars().next()),
            err,
        )
    };
    // The second word's margin goes from 0 to 1, over 0.5 and not over 1.
    assert_eq!(turned("0\n0.5\n"), (0, Some('1'), String::new()));
    assert_eq!(turned("threshold\n0\n1\n"), (0, Some('0'), String::new()));
    assert_eq!(turned("alpha,0\nbeta,0.5\n"), (0, Some('1'), String::new()));
    assert!(turned("0\n").2.contains("it has 1 thresholds, and"));
    assert!(turned("0\nx\n").2.contains(", line 2, field 1: 'x' is not a number"));
    assert_eq!(turned("0\ninf\n").0, 1);
}

#[test]
fn sheets_and_answers() {
    let ensemble = file("sheets", NAMED);
    let (status, sheet, _) = said(&knob(&["sheet", "--within=0.5", ensemble.to_str().unwrap()]));
    assert_eq!((status, sheet.as_str()), (0, include_str!("../../../examples/sheet.tsv")));
    let (_, second, _) = said(&knob(&["sheet", "--within=0.5", "--edition=2", ensemble.to_str().unwrap()]));
    assert_eq!(second, sheet.replacen("\t-\n", "\t-\t2\n", 1));
    let answer = ensemble.with_file_name("answer");
    fs::write(&answer, knobthistle::thin_sheet(sheet.as_bytes())).unwrap();
    let (status, text, _) = said(&knob(&["answer", answer.to_str().unwrap()]));
    assert_eq!((status, text.as_str()), (0, "stage 1, 1 left, worst change 0.5\n\nhypothesis  weight\n         0  0\n         1  1\n"));
    for (text, status) in
        [("refused\t7\n", 1), ("bad\t3\n", 2), ("ok\t1\t1\n", 2), ("", 2), ("ok\t0\t1\t0000000000000000\nw\t0\t3ff0000000000000\n", 2)]
    {
        fs::write(&answer, text).unwrap();
        assert_eq!(knob(&["answer", answer.to_str().unwrap()]).status.code(), Some(status), "{text}");
    }
    fs::write(&answer, &sheet).unwrap();
    let (status, text, _) = said(&knob(&["answer", answer.to_str().unwrap()]));
    assert_eq!((status, text.as_str()), (0, "weight,0,1\n1,1,1\n3,1,-1\n"));
    fs::write(&answer, &sheet[..60]).unwrap();
    assert_eq!(knob(&["answer", answer.to_str().unwrap()]).status.code(), Some(2));
    let wide = file("sheets-wide", "1,1\n".repeat(33));
    assert_eq!(knob(&["sheet", "--target=1", wide.to_str().unwrap()]).status.code(), Some(1));
}

#[test]
fn the_picture() {
    let ensemble = file("the_picture", "weight,<&>,\"b\"\n1,1,1\n3,1,-1\n2,0.5,0.25\n0.5,-1,1\n");
    let picture = ensemble.with_file_name("path <&>.svg");
    for rule in
        [&["--within=0.3"][..], &["--within=0.3", "--cap=1"], &["--target=1"], &["--within=1e300"], &["--within=0"], &["--target=9"]]
    {
        let mut words = vec!["thin", "--svg", picture.to_str().unwrap(), ensemble.to_str().unwrap()];
        words.extend(rule);
        assert_eq!(knob(&words).status.code(), Some(0));
        let drawn = fs::read_to_string(&picture).unwrap();
        assert!(drawn.starts_with("<svg ") && drawn.ends_with("</svg>\n") && drawn.contains("class=\"taken\""));
        assert!(!drawn.contains("NaN") && !drawn.contains("inf"));
    }
    let mut words = vec!["thin", "--target=1", "--svg", "/no/such/folder/p.svg", ensemble.to_str().unwrap()];
    assert_eq!(knob(&words).status.code(), Some(3));
    words[0] = "draw";
    assert_eq!(knob(&words).status.code(), Some(3));
}

/// A thousand files with bytes changed, lost, put in or moved: a clear error or an answer, and never a panic.
#[test]
fn damaged() {
    let sound = include_bytes!("../../../examples/ensemble.csv");
    let mut state = 7u64;
    let mut chance = move |below: usize| {
        state ^= state << 13;
        state ^= state >> 7;
        state ^= state << 17;
        state as usize % below
    };
    let odd = b"\0\xFF\n\r\t,;\"'-+.eE0129xX \xC3\x80\x1B";
    let mut seen = [0; 3];
    for k in 0..1000 {
        let mut bytes = sound.to_vec();
        for _ in 0..1 + chance(4) {
            let at = chance(bytes.len());
            match chance(6) {
                0 => bytes[at] = odd[chance(odd.len())],
                1 => bytes[at] = chance(256) as u8,
                2 => drop(bytes.remove(at)),
                3 => bytes.insert(at, odd[chance(odd.len())]),
                4 => bytes.truncate(at.max(1)),
                _ => {
                    let further = (at + chance(400)).min(bytes.len());
                    bytes.drain(at..further);
                    if bytes.is_empty() {
                        bytes.push(b'\n');
                    }
                }
            }
        }
        let file = file("damaged", &bytes);
        let (status, out, err) = said(&knob(&["thin", if k % 2 == 0 { "--within=0.1" } else { "--target=4" }, file.to_str().unwrap()]));
        assert!((0..3).contains(&status), "status {status}: {err}");
        seen[status as usize] += 1;
        if status == 0 {
            assert!(err.is_empty() && out.contains("<- taken"));
        } else {
            assert!(out.is_empty() && err.starts_with("knob: ") && err.lines().count() == 1 && !err.contains("panicked"), "{err}");
            assert!(err.contains("line ") || err.contains("there is no"), "{err}");
        }
    }
    // Of each kind there are some; a digit that became another digit is no damage that a reader can see.
    assert!(seen.iter().all(|count| *count > 0), "{seen:?}");
}
