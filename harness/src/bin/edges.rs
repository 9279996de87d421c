//! The edge cases: obeys the script on every engine, and holds what came of it
//! to the file of what is expected.

use std::env;
use std::fs;
use std::process::exit;

use harness::edges::{obey, Report};

const USAGE: &str = "\
edges [--write] SCRIPT EXPECTED
  --write  writes what came of the script to EXPECTED instead";

fn main() {
    let words: Vec<String> = env::args().skip(1).collect();
    let words: Vec<&str> = words.iter().map(String::as_str).collect();
    let (script, expected, write) = match words[..] {
        [script, expected] => (script, expected, false),
        ["--write", script, expected] => (script, expected, true),
        _ => fail(USAGE),
    };
    let report = obey(&read(script)).unwrap_or_else(|what| fail(&format!("{script}, {what}")));
    if write {
        let text: String = report
            .lines
            .iter()
            .map(|(_, line)| format!("{line}\n"))
            .collect();
        if let Err(error) = fs::write(expected, text) {
            fail(&format!("{expected}: {error}"));
        }
    } else if let Some(difference) = difference(&report, &read(expected)) {
        fail(&format!("{script}, {difference}"));
    }
    println!(
        "{} edge cases, {} calls, each the same on all three engines{}",
        report.cases,
        report.calls,
        if write {
            ", written"
        } else {
            " and as expected"
        }
    );
}

fn read(path: &str) -> String {
    fs::read_to_string(path).unwrap_or_else(|error| fail(&format!("{path}: {error}")))
}

fn fail(what: &str) -> ! {
    eprintln!("{what}");
    exit(1);
}

/// Where what came first differs from what is expected.
fn difference(report: &Report, expected: &str) -> Option<String> {
    let mut expected = expected.lines();
    for (at, line) in &report.lines {
        let wanted = expected.next().unwrap_or("nothing more");
        if wanted != line {
            return Some(format!("line {at}\nexpected {wanted}\ncame     {line}"));
        }
    }
    expected
        .next()
        .map(|wanted| format!("at its end\nexpected {wanted}\ncame     nothing more"))
}
