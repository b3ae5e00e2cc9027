// Reads the oracle's lines, makes each call on the compiled library and compares the answers. oracle/README.md has the format.

mod calls;
mod words;
#[allow(dead_code)]
#[path = "../../hosts/rust/yubtomiq.rs"]
mod yubtomiq;

use std::collections::BTreeMap;
use std::io::BufRead;
use words::Words;

/// How many differing lines are shown.
const SHOWN: u64 = 20;

#[derive(Default)]
struct Tally {
    calls: u64,
    differ: u64,
}

/// The answers of the library and of the Rust, word by word.
fn compare(line: &str) -> Result<(Vec<u64>, Vec<u64>), String> {
    let (call, answers) = line.split_once(" = ").ok_or("no answers")?;
    let (name, inputs) = call.split_once(' ').unwrap_or((call, ""));
    let mut inputs = Words::of(inputs)?;
    let mut found = calls::replay(name, &mut inputs)?;
    inputs.end()?;
    let mut expected = Words::of(answers)?.rest();
    if name == "run" {
        calls::without_kept(&mut found, &mut expected)?;
    }
    Ok((found, expected))
}

fn main() {
    let wanted: u64 = std::env::args().nth(1).and_then(|count| count.parse().ok()).unwrap_or(0);
    let mut tallies: BTreeMap<String, Tally> = BTreeMap::new();
    let (mut lines, mut differ, mut limits, mut above) = (0, 0, 0, 0);
    for line in std::io::stdin().lock().lines() {
        let line = line.expect("a line of text");
        lines += 1;
        let name = line.split(' ').next().unwrap_or("").to_string();
        let tally = tallies.entry(name.clone()).or_default();
        tally.calls += 1;
        let trouble = match compare(&line) {
            Ok((found, expected)) => {
                for limit in calls::limits(&name, &expected) {
                    limits += 1;
                    above += u64::from(limit[0] > 0);
                }
                (found != expected).then(|| format!("found    {found:?}\nexpected {expected:?}"))
            }
            Err(message) => Some(message),
        };
        if let Some(trouble) = trouble {
            tally.differ += 1;
            differ += 1;
            if differ <= SHOWN {
                println!("line {lines}: {line}\n{trouble}");
            }
        }
    }
    for (name, tally) in &tallies {
        println!("{name}: {} calls, {} differ", tally.calls, tally.differ);
    }
    println!("{lines} calls, {differ} differ; {limits} limits among their answers, {above} of them above 2^64 - 1");
    if differ > 0 || lines < wanted {
        std::process::exit(1);
    }
}
