//! What a place of a long path costs in instructions, as callgrind counts them: `../run instructions` makes the tables,
//! and runs this program under callgrind once for each table and call.
//!
//!     instructions make FOLDER     writes the tables, a file for each
//!     instructions FILE CALL       makes a call on a table, run, write, read or near, and says its places

use programs::calls::RunCall;
use programs::implementations::all;
use programs::inputs::{long_run, LONG_RUNS};
use programs::{Implementation, NearCall, ReadCall, TrailCall};
use reference::{Near, Outcome, Written};
use std::path::Path;

/// Room for the trails of these paths.
const MOST_TRAIL: usize = 500_000;

/// The one table of one label, with a path through all its points, and the benchmark's long paths.
fn runs() -> Vec<RunCall> {
    let mut runs = vec![RunCall {
        sizes: vec![2],
        divisions: vec![59_999],
        start: vec![59_999, 0],
        labels: vec![2; 60_000],
        budget: u64::MAX,
        answer: 4,
    }];
    for (sizes, divisions, from, seed, rounds) in LONG_RUNS {
        runs.push(long_run(sizes, divisions, from, seed, rounds));
    }
    runs
}

fn name(run: &RunCall) -> String {
    let spaced = |numbers: Vec<String>| numbers.join("_");
    let sizes = run.sizes.iter().map(u8::to_string).collect();
    let divisions = run.divisions.iter().map(u16::to_string).collect();
    format!("{};{}", spaced(sizes), spaced(divisions))
}

/// A line of numbers for each field.
fn text(run: &RunCall) -> String {
    let line = |numbers: Vec<String>| numbers.join(" ") + "\n";
    line(run.sizes.iter().map(u8::to_string).collect())
        + &line(run.divisions.iter().map(u16::to_string).collect())
        + &line(run.start.iter().map(u16::to_string).collect())
        + &line(run.labels.iter().map(u8::to_string).collect())
        + &format!("{} {}\n", run.budget, run.answer)
}

fn numbers<T: std::str::FromStr>(line: Option<&str>) -> Vec<T> {
    line.expect("a line").split(' ').map(|word| word.parse().ok().expect("a number")).collect()
}

fn read(path: &Path) -> RunCall {
    let text = std::fs::read_to_string(path).expect("a file");
    let mut lines = text.lines();
    let (sizes, divisions) = (numbers(lines.next()), numbers(lines.next()));
    let (start, labels) = (numbers(lines.next()), numbers(lines.next()));
    let last: Vec<u64> = numbers(lines.next());
    RunCall { sizes, divisions, start, labels, budget: last[0], answer: last[1] as usize }
}

/// Callgrind counts from here to the return.
#[no_mangle]
#[inline(never)]
pub fn measured(call: &mut dyn FnMut()) {
    call();
}

fn measure(implementation: &dyn Implementation, run: RunCall, call: &str) -> u64 {
    let mut answer = vec![0; run.answer];
    let Outcome::Ended(end) = implementation.run(&run, &mut answer) else { panic!("a run that does not end") };
    match call {
        "run" => measured(&mut || assert!(matches!(implementation.run(&run, &mut answer), Outcome::Ended(_)))),
        "near" => {
            let mut list = vec![0; run.labels.len()];
            let near = NearCall { w: run.start.clone(), distance: 0, list: list.len(), run };
            measured(&mut || {
                let Near { .. } = implementation.near(&near, &mut answer, &mut list);
            });
        }
        "write" | "read" => {
            let mut trail = vec![0; MOST_TRAIL];
            let write = TrailCall { run: run.clone(), room: MOST_TRAIL };
            let wrote = |answer: &mut [u16], trail: &mut [u8]| {
                let Written { .. } = implementation.write(&write, answer, trail);
            };
            if call == "write" {
                measured(&mut || wrote(&mut answer, &mut trail));
            } else {
                wrote(&mut answer, &mut trail);
                let RunCall { sizes, divisions, start, .. } = run;
                let read = ReadCall { sizes, divisions, start, trail, record: end.places };
                measured(&mut || assert!(implementation.read(&read).is_ok()));
            }
        }
        _ => panic!("no call {call}"),
    }
    end.places
}

fn main() {
    let arguments: Vec<String> = std::env::args().skip(1).collect();
    let [first, second] = &arguments[..] else { panic!("two words") };
    if first == "make" {
        for run in runs() {
            std::fs::write(Path::new(second).join(name(&run)), text(&run)).expect("a file");
        }
        return;
    }
    let implementations = all();
    let implementation = implementations.last().expect("an implementation");
    println!("{}", measure(implementation.as_ref(), read(Path::new(first)), second));
}
