//! What a run reads of its label table, from a trace of its loads and stores: `../run reads` makes the trace and gives
//! it to this program.
//!
//! Each run is made twice, with a budget of 0, which asks the questions and stops, and with the bound. The loads from
//! the table that the second makes beyond those of the first are the run's own, and there must be as many as the labels
//! read that it announces.
//!
//!     reads              makes the runs, and says where each one's table lies and what it announces
//!     reads SAID TRACE   counts the loads of a trace by what such a call said

use programs::calls::RunCall;
use programs::implementations::all;
use programs::inputs::{long_run, From};
use reference::Outcome;
use std::process::ExitCode;
use std::sync::atomic::{AtomicU64, Ordering};

/// A store here parts one call of the trace from the next.
static MARK: AtomicU64 = AtomicU64::new(0);

fn mark() {
    MARK.store(1, Ordering::Release);
}

/// Paths on which points come in and places are met without one; the tables come from fixed seeds.
fn runs() -> [RunCall; 4] {
    [
        long_run(&[3], &[20], From::LastCorner, 6, 400),
        long_run(&[4], &[14], From::FirstCorner, 3, 100),
        long_run(&[2, 2, 2], &[8, 8, 9], From::LastCorner, 4, 100),
        long_run(&[3, 3], &[6, 6], From::FirstCorner, 5, 100),
    ]
}

/// Makes each run twice, by the implementation that stands last.
fn make() {
    let implementations = all();
    let implementation = implementations.last().expect("an implementation");
    println!("{:x}", &MARK as *const AtomicU64 as usize);
    for mut run in runs() {
        let (bound, mut answer) = (run.budget, vec![0; run.answer]);
        run.budget = 0;
        mark();
        implementation.run(&run, &mut answer);
        mark();
        run.budget = bound;
        let Outcome::Ended(end) = implementation.run(&run, &mut answer) else { panic!("a run that does not end") };
        mark();
        let from = run.labels.as_ptr() as usize;
        let grid = format!("{:?};{:?}", run.sizes, run.divisions).replace(' ', "");
        println!("{from:x} {} {} {} {grid} {}", run.labels.len(), end.places, end.labels_read, implementation.name());
    }
}

fn hexadecimal(text: &str) -> usize {
    usize::from_str_radix(text, 16).expect("a hexadecimal number")
}

/// The loads between the marks, one list for each call.
fn calls(trace: &str, mark: usize) -> Vec<Vec<usize>> {
    let mut calls = vec![Vec::new()];
    for line in trace.lines() {
        let (kind, rest) = line.trim().split_once(' ').expect("what is done, and where");
        let (address, _) = rest.split_once(',').expect("an address and a size");
        match hexadecimal(address) {
            address if address == mark => calls.push(Vec::new()),
            address if kind == "L" => calls.last_mut().expect("a call").push(address),
            _ => {}
        }
    }
    calls
}

/// Whether each run's own reads are as many as it announces.
fn count(said: &str, trace: &str) -> bool {
    let mut said = said.lines();
    let calls = calls(trace, hexadecimal(said.next().expect("the mark")));
    said.zip(calls[1..].chunks(3)).fold(true, |right, (line, calls)| {
        let words: Vec<&str> = line.split(' ').collect();
        let (from, length) = (hexadecimal(words[0]), words[1].parse::<usize>().expect("a length"));
        let reads = |call: &[usize]| call.iter().filter(|&&address| (from..from + length).contains(&address)).count();
        let (asked, whole) = (reads(&calls[0]), reads(&calls[1]));
        let own = whole.wrapping_sub(asked);
        println!(
            "{} {}: {} places, {} labels read, {own} reads beyond the {asked} of the questions",
            words[5], words[4], words[2], words[3]
        );
        right && own.to_string() == words[3]
    })
}

fn main() -> ExitCode {
    let files: Vec<String> = std::env::args().skip(1).collect();
    let [said, trace] = &files[..] else {
        make();
        return ExitCode::SUCCESS;
    };
    let text = |file| std::fs::read_to_string(file).expect("a text file");
    if count(&text(said), &text(trace)) {
        ExitCode::SUCCESS
    } else {
        ExitCode::FAILURE
    }
}
