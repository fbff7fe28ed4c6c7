//! Runs the stored cases of a folder against every implementation.
//!
//!     cargo run --release --bin cases -- FOLDER

use programs::calls::{spaced, Call};
use programs::implementations::Sheet;
use programs::{all, near, stored, trails, Implementation, ShelfCall};
use reference::grid::Grid;
use reference::slip::SHEET_BYTES;
use reference::{Kind, Outcome, Verdict};
use std::process::ExitCode;

/// What the answer buffer holds before a run; no coordinate is as large. A case writes it as a dot.
const UNTOUCHED: u16 = u16::MAX;

/// What the label buffer holds before a boundary table is written; it is no label.
const UNTOUCHED_BYTE: u8 = u8::MAX;
/// What a run answers and leaves in its buffer.
fn run_lines(outcome: Outcome, answer: &[u16]) -> Vec<String> {
    match outcome {
        Outcome::Refused(number) => vec![format!("refused {number}")],
        Outcome::Spent(places) => vec!["refused 9".to_string(), format!("places {places}")],
        Outcome::Unknown { places, position } => {
            vec!["refused 16".to_string(), format!("places {places}"), format!("position {position}")]
        }
        Outcome::Ended(end) => {
            let kind = if end.kind == Kind::Place { "place" } else { "facet" };
            let number = |x: &u16| if *x == UNTOUCHED { ".".to_string() } else { x.to_string() };
            vec![
                format!("places {}", end.places),
                format!("labels read {}", end.labels_read),
                format!("end {kind}"),
                format!("block {}", end.block),
                format!("vertices {}", end.vertices),
                format!("answer-after {}", answer.iter().map(number).collect::<Vec<_>>().join(" ")),
            ]
        }
    }
}

/// What the implementation gives, as the lines of `expect`; none if the grid is too large for it.
fn given(implementation: &dyn Implementation, call: &Call) -> Option<Vec<String>> {
    match call {
        Call::Slip(slip) => {
            let mut sheet: Sheet = [0; SHEET_BYTES];
            implementation.fits_slip(slip).then(|| {
                let length = implementation.sheet(slip, &mut sheet);
                String::from_utf8_lossy(&sheet[..length]).lines().map(str::to_string).collect()
            })
        }
        Call::Run(run) => {
            let mut answer = vec![UNTOUCHED; run.answer];
            let fits = Grid::new(&run.sizes, &run.divisions).map_or(true, |grid| implementation.fits(&grid));
            fits.then(|| run_lines(implementation.run(run, &mut answer), &answer))
        }
        Call::Near(call) => {
            let (mut answer, mut list) = (vec![UNTOUCHED; call.run.answer], vec![UNTOUCHED; call.list]);
            let fits = Grid::new(&call.run.sizes, &call.run.divisions).map_or(true, |grid| implementation.fits(&grid));
            fits.then(|| {
                let near = implementation.near(call, &mut answer, &mut list);
                let (vertices, listed) = near::written(call, &near);
                let untouched = answer[vertices..].iter().chain(&list[listed..]).all(|&number| number == UNTOUCHED);
                assert!(untouched, "a buffer is changed behind what is written");
                let mut lines = run_lines(near.run, &answer);
                if near.nearest.is_some() {
                    lines.pop();
                    lines.extend(answer[..vertices].chunks(call.run.start.len()).map(spaced));
                }
                lines.extend(near::lines(&near, &list));
                lines
            })
        }
        Call::Trail(call) => {
            let (mut answer, mut trail) = (vec![UNTOUCHED; call.run.answer], vec![UNTOUCHED_BYTE; call.room]);
            let fits = Grid::new(&call.run.sizes, &call.run.divisions).map_or(true, |grid| implementation.fits(&grid));
            fits.then(|| {
                let written = implementation.write(call, &mut answer, &mut trail);
                let (vertices, bytes) = call.written(&written);
                let numbers = answer[vertices..].iter().all(|&number| number == UNTOUCHED);
                assert!(
                    numbers && trail[bytes..].iter().all(|&byte| byte == UNTOUCHED_BYTE),
                    "a buffer is changed behind what is written"
                );
                let mut lines = run_lines(written.run, &answer);
                if written.bytes.is_some() {
                    lines.pop();
                    lines.extend(answer[..vertices].chunks(call.run.start.len()).map(spaced));
                    lines.extend(trails::written_lines(&trail[..bytes]));
                }
                lines
            })
        }
        Call::Read(call) => {
            let grid = Grid::new(&call.sizes, &call.divisions).ok();
            let fits = grid.as_ref().map_or(true, |grid| implementation.fits(grid));
            fits.then(|| trails::read_lines(implementation.read(call), grid))
        }
        Call::Shelf(calls) => implementation.has_shelf().then(|| {
            let answers = implementation.shelf(calls);
            let last = answers.last().map(|(_, list)| format!("list {}", spaced(list)));
            let answered = calls.calls.iter().zip(&answers).map(|(call, (answer, _))| match (call, answer) {
                (_, Err(number)) => format!("refused {number}"),
                (ShelfCall::File(_), Ok(count)) => format!("count {count}"),
                (ShelfCall::Ask(_), Ok(sheet)) => format!("current {sheet}"),
            });
            answered.chain(last).collect()
        }),
        Call::Check(check) => {
            let fits = Grid::new(&check.sizes, &check.divisions).map_or(true, |grid| implementation.fits_check(&grid));
            fits.then(|| match implementation.check(check) {
                Verdict::Refused(number) => vec![format!("refused {number}")],
                Verdict::Yes(block) => vec!["yes".to_string(), format!("block {block}")],
                Verdict::No => vec!["no".to_string()],
            })
        }
        Call::Boundary(boundary) => {
            let mut labels = vec![UNTOUCHED_BYTE; boundary.buffer];
            Some(match implementation.boundary(boundary, &mut labels) {
                Ok(count) => vec![format!("written {count}"), format!("labels-after {}", spaced(&labels))],
                Err(number) if labels.iter().all(|&label| label == UNTOUCHED_BYTE) => vec![format!("refused {number}")],
                Err(number) => vec![format!("refused {number}, with the buffer changed")],
            })
        }
        Call::Refine(refine) => {
            let fits = refine.largest().map_or(true, |grid| implementation.fits(&grid));
            let (mut labels, mut answer) = (vec![0; refine.buffer], vec![UNTOUCHED; refine.answer]);
            fits.then(|| match implementation.refine(refine, &mut labels, &mut answer) {
                Err(number) => vec![format!("refused {number}")],
                Ok(ends) => refine.lines(&ends, &labels, &answer, UNTOUCHED),
            })
        }
        Call::Label(label) => {
            let mut labels = vec![0; label.buffer];
            Some(match implementation.label(label, &mut labels) {
                Ok(count) => vec![format!("labels {}", spaced(&labels[..count]))],
                Err(number) => vec![format!("refused {number}")],
            })
        }
    }
}

fn main() -> ExitCode {
    let folder = std::env::args().nth(1).expect("the folder of the stored cases");
    let files = std::fs::read_dir(folder).expect("a folder").map(|entry| entry.expect("an entry").path());
    let mut files: Vec<_> = files.filter(|file| file.extension().is_some_and(|end| end == "txt")).collect();
    files.sort();
    let mut cases = 0;
    let mut failed = 0;
    let implementations = all();
    let mut counts = vec![0; implementations.len()];
    for file in &files {
        let text = std::fs::read_to_string(file).expect("a text file");
        for case in stored::read(&text) {
            cases += 1;
            for (implementation, count) in implementations.iter().zip(&mut counts) {
                match given(implementation.as_ref(), &case.call) {
                    None => {}
                    Some(lines) if lines == case.expect => *count += 1,
                    Some(lines) => {
                        failed += 1;
                        println!(
                            "{} {}: {} gives\n{}",
                            file.display(),
                            case.name,
                            implementation.name(),
                            lines.join("\n")
                        );
                    }
                }
            }
        }
    }
    println!("{cases} stored cases");
    for (implementation, count) in implementations.iter().zip(&counts) {
        println!("{}: {count} agree", implementation.name());
    }
    println!("{failed} differ");
    if failed == 0 {
        ExitCode::SUCCESS
    } else {
        ExitCode::FAILURE
    }
}
