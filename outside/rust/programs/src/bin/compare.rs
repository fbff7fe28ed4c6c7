//! Gives the same calls to every implementation and compares result and buffers, the pattern behind what is written
//! included.
//!
//!     cargo run --release --bin compare

use programs::boundary_inputs;
use programs::calls::Call;
use programs::implementations::Sheet;
use programs::inputs::{self, Take};
use programs::{all, near, refinements, trails};
use programs::{
    BoundaryCall, CheckCall, Implementation, LabelCall, NearCall, ReadCall, RefineCall, RunCall, TrailCall,
};
use reference::grid::Grid;
use reference::slip::SHEET_BYTES;
use reference::trail::WHY;
use reference::{End, Near, Outcome, Rebuilt, Verdict, Written};
use std::process::ExitCode;
use std::time::Instant;

const MOST_PRINTED: usize = 10;

/// What an untouched buffer holds.
fn pattern(at: usize) -> u16 {
    (at as u16).wrapping_mul(40503) ^ 0xa5c3
}

#[derive(Default)]
struct Tally {
    calls: usize,
    compared: usize,
    ends: usize,
    places: u64,
    longest: u64,
    refusals: [usize; 24],
    /// Of the readings that get 17, by the reference's reasons.
    reasons: [usize; WHY.len()],
}

struct Comparison {
    implementations: Vec<Box<dyn Implementation>>,
    /// The pattern's low bytes, as the sheet holds it.
    untouched: Vec<u8>,
    tally: Tally,
    differences: usize,
}

/// The outcome of a call with everything that it may have written.
#[derive(PartialEq)]
enum Seen {
    Run(Outcome, Vec<u16>),
    Label(Result<usize, u64>, Vec<u8>),
    /// The sheet's length and buffer.
    Slip(usize, Box<Sheet>),
    /// Each answer, with the list after it.
    Shelf(Vec<(Result<usize, u64>, Vec<u16>)>),
    Check(Verdict),
    Boundary(Result<usize, u64>, Vec<u8>),
    Near(Near, Vec<u16>, Vec<u16>),
    Refine(Result<Vec<End>, u64>, Vec<u8>, Vec<u16>),
    Trail(Written, Vec<u16>, Vec<u8>),
    Read(Result<Rebuilt, u64>),
}

impl Comparison {
    fn take(&mut self, call: Call) {
        self.tally.calls += 1;
        let implementations = std::mem::take(&mut self.implementations);
        let before = call.clone();
        let mut first: Option<Seen> = None;
        for implementation in implementations.iter().filter(|implementation| fits(implementation.as_ref(), &call)) {
            let seen = match &call {
                Call::Run(run) => self.run(implementation.as_ref(), run),
                Call::Label(label) => self.label(implementation.as_ref(), label),
                Call::Slip(slip) => self.slip(implementation.as_ref(), slip),
                Call::Shelf(calls) => Ok(Seen::Shelf(implementation.shelf(calls))),
                Call::Check(check) => Ok(Seen::Check(implementation.check(check))),
                Call::Boundary(boundary) => self.boundary(implementation.as_ref(), boundary),
                Call::Near(near) => self.near(implementation.as_ref(), near),
                Call::Refine(refine) => self.refine(implementation.as_ref(), refine),
                Call::Trail(trail) => self.write(implementation.as_ref(), trail),
                Call::Read(read) => Ok(Seen::Read(implementation.read(read))),
            };
            if call != before {
                self.differs(&before, implementation.name(), "an input is changed");
            }
            match (&first, seen) {
                (_, Err(fault)) => self.differs(&call, implementation.name(), fault),
                (None, Ok(seen)) => {
                    self.tally.count(&seen);
                    if let (Call::Read(read), Seen::Read(Err(17))) = (&call, &seen) {
                        self.tally.reasons[read.why().expect("a reason for 17")] += 1;
                    }
                    first = Some(seen);
                }
                (Some(first), Ok(seen)) => {
                    self.tally.compared += 1;
                    if seen != *first {
                        self.differs(&call, implementation.name(), "the result or a buffer differs");
                    }
                }
            }
        }
        self.implementations = implementations;
    }

    fn differs(&mut self, call: &Call, name: &str, what: &str) {
        self.differences += 1;
        if self.differences <= MOST_PRINTED {
            println!("DIFFERENCE in {name}: {what}\n{call}\n");
        }
    }

    fn run(&mut self, implementation: &dyn Implementation, run: &RunCall) -> Result<Seen, &'static str> {
        let mut answer: Vec<u16> = (0..run.answer).map(pattern).collect();
        let outcome = implementation.run(run, &mut answer);
        let written = match outcome {
            Outcome::Ended(end) => end.vertices * run.start.len(),
            _ => 0,
        };
        if written > answer.len() || (written..answer.len()).any(|at| answer[at] != pattern(at)) {
            return Err("the answer buffer is changed where it must not be");
        }
        Ok(Seen::Run(outcome, answer))
    }

    fn near(&mut self, implementation: &dyn Implementation, call: &NearCall) -> Result<Seen, &'static str> {
        let mut answer: Vec<u16> = (0..call.run.answer).map(pattern).collect();
        let mut list: Vec<u16> = (0..call.list).map(pattern).collect();
        let near = implementation.near(call, &mut answer, &mut list);
        let (vertices, listed) = near::written(call, &near);
        let changed = |buffer: &[u16], written: usize| (written..buffer.len()).any(|at| buffer[at] != pattern(at));
        if changed(&answer, vertices) || changed(&list, listed) {
            return Err("a buffer is changed where it must not be");
        }
        Ok(Seen::Near(near, answer, list))
    }

    fn label(&mut self, implementation: &dyn Implementation, label: &LabelCall) -> Result<Seen, &'static str> {
        let mut labels: Vec<u8> = (0..label.buffer).map(|at| pattern(at) as u8).collect();
        let number = implementation.label(label, &mut labels);
        if number.is_err() && (0..labels.len()).any(|at| labels[at] != pattern(at) as u8) {
            return Err("a refused labelling changed its buffer");
        }
        Ok(Seen::Label(number, labels))
    }

    fn boundary(&mut self, implementation: &dyn Implementation, boundary: &BoundaryCall) -> Result<Seen, &'static str> {
        let mut labels: Vec<u8> = (0..boundary.buffer).map(|at| pattern(at) as u8).collect();
        let number = implementation.boundary(boundary, &mut labels);
        if number.is_err() && (0..labels.len()).any(|at| labels[at] != pattern(at) as u8) {
            return Err("a refusal by the boundary rule changed its buffer");
        }
        Ok(Seen::Boundary(number, labels))
    }

    fn refine(&mut self, implementation: &dyn Implementation, call: &RefineCall) -> Result<Seen, &'static str> {
        let mut labels: Vec<u8> = (0..call.buffer).map(|at| pattern(at) as u8).collect();
        let mut answer: Vec<u16> = (0..call.answer).map(pattern).collect();
        let ends = implementation.refine(call, &mut labels, &mut answer);
        let written = |at: usize| ends.as_ref().is_ok_and(|ends| call.is_vertex(ends, at));
        if (0..answer.len()).any(|at| !written(at) && answer[at] != pattern(at)) {
            return Err("the answer buffer is changed where it must not be");
        }
        if ends.is_err() && (0..labels.len()).any(|at| labels[at] != pattern(at) as u8) {
            return Err("a refused refinement changed the label buffer");
        }
        Ok(Seen::Refine(ends, labels, answer))
    }

    fn write(&mut self, implementation: &dyn Implementation, call: &TrailCall) -> Result<Seen, &'static str> {
        let mut answer: Vec<u16> = (0..call.run.answer).map(pattern).collect();
        let mut trail: Vec<u8> = (0..call.room).map(|at| pattern(at) as u8).collect();
        let written = implementation.write(call, &mut answer, &mut trail);
        let (vertices, bytes) = call.written(&written);
        let answer_changed = (vertices..answer.len()).any(|at| answer[at] != pattern(at));
        if answer_changed || (bytes..trail.len()).any(|at| trail[at] != pattern(at) as u8) {
            return Err("a buffer is changed where it must not be");
        }
        Ok(Seen::Trail(written, answer, trail))
    }

    fn slip(&mut self, implementation: &dyn Implementation, slip: &[u8]) -> Result<Seen, &'static str> {
        let mut sheet: Box<Sheet> = Box::new([0; SHEET_BYTES]);
        sheet.copy_from_slice(&self.untouched);
        let length = implementation.sheet(slip, &mut sheet);
        if length > SHEET_BYTES || sheet[length..] != self.untouched[length..] {
            return Err("the sheet is changed behind its end");
        }
        Ok(Seen::Slip(length, sheet))
    }

    /// Puts a kind of input to all implementations and prints what came of it.
    fn part(&mut self, name: &str, inputs: impl FnOnce(Take)) {
        let begin = Instant::now();
        self.tally = Tally::default();
        inputs(&mut |call| self.take(call));
        let Tally { calls, compared, ends, places, longest, refusals, reasons } = &self.tally;
        let refused: Vec<String> = refusals
            .iter()
            .enumerate()
            .filter(|(_, &count)| count > 0)
            .map(|(number, count)| format!("{number}: {count}"))
            .collect();
        println!(
            "{name}: {calls} calls, {compared} compared, {ends} ends, {places} places, \
             longest path {longest}, refusals [{}], {:.1} s",
            refused.join(", "),
            begin.elapsed().as_secs_f64()
        );
        let reasons: Vec<String> = WHY
            .iter()
            .zip(reasons)
            .filter(|(_, &count)| count > 0)
            .map(|(why, count)| format!("{why:?}: {count}"))
            .collect();
        if !reasons.is_empty() {
            println!("    reasons for 17: {}", reasons.join(", "));
        }
    }
}

impl Tally {
    fn count_run(&mut self, outcome: &Outcome) {
        match outcome {
            Outcome::Ended(end) => {
                self.ends += 1;
                self.places += end.places;
                self.longest = self.longest.max(end.places);
            }
            Outcome::Refused(number) => self.refusals[*number as usize] += 1,
            Outcome::Spent(_) => self.refusals[9] += 1,
            Outcome::Unknown { .. } => self.refusals[16] += 1,
        }
    }

    fn count(&mut self, seen: &Seen) {
        match seen {
            Seen::Run(outcome, _)
            | Seen::Near(Near { run: outcome, .. }, ..)
            | Seen::Trail(Written { run: outcome, .. }, ..) => self.count_run(outcome),
            Seen::Read(Ok(_)) => self.ends += 1,
            Seen::Read(Err(number)) => self.refusals[*number as usize] += 1,
            Seen::Label(Ok(_), _) | Seen::Boundary(Ok(_), _) => self.ends += 1,
            Seen::Label(Err(number), _) | Seen::Boundary(Err(number), _) => self.refusals[*number as usize] += 1,
            Seen::Shelf(answers) => {
                for (answer, _) in answers {
                    match answer {
                        Ok(_) => self.ends += 1,
                        Err(number) => self.refusals[*number as usize] += 1,
                    }
                }
            }
            Seen::Check(Verdict::Refused(number)) => self.refusals[*number as usize] += 1,
            Seen::Check(Verdict::Yes(_)) => self.ends += 1,
            Seen::Check(Verdict::No) => {}
            Seen::Refine(Err(number), ..) => self.refusals[*number as usize] += 1,
            Seen::Refine(Ok(ends), ..) => {
                self.ends += ends.len();
                self.places += ends.iter().map(|end| end.places).sum::<u64>();
                self.longest = ends.iter().map(|end| end.places).fold(self.longest, u64::max);
            }
            Seen::Slip(length, sheet) => {
                let text = String::from_utf8_lossy(&sheet[..*length]);
                let first = text.lines().next().unwrap_or("");
                match first.strip_prefix("refused ") {
                    Some(number) => self.refusals[number.parse::<usize>().unwrap_or(0)] += 1,
                    None => self.ends += 1,
                }
            }
        }
    }
}

fn fits(implementation: &dyn Implementation, call: &Call) -> bool {
    match call {
        Call::Near(NearCall { run: RunCall { sizes, divisions, .. }, .. })
        | Call::Run(RunCall { sizes, divisions, .. })
        | Call::Trail(TrailCall { run: RunCall { sizes, divisions, .. }, .. })
        | Call::Read(ReadCall { sizes, divisions, .. })
        | Call::Label(LabelCall { sizes, divisions, .. })
        | Call::Boundary(BoundaryCall { sizes, divisions, .. }) => {
            Grid::new(sizes, divisions).map_or(true, |grid| implementation.fits(&grid))
        }
        Call::Check(CheckCall { sizes, divisions, .. }) => {
            Grid::new(sizes, divisions).map_or(true, |grid| implementation.fits_check(&grid))
        }
        Call::Refine(refine) => refine.largest().map_or(true, |grid| implementation.fits(&grid)),
        Call::Slip(slip) => implementation.fits_slip(slip),
        Call::Shelf(_) => implementation.has_shelf(),
    }
}

fn main() -> ExitCode {
    let untouched: Vec<u8> = (0..SHEET_BYTES).map(|at| pattern(at) as u8).collect();
    let implementations = all();
    let names: Vec<&str> = implementations.iter().map(|implementation| implementation.name()).collect();
    println!("comparing {}; all are held to the first, where the grid is small enough", names.join(", "));
    let mut comparison = Comparison { implementations, untouched, tally: Tally::default(), differences: 0 };
    let begin = Instant::now();
    comparison.part("every label table of the smallest grids", inputs::every_table);
    comparison.part("random grids up to 30 points", |take| inputs::random_runs(1, 500_000, 30, take));
    comparison.part("random grids up to 130 points", |take| inputs::random_runs(2, 100_000, 130, take));
    comparison.part("random grids up to 2,000 points", |take| inputs::random_runs(3, 300_000, 2_000, take));
    comparison.part("random grids up to 60,000 points", |take| inputs::random_runs(4, 20_000, 60_000, take));
    comparison.part("tables with gaps up to 30 points", |take| inputs::gap_runs(10, 200_000, 30, take));
    comparison.part("tables with gaps up to 2,000 points", |take| inputs::gap_runs(11, 100_000, 2_000, take));
    comparison.part("faulty runs", |take| inputs::faulty_runs(5, 200_000, take));
    comparison.part("edges", inputs::edges);
    comparison.part("centres at halves", inputs::halves);
    comparison.part("small games", |take| inputs::games(6, 1_500, 130, take));
    comparison.part("large games", |take| inputs::games(7, 300, 60_000, take));
    comparison.part("labellings", |take| inputs::random_labellings(8, 20_000, 130, take));
    comparison.part("small games of one's own", |take| inputs::own_games(10, 40_000, 130, take));
    comparison.part("large games of one's own", |take| inputs::own_games(11, 1_000, 60_000, take));
    comparison.part("every list of points of the smallest grids", inputs::every_list);
    comparison.part("lists near simplices", |take| inputs::lists_near_simplices(12, 200_000, 200, take));
    comparison
        .part("lists near simplices of large grids", |take| inputs::lists_near_simplices(13, 5_000, 60_000, take));
    comparison.part("ends of runs, checked", |take| inputs::checked_ends(14, 200_000, 500, take));
    comparison.part("faulty lists", |take| inputs::faulty_lists(15, 200_000, take));
    comparison.part("every old table of the smallest grids", boundary_inputs::every_table);
    comparison.part("boundary tables up to 2,000 points", |take| boundary_inputs::tables(16, 200_000, 2_000, take));
    comparison.part("boundary tables up to 60,000 points", |take| boundary_inputs::tables(17, 2_000, 60_000, take));
    comparison.part("faulty boundary calls", |take| boundary_inputs::faulty_calls(18, 200_000, take));
    comparison.part("runs near a point, up to 30 points", |take| near::random_nears(16, 200_000, 30, take));
    comparison.part("runs near a point, up to 300 points", |take| near::random_nears(17, 20_000, 300, take));
    comparison.part("runs near a point, up to 60,000 points", |take| near::random_nears(18, 10_000, 60_000, take));
    comparison.part("faulty runs near a point", |take| near::faulty_nears(19, 200_000, take));
    comparison.part("refinements of small games", |take| refinements::random(16, 20_000, 300, take));
    comparison.part("refinements of large games", |take| refinements::random(17, 3_000, 60_000, take));
    comparison.part("faulty refinements", |take| refinements::faulty(18, 100_000, take));
    comparison.part("edges of refinements", refinements::edges);
    comparison.part("trails written, up to 30 points", |take| trails::random_writes(20, 100_000, 30, take));
    comparison.part("trails written, up to 300 points", |take| trails::random_writes(21, 10_000, 300, take));
    comparison.part("trails written, up to 60,000 points", |take| trails::random_writes(22, 3_000, 60_000, take));
    comparison.part("faulty runs with a trail", |take| trails::faulty_writes(23, 100_000, take));
    comparison.part("trails read, up to 30 points", |take| trails::random_reads(24, 200_000, 30, take));
    comparison.part("trails read, up to 300 points", |take| trails::random_reads(25, 10_000, 300, take));
    comparison.part("trails read, up to 60,000 points", |take| trails::random_reads(26, 3_000, 60_000, take));
    comparison.part("walks by any moves read", |take| trails::random_walks(27, 20_000, 30, take));
    comparison.part("faulty readings", |take| trails::faulty_reads(28, 100_000, take));
    comparison.part("damaged and cut slips", |take| inputs::damaged_slips(9, 100_000, take));
    comparison.part("every small shelf", inputs::every_shelf);
    comparison.part("random shelves", |take| inputs::random_shelves(10, 3_000, take));
    #[cfg(feature = "proved")]
    {
        comparison.differences += programs::walks::compare("walks on grids up to 30 points", 20, 20_000, 30);
        comparison.differences += programs::walks::compare("walks on grids up to 130 points", 21, 2_000, 130);
    }
    println!("{} differences, {:.1} s in all", comparison.differences, begin.elapsed().as_secs_f64());
    if comparison.differences == 0 {
        ExitCode::SUCCESS
    } else {
        ExitCode::FAILURE
    }
}
