//! Everything that answers a call: by the definitions, by the paper's steps, and the proved code where it is linked.

use crate::calls::{BoundaryCall, CheckCall, LabelCall, RunCall, ShelfCall, ShelfCalls};
use crate::near::NearCall;
use crate::refinements::RefineCall;
use crate::trails::{ReadCall, TrailCall};
use reference::grid::Grid;
use reference::refine::Method;
use reference::slip::{self, ByDefinitions, ByPaper, Slip, SHEET_BYTES};
use reference::{
    boundary, check, games, nearest, paper, questions, shelf, small, trail, End, Near, Outcome, Rebuilt, Verdict,
    Written,
};

pub type Sheet = [u8; SHEET_BYTES];

pub trait Implementation {
    fn name(&self) -> &'static str;

    /// Whether a path on this grid can be followed in reasonable time.
    fn fits(&self, grid: &Grid) -> bool;

    fn run(&self, call: &RunCall, answer: &mut [u16]) -> Outcome;

    /// The count of labels written, or the refusal's number.
    fn label(&self, call: &LabelCall, labels: &mut [u8]) -> Result<usize, u64>;

    fn check(&self, call: &CheckCall) -> Verdict;

    /// The count of labels written, or the refusal's number.
    fn boundary(&self, call: &BoundaryCall, labels: &mut [u8]) -> Result<usize, u64>;
    fn near(&self, call: &NearCall, answer: &mut [u16], list: &mut [u16]) -> Near;

    /// A run that writes a trail.
    fn write(&self, call: &TrailCall, answer: &mut [u16], trail: &mut [u8]) -> Written;

    /// The place at a record of a trail, or the refusal's number.
    fn read(&self, call: &ReadCall) -> Result<Rebuilt, u64>;

    /// Whether a list of points on this grid can be checked in reasonable time.
    fn fits_check(&self, grid: &Grid) -> bool {
        self.fits(grid)
    }

    /// The end of each level, or the refusal's number.
    fn refine(&self, call: &RefineCall, labels: &mut [u8], answer: &mut [u16]) -> Result<Vec<End>, u64>;

    /// The length of the sheet.
    fn sheet(&self, slip: &[u8], sheet: &mut Sheet) -> usize;

    /// Whether it has the shelf's calls.
    fn has_shelf(&self) -> bool {
        true
    }

    /// The new count, or the refusal's number.
    fn file(&self, list: &mut [u16], count: usize, named: usize) -> Result<usize, u64>;

    /// The current sheet, or the refusal's number.
    fn current(&self, list: &[u16], count: usize, sheet: usize) -> Result<usize, u64>;

    /// Each answer, with the whole list after it.
    fn shelf(&self, ShelfCalls { list, count, calls }: &ShelfCalls) -> Vec<(Result<usize, u64>, Vec<u16>)> {
        let (mut list, mut count) = (list.clone(), *count);
        let answer = |call: &ShelfCall| match *call {
            ShelfCall::File(named) => {
                let filed = self.file(&mut list, count, named);
                count = filed.unwrap_or(count);
                (filed, list.clone())
            }
            ShelfCall::Ask(sheet) => (self.current(&list, count, sheet), list.clone()),
        };
        calls.iter().map(answer).collect()
    }

    /// The grid of a slip that is accepted; for others there is no path to follow.
    fn fits_slip(&self, slip: &[u8]) -> bool {
        match slip::read(slip) {
            Ok(Slip { grid, .. }) => self.fits(&grid),
            Err(_) => true,
        }
    }
}

pub struct Paper;

impl Implementation for Paper {
    fn name(&self) -> &'static str {
        "paper"
    }

    fn fits(&self, _: &Grid) -> bool {
        true
    }

    fn run(&self, call: &RunCall, answer: &mut [u16]) -> Outcome {
        paper::run(&call.sizes, &call.divisions, &call.start, &call.labels, answer, call.budget)
    }

    fn label(&self, call: &LabelCall, labels: &mut [u8]) -> Result<usize, u64> {
        games::label(&call.sizes, &call.divisions, &call.losses, labels)
    }

    fn check(&self, call: &CheckCall) -> Verdict {
        check::by_lists(&call.sizes, &call.divisions, &call.labels, &call.points)
    }

    fn boundary(&self, call: &BoundaryCall, labels: &mut [u8]) -> Result<usize, u64> {
        boundary::write(&call.sizes, &call.divisions, &call.labels, labels)
    }

    fn near(&self, call: &NearCall, answer: &mut [u16], list: &mut [u16]) -> Near {
        call.by(nearest::by_paper, answer, list)
    }

    fn write(&self, call: &TrailCall, answer: &mut [u16], to: &mut [u8]) -> Written {
        call.by(trail::write_by_paper, answer, to)
    }

    fn read(&self, call: &ReadCall) -> Result<Rebuilt, u64> {
        call.by(trail::read_by_fields)
    }

    fn refine(&self, call: &RefineCall, labels: &mut [u8], answer: &mut [u16]) -> Result<Vec<End>, u64> {
        call.game().refine(&Method { fill: games::fill, run: paper::run }, labels, answer)
    }

    fn sheet(&self, slip: &[u8], sheet: &mut Sheet) -> usize {
        slip::sheet::<ByPaper>(slip, sheet)
    }

    fn file(&self, list: &mut [u16], count: usize, named: usize) -> Result<usize, u64> {
        shelf::file(list, count, named)
    }

    fn current(&self, list: &[u16], count: usize, sheet: usize) -> Result<usize, u64> {
        shelf::current(list, count, sheet)
    }
}

pub struct Definitions;

/// Finding a place's links tries about P times its points; this many points keep a run within some milliseconds.
const SMALL_GRID: usize = 300;

impl Implementation for Definitions {
    fn name(&self) -> &'static str {
        "definitions"
    }

    fn fits(&self, grid: &Grid) -> bool {
        grid.points <= SMALL_GRID
    }

    fn run(&self, call: &RunCall, answer: &mut [u16]) -> Outcome {
        small::run(&call.sizes, &call.divisions, &call.start, &call.labels, answer, call.budget)
    }

    fn label(&self, call: &LabelCall, labels: &mut [u8]) -> Result<usize, u64> {
        let grid = questions::of_labelling(&call.sizes, &call.divisions, &call.losses, labels.len())?;
        games::fill_by_rule(&grid, &call.losses, labels);
        Ok(grid.points)
    }

    fn check(&self, call: &CheckCall) -> Verdict {
        check::by_search(&call.sizes, &call.divisions, &call.labels, &call.points)
    }

    fn boundary(&self, call: &BoundaryCall, labels: &mut [u8]) -> Result<usize, u64> {
        boundary::by_rule(&call.sizes, &call.divisions, &call.labels, labels)
    }

    fn near(&self, call: &NearCall, answer: &mut [u16], list: &mut [u16]) -> Near {
        call.by(nearest::by_definitions, answer, list)
    }

    fn write(&self, call: &TrailCall, answer: &mut [u16], to: &mut [u8]) -> Written {
        call.by(trail::write_by_definitions, answer, to)
    }

    fn read(&self, call: &ReadCall) -> Result<Rebuilt, u64> {
        call.by(trail::read_by_search)
    }

    fn fits_check(&self, grid: &Grid) -> bool {
        check::fits(grid)
    }

    fn refine(&self, call: &RefineCall, labels: &mut [u8], answer: &mut [u16]) -> Result<Vec<End>, u64> {
        call.game().refine(&Method { fill: games::fill_by_rule, run: small::run }, labels, answer)
    }

    fn sheet(&self, slip: &[u8], sheet: &mut Sheet) -> usize {
        slip::sheet::<ByDefinitions>(slip, sheet)
    }

    /// The shelf has one reference.
    fn has_shelf(&self) -> bool {
        false
    }

    fn file(&self, _: &mut [u16], _: usize, _: usize) -> Result<usize, u64> {
        unreachable!("it has no shelf")
    }

    fn current(&self, _: &[u16], _: usize, _: usize) -> Result<usize, u64> {
        unreachable!("it has no shelf")
    }
}

/// The first is the one that the others are held to.
pub fn all() -> Vec<Box<dyn Implementation>> {
    #[allow(unused_mut)]
    let mut all: Vec<Box<dyn Implementation>> = vec![Box::new(Paper), Box::new(Definitions)];
    #[cfg(feature = "proved")]
    all.push(Box::new(crate::proved::Proved));
    all
}
