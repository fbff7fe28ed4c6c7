//! The proved code behind its C interface. Only this file knows the foreign signatures.

use crate::calls::{BoundaryCall, CheckCall, LabelCall, RunCall};
use crate::implementations::{Implementation, Sheet};
use crate::near::NearCall;
use crate::refinements::RefineCall;
use crate::trails::{ReadCall, TrailCall};
use reference::grid::Grid;
use reference::{End, Kind, Near, Outcome, Rebuilt, Verdict, Written};

#[rustfmt::skip]
extern "C" {
    /// 0 at an end, else the refusal's number. The facts are places, labels read, kind (0 place, 1 facet), block and
    /// vertices; of the refusals number 9 sets one, the places, and number 16 two, the places and the position.
    fn leveretplate_run(
        sizes: *const u8, sizes_length: usize,
        divisions: *const u16, divisions_length: usize,
        start: *const u16, start_length: usize,
        labels: *const u8, labels_length: usize,
        answer: *mut u16, answer_length: usize,
        budget: u64,
        facts: *mut [u64; FACTS],
    ) -> u8;

    /// A run's number and facts, and at an end the nearest position and the number of positions listed.
    fn leveretplate_nearest(
        sizes: *const u8, sizes_length: usize,
        divisions: *const u16, divisions_length: usize,
        start: *const u16, start_length: usize,
        labels: *const u8, labels_length: usize,
        answer: *mut u16, answer_length: usize,
        budget: u64,
        w: *const u16, w_length: usize,
        distance: u64,
        list: *mut u16, list_length: usize,
        facts: *mut [u64; FACTS],
        near: *mut [u64; 2],
    ) -> u8;

    /// 0 and the count of labels, or the refusal's number.
    fn leveretplate_label(
        sizes: *const u8, sizes_length: usize,
        divisions: *const u16, divisions_length: usize,
        losses: *const u16, losses_length: usize,
        labels: *mut u8, labels_length: usize,
        count: *mut u64,
    ) -> u8;

    /// The refusal's number, 256 times the block where the answer is yes, 0 where it is no.
    fn leveretplate_check(
        sizes: *const u8, sizes_length: usize,
        divisions: *const u16, divisions_length: usize,
        labels: *const u8, labels_length: usize,
        points: *const u16, points_length: usize,
    ) -> u16;

    /// 0 and the count of labels, or the refusal's number.
    fn leveretplate_boundary(
        sizes: *const u8, sizes_length: usize,
        divisions: *const u16, divisions_length: usize,
        old: *const u8, old_length: usize,
        labels: *mut u8, labels_length: usize,
        count: *mut u64,
    ) -> u8;

    /// 0 where all levels were run, else the refusal's number. The facts are four for each level, as a run's.
    fn leveretplate_refine(
        sizes: *const u8, sizes_length: usize,
        divisions: *const u16, divisions_length: usize,
        start: *const u16, start_length: usize,
        losses: *const u16, losses_length: usize,
        factor: usize,
        levels: usize,
        labels: *mut u8, labels_length: usize,
        answer: *mut u16, answer_length: usize,
        facts: *mut [u64; LEVELS * FACTS],
    ) -> u8;

    /// A run's number and facts, and at an end the number of bytes written to the trail.
    fn leveretplate_run_with_trail(
        sizes: *const u8, sizes_length: usize,
        divisions: *const u16, divisions_length: usize,
        start: *const u16, start_length: usize,
        labels: *const u8, labels_length: usize,
        answer: *mut u16, answer_length: usize,
        budget: u64,
        trail: *mut u8, trail_length: usize,
        facts: *mut [u64; FACTS],
        bytes: *mut u64,
    ) -> u8;

    /// 0 and the place, or the refusal's number. The place is its number of points, T and U.
    fn leveretplate_read_trail(
        sizes: *const u8, sizes_length: usize,
        divisions: *const u16, divisions_length: usize,
        start: *const u16, start_length: usize,
        trail: *const u8, trail_length: usize,
        record: u64,
        points: *mut [u16; NUMBERS],
        place: *mut [u64; 4],
    ) -> u8;

    /// The length of the sheet.
    fn leveretplate_sheet(slip: *const u8, slip_length: usize, sheet: *mut Sheet) -> usize;

    /// 0 and the new count of sheets, or the refusal's number.
    fn leveretplate_file(list: *mut u16, list_length: usize, count: usize, named: usize, filed: *mut usize) -> u8;

    /// 0 and the current sheet, or the refusal's number.
    fn leveretplate_current(list: *const u16, list_length: usize, count: usize, sheet: usize, last: *mut usize) -> u8;
}

const FACTS: usize = 5;
const LEVELS: usize = 8;
/// The numbers of a place's points, 16 of each of 16.
const NUMBERS: usize = 256;

/// What the facts and the count hold before a call.
const OLD: u64 = 0x5eed_5eed_5eed_5eed;

/// The value, which a refusal leaves as it was.
fn answered(number: u8, value: u64) -> Result<usize, u64> {
    if number == 0 {
        return Ok(value as usize);
    }
    assert_eq!(value, OLD, "a refusal changes the value");
    Err(number.into())
}

/// What a run's number and facts say.
fn outcome(number: u8, facts: [u64; FACTS]) -> Outcome {
    let [places, second, kind, block, vertices] = facts;
    let written = match number {
        0 => FACTS,
        9 => 1,
        16 => 2,
        _ => 0,
    };
    assert!(facts[written..].iter().all(|&fact| fact == OLD), "a fact is changed that number {number} leaves");
    match number {
        0 => {
            let kind = if kind == 0 { Kind::Place } else { Kind::Facet };
            Outcome::Ended(End {
                places,
                labels_read: second,
                kind,
                block: block as usize,
                vertices: vertices as usize,
            })
        }
        9 => Outcome::Spent(places),
        16 => Outcome::Unknown { places, position: second as usize },
        number => Outcome::Refused(number.into()),
    }
}

pub struct Proved;

impl Implementation for Proved {
    fn name(&self) -> &'static str {
        "proved"
    }

    fn fits(&self, _: &Grid) -> bool {
        true
    }

    fn run(&self, call: &RunCall, answer: &mut [u16]) -> Outcome {
        let mut facts = [OLD; FACTS];
        // Safety: each pointer comes with the length of its slice, and only the answer and the facts are written to.
        #[rustfmt::skip]
        let number = unsafe {
            leveretplate_run(
                call.sizes.as_ptr(), call.sizes.len(),
                call.divisions.as_ptr(), call.divisions.len(),
                call.start.as_ptr(), call.start.len(),
                call.labels.as_ptr(), call.labels.len(),
                answer.as_mut_ptr(), answer.len(),
                call.budget,
                &mut facts,
            )
        };
        outcome(number, facts)
    }

    fn near(&self, call: &NearCall, answer: &mut [u16], list: &mut [u16]) -> Near {
        let (mut facts, mut near) = ([OLD; FACTS], [OLD; 2]);
        let run = &call.run;
        // Safety: each pointer comes with the length of its slice, and only the answer, the list, the facts and the two
        // numbers are written to.
        #[rustfmt::skip]
        let number = unsafe {
            leveretplate_nearest(
                run.sizes.as_ptr(), run.sizes.len(),
                run.divisions.as_ptr(), run.divisions.len(),
                run.start.as_ptr(), run.start.len(),
                run.labels.as_ptr(), run.labels.len(),
                answer.as_mut_ptr(), answer.len(),
                run.budget,
                call.w.as_ptr(), call.w.len(),
                call.distance,
                list.as_mut_ptr(), list.len(),
                &mut facts,
                &mut near,
            )
        };
        assert!(number == 0 || near == [OLD; 2], "a refusal reports a vertex");
        let nearest = (number == 0).then_some((near[0] as usize, near[1] as usize));
        Near { run: outcome(number, facts), nearest }
    }

    fn write(&self, call: &TrailCall, answer: &mut [u16], trail: &mut [u8]) -> Written {
        let (mut facts, mut bytes) = ([OLD; FACTS], OLD);
        let run = &call.run;
        // Safety: each pointer comes with the length of its slice, and only the answer, the trail, the facts and the
        // count are written to.
        #[rustfmt::skip]
        let number = unsafe {
            leveretplate_run_with_trail(
                run.sizes.as_ptr(), run.sizes.len(),
                run.divisions.as_ptr(), run.divisions.len(),
                run.start.as_ptr(), run.start.len(),
                run.labels.as_ptr(), run.labels.len(),
                answer.as_mut_ptr(), answer.len(),
                run.budget,
                trail.as_mut_ptr(), trail.len(),
                &mut facts,
                &mut bytes,
            )
        };
        Written { run: outcome(number, facts), bytes: answered(number, bytes).ok() }
    }

    fn read(&self, call: &ReadCall) -> Result<Rebuilt, u64> {
        let (mut points, mut place) = ([u16::MAX; NUMBERS], [OLD; 4]);
        // Safety: each pointer comes with the length of its slice, and only the points and the place are written to.
        #[rustfmt::skip]
        let number = unsafe {
            leveretplate_read_trail(
                call.sizes.as_ptr(), call.sizes.len(),
                call.divisions.as_ptr(), call.divisions.len(),
                call.start.as_ptr(), call.start.len(),
                call.trail.as_ptr(), call.trail.len(),
                call.record,
                &mut points,
                &mut place,
            )
        };
        if number != 0 {
            assert!(points == [u16::MAX; NUMBERS] && place == [OLD; 4], "a refusal changes a buffer");
            return Err(number.into());
        }
        let (m, [count, t, u, labels_read]) = (call.start.len(), place);
        let (numbers, behind) = points.split_at(count as usize * m);
        assert!(behind.iter().all(|&number| number == u16::MAX), "a number is changed behind the points");
        Ok(Rebuilt { points: numbers.chunks(m).map(<[u16]>::to_vec).collect(), t: t as u16, u: u as u16, labels_read })
    }

    fn label(&self, call: &LabelCall, labels: &mut [u8]) -> Result<usize, u64> {
        let mut count = OLD;
        // Safety: each pointer comes with the length of its slice, and only the labels and the count are written to.
        #[rustfmt::skip]
        let number = unsafe {
            leveretplate_label(
                call.sizes.as_ptr(), call.sizes.len(),
                call.divisions.as_ptr(), call.divisions.len(),
                call.losses.as_ptr(), call.losses.len(),
                labels.as_mut_ptr(), labels.len(),
                &mut count,
            )
        };
        answered(number, count)
    }

    fn check(&self, call: &CheckCall) -> Verdict {
        // Safety: each pointer comes with the length of its slice, and nothing is written to.
        #[rustfmt::skip]
        let number = unsafe {
            leveretplate_check(
                call.sizes.as_ptr(), call.sizes.len(),
                call.divisions.as_ptr(), call.divisions.len(),
                call.labels.as_ptr(), call.labels.len(),
                call.points.as_ptr(), call.points.len(),
            )
        };
        match number {
            0 => Verdict::No,
            number if number < 256 => Verdict::Refused(number.into()),
            number => Verdict::Yes(number as usize / 256),
        }
    }

    fn boundary(&self, call: &BoundaryCall, labels: &mut [u8]) -> Result<usize, u64> {
        let mut count = OLD;
        // Safety: each pointer comes with the length of its slice, and only the labels and the count are written to.
        #[rustfmt::skip]
        let number = unsafe {
            leveretplate_boundary(
                call.sizes.as_ptr(), call.sizes.len(),
                call.divisions.as_ptr(), call.divisions.len(),
                call.labels.as_ptr(), call.labels.len(),
                labels.as_mut_ptr(), labels.len(),
                &mut count,
            )
        };
        answered(number, count)
    }

    fn refine(&self, call: &RefineCall, labels: &mut [u8], answer: &mut [u16]) -> Result<Vec<End>, u64> {
        let mut facts = [OLD; LEVELS * FACTS];
        // Safety: each pointer comes with the length of its slice, and only labels, answer and facts are written to.
        #[rustfmt::skip]
        let number = unsafe {
            leveretplate_refine(
                call.sizes.as_ptr(), call.sizes.len(),
                call.divisions.as_ptr(), call.divisions.len(),
                call.start.as_ptr(), call.start.len(),
                call.losses.as_ptr(), call.losses.len(),
                call.factor,
                call.levels,
                labels.as_mut_ptr(), labels.len(),
                answer.as_mut_ptr(), answer.len(),
                &mut facts,
            )
        };
        let levels = if number == 0 { call.levels } else { 0 };
        assert!(facts[levels * FACTS..].iter().all(|&fact| fact == OLD), "a fact is changed behind the levels");
        if number != 0 {
            return Err(number.into());
        }
        let end = |facts: &[u64]| End {
            places: facts[0],
            labels_read: facts[1],
            kind: if facts[2] == 0 { Kind::Place } else { Kind::Facet },
            block: facts[3] as usize,
            vertices: facts[4] as usize,
        };
        Ok(facts[..levels * FACTS].chunks(FACTS).map(end).collect())
    }

    fn sheet(&self, slip: &[u8], sheet: &mut Sheet) -> usize {
        // Safety: the pointer comes with the length of its slice, and only the sheet is written to.
        unsafe { leveretplate_sheet(slip.as_ptr(), slip.len(), sheet) }
    }

    fn file(&self, list: &mut [u16], count: usize, named: usize) -> Result<usize, u64> {
        let mut filed = OLD as usize;
        // Safety: the pointer comes with the length of its slice, and only the list and the count are written to.
        let number = unsafe { leveretplate_file(list.as_mut_ptr(), list.len(), count, named, &mut filed) };
        answered(number, filed as u64)
    }

    fn current(&self, list: &[u16], count: usize, sheet: usize) -> Result<usize, u64> {
        let mut last = OLD as usize;
        // Safety: the pointer comes with the length of its slice, and only the sheet is written to.
        let number = unsafe { leveretplate_current(list.as_ptr(), list.len(), count, sheet, &mut last) };
        answered(number, last as u64)
    }
}
