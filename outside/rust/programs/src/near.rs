//! The calls that report where the path came nearest to a grid point: the call, its inputs, and its lines in the stored
//! cases.

use crate::calls::{spaced, Call, RunCall};
use crate::inputs::{random_run, random_start, spoil, with_gaps, Take};
use crate::random::Random;
use reference::grid::Grid;
use reference::nearest::Around;
use reference::{Near, Outcome};
use std::fmt::{Display, Formatter, Result};

/// A run with a point, a distance and a list; `list` is the list's length.
#[derive(Clone, Debug, Default, PartialEq)]
pub struct NearCall {
    pub run: RunCall,
    pub w: Vec<u16>,
    pub distance: u64,
    pub list: usize,
}

impl Display for NearCall {
    fn fmt(&self, to: &mut Formatter) -> Result {
        let run = &self.run;
        writeln!(to, "call near\nsizes {}\nd {}", spaced(&run.sizes), spaced(&run.divisions))?;
        writeln!(to, "start {}\nlabels {}", spaced(&run.start), spaced(&run.labels))?;
        writeln!(to, "budget {}\nanswer {}", run.budget, run.answer)?;
        write!(to, "w {}\ndistance {}\nlist {}", spaced(&self.w), self.distance, self.list)
    }
}

/// One of the reference's two ways.
type Way = fn(&[u8], &[u16], &[u16], &[u8], &mut [u16], u64, Around) -> Near;

impl NearCall {
    pub fn by(&self, way: Way, answer: &mut [u16], list: &mut [u16]) -> Near {
        let NearCall { run, w, distance, .. } = self;
        way(
            &run.sizes,
            &run.divisions,
            &run.start,
            &run.labels,
            answer,
            run.budget,
            Around { w, distance: *distance, list },
        )
    }
}

/// How many numbers of the answer buffer and of the list a call writes.
pub fn written(call: &NearCall, near: &Near) -> (usize, usize) {
    match (near.run, near.nearest) {
        (Outcome::Ended(end), Some((_, listed))) => (end.vertices * call.run.start.len(), listed),
        _ => (0, 0),
    }
}

/// What stands behind a run's lines in a stored case: the nearest position, and the list.
pub fn lines(near: &Near, list: &[u16]) -> Vec<String> {
    let Some((position, listed)) = near.nearest else { return Vec::new() };
    let row = format!("list {}", spaced(&list[..listed]));
    vec![format!("nearest {position}"), format!("within {listed}"), row.trim_end().to_string()]
}

/// 2 N D, from which on every visited vertex is listed.
fn farthest(grid: &Grid) -> u64 {
    2 * grid.blocks as u64 * grid.divisions[..grid.blocks].iter().map(|&division| division as u64).product::<u64>()
}

/// A distance of 0, any up to the largest and one more, or one that 16 or 32 bits cut off.
fn random_distance(random: &mut Random, grid: &Grid) -> u64 {
    match random.below(8) {
        0 => 0,
        1 => u64::MAX,
        2 => 1 << 16,
        3 => 1 << 32,
        _ => random.below(farthest(grid) as usize + 2) as u64,
    }
}

fn random_near(random: &mut Random, limit: usize, gaps: bool) -> NearCall {
    let mut run = random_run(random, limit);
    if gaps {
        with_gaps(random, &mut run.labels);
    }
    let grid = Grid::new(&run.sizes, &run.divisions).expect("a grid");
    let w = if random.chance(8) { run.start.clone() } else { random_start(random, &grid) };
    let list = grid.points + random.below(2) * random.below(9);
    NearCall { distance: random_distance(random, &grid), w, list, run }
}

/// Random calls on grids of at most `limit` points, every fourth on a table with gaps.
pub fn random_nears(seed: u64, count: usize, limit: usize, take: Take) {
    let mut random = Random(seed);
    for number in 0..count {
        take(Call::Near(random_near(&mut random, limit, number % 4 == 0)));
    }
}

/// Calls with one to three faults, so that the order of the questions shows.
pub fn faulty_nears(seed: u64, count: usize, take: Take) {
    let mut random = Random(seed);
    for _ in 0..count {
        let mut near = random_near(&mut random, 40, false);
        for _ in 0..1 + random.below(3) {
            let at = random.below(near.w.len().max(1));
            match random.below(6) {
                0 => drop(near.w.pop()),
                1 => near.w.push(0),
                2 => near.w.iter_mut().skip(at).take(1).for_each(|number| *number = number.wrapping_sub(1)),
                3 => near.list = random.below(near.list.max(1)),
                _ => spoil(&mut random, &mut near.run),
            }
        }
        take(Call::Near(near));
    }
}
