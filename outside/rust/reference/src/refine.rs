//! Refinement runs: a game on finer and finer grids, each run from k times the first vertex of the end before it.

use crate::grid::Grid;
use crate::outcome::{End, Outcome};

/// What is lent besides the buffers.
pub struct Game<'a> {
    pub sizes: &'a [u8],
    pub divisions: &'a [u16],
    pub start: &'a [u16],
    pub losses: &'a [u16],
    pub factor: usize,
    pub levels: usize,
}

/// A labelling and a run, each behind its questions.
pub struct Method {
    pub fill: fn(&Grid, &[u16], &mut [u8]),
    #[allow(clippy::type_complexity)]
    pub run: fn(&[u8], &[u16], &[u16], &[u8], &mut [u16], u64) -> Outcome,
}

impl Game<'_> {
    /// Question 18, and 1 to 4 of each level in turn. A division that 16 bits do not hold is more than any accepted.
    pub fn grids(&self) -> Result<Vec<Grid>, u64> {
        if !(2..=10).contains(&self.factor) || !(1..=8).contains(&self.levels) {
            return Err(18);
        }
        let mut grids = Vec::new();
        for level in 0..self.levels {
            let power = (self.factor as u64).pow(level as u32);
            let finer = self.divisions.iter().map(|&division| u16::try_from(division as u64 * power));
            let finer = finer.collect::<Result<Vec<u16>, _>>().map_err(|_| 4u64)?;
            grids.push(Grid::new(self.sizes, &finer)?);
        }
        Ok(grids)
    }

    /// All questions, in order.
    fn questions(&self, labels: usize, answer: usize) -> Result<Vec<Grid>, u64> {
        let grids = self.grids()?;
        let (first, last) = (&grids[0], &grids[self.levels - 1]);
        if !first.has_point(self.start) {
            return Err(5);
        }
        if self.losses.len() != first.losses() {
            return Err(10);
        }
        if self.losses.iter().any(|&loss| !(1..=1000).contains(&loss)) {
            return Err(11);
        }
        if labels != last.points {
            return Err(12);
        }
        if answer < self.levels * (first.n() + 1) * first.m {
            return Err(8);
        }
        Ok(grids)
    }

    /// The end of each level, or the number of the first question answered no.
    pub fn refine(&self, method: &Method, labels: &mut [u8], answer: &mut [u16]) -> Result<Vec<End>, u64> {
        let mut ends = Vec::new();
        let mut start = self.start.to_vec();
        for (level, grid) in self.questions(labels.len(), answer.len())?.iter().enumerate() {
            let table = &mut labels[..grid.points];
            (method.fill)(grid, self.losses, table);
            let room = (grid.n() + 1) * grid.m;
            let vertices = &mut answer[level * room..][..room];
            let divisions = &grid.divisions[..grid.blocks];
            match (method.run)(self.sizes, divisions, &start, table, vertices, grid.bound()) {
                Outcome::Ended(end) => ends.push(end),
                other => panic!("level {level} does not end: {other:?}"),
            }
            start = vertices[..grid.m].iter().map(|&number| number.wrapping_mul(self.factor as u16)).collect();
        }
        Ok(ends)
    }
}
