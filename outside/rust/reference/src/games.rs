//! The three games of the paper's appendix, and the labels of any game.

use crate::grid::{Grid, MOST_INDICES};
use crate::questions;

/// A loss table goes player by player, then by own strategy, then by the opponents' strategies in lexicographic order.
pub struct Game {
    pub sizes: &'static [u8],
    pub losses: &'static [u16],
}

/// Game 1 is the first.
pub const GAMES: [Game; 3] = [
    Game {
        sizes: &[2, 2, 2],
        losses: &[
            1, 2, 8, 5, //
            8, 8, 2, 2, //
            4, 2, 2, 1, //
            2, 6, 1, 3, //
            4, 1, 4, 2, //
            8, 8, 2, 1,
        ],
    },
    Game {
        sizes: &[3, 3, 3],
        losses: &[
            2, 3, 4, 2, 3, 3, 4, 1, 5, //
            1, 1, 4, 3, 4, 1, 6, 8, 2, //
            4, 7, 2, 4, 5, 5, 3, 6, 4, //
            5, 6, 7, 4, 8, 9, 3, 5, 1, //
            1, 1, 3, 3, 2, 1, 2, 2, 4, //
            2, 3, 6, 5, 3, 6, 7, 5, 8, //
            1, 3, 5, 1, 6, 2, 1, 2, 4, //
            2, 6, 5, 3, 3, 7, 8, 5, 5, //
            5, 2, 2, 4, 6, 5, 8, 1, 3,
        ],
    },
    Game {
        sizes: &[2, 2, 2, 2],
        losses: &[
            3, 3, 4, 2, 3, 3, 4, 1, //
            4, 1, 4, 3, 1, 1, 6, 8, //
            4, 6, 2, 4, 5, 3, 3, 6, //
            5, 2, 7, 4, 8, 6, 3, 5, //
            1, 6, 3, 3, 3, 3, 3, 2, //
            2, 2, 6, 5, 4, 6, 1, 5, //
            6, 3, 5, 1, 3, 2, 3, 2, //
            2, 6, 5, 3, 4, 7, 1, 5,
        ],
    },
];

/// Fills the label buffer, or answers the number of the first question answered no.
pub fn label(sizes: &[u8], divisions: &[u16], losses: &[u16], labels: &mut [u8]) -> Result<usize, u64> {
    let grid = questions::of_labelling(sizes, divisions, losses, labels.len())?;
    fill(&grid, losses, labels);
    Ok(grid.points)
}

/// The labels of all grid points. The losses are summed over one opponent's block after the other, outermost first, so
/// what is summed over the outer blocks serves all points that agree there. Products stay below 1,000 times 60,000.
pub fn fill(grid: &Grid, losses: &[u16], labels: &mut [u8]) {
    let mut sums: Vec<i64> = losses.iter().map(|&loss| loss as i64).collect();
    let share = sums.len() / grid.blocks;
    let mut begins: Vec<usize> = (0..grid.blocks).map(|player| player * share).collect();
    let mut lengths = vec![share; grid.blocks];
    let mut levels = Vec::new();
    for j in 0..grid.blocks {
        let mut parts = Vec::new();
        for player in (0..grid.blocks).filter(|&player| player != j) {
            let (from, length, to) = (begins[player], lengths[player], sums.len());
            lengths[player] = length / grid.sizes[j];
            begins[player] = to;
            sums.resize(to + lengths[player], 0);
            parts.push(Part { from, length, to, rest: lengths[player] / grid.sizes[player] });
        }
        levels.push(Level { rows: rows(grid.sizes[j], grid.divisions[j]), size: grid.sizes[j], parts });
    }
    let mut labelling = Labelling { grid, begins, sums, labels: labels.iter_mut(), point: [0; MOST_INDICES] };
    labelling.level(&levels, 0);
}

/// What one block adds to the sums.
struct Level {
    /// The block's coordinates in rising lexicographic order, one row after the other.
    rows: Vec<i64>,
    size: usize,
    parts: Vec<Part>,
}

/// The losses of another player than the block's own: for each strategy of that player, the block's strategies times
/// `rest` numbers.
struct Part {
    from: usize,
    length: usize,
    to: usize,
    rest: usize,
}

fn rows(size: usize, division: u16) -> Vec<i64> {
    let grid =
        Grid { blocks: 1, sizes: [size, 0, 0, 0, 0, 0], divisions: [division, 0, 0, 0, 0, 0], m: size, points: 0 };
    grid.all_points()
        .iter()
        .flat_map(|point| point[..size].iter().map(|&number| number as i64).collect::<Vec<_>>())
        .collect()
}

struct Labelling<'a> {
    grid: &'a Grid,
    /// Where the sums over all opponents begin, for each player.
    begins: Vec<usize>,
    /// The losses and behind them the sums of each level.
    sums: Vec<i64>,
    labels: std::slice::IterMut<'a, u8>,
    point: [i64; MOST_INDICES],
}

impl Labelling<'_> {
    /// Goes through the points of the first level's block, whose indices begin at `first`, and of those behind it.
    fn level(&mut self, levels: &[Level], first: usize) {
        let (level, behind) = levels.split_first().expect("a block is left");
        for row in level.rows.chunks_exact(level.size) {
            self.point[first..first + level.size].copy_from_slice(row);
            for part in &level.parts {
                part.sum_over(row, &mut self.sums);
            }
            if !behind.is_empty() {
                self.level(behind, first + level.size);
            } else if let Some(label) = self.labels.next() {
                *label = first_largest(self.grid, &self.begins, &self.sums, &self.point);
            }
        }
    }
}

/// The first index h for which p_j - q_h is largest, both times the product of all divisions. In a block that is the
/// first with the smallest q_h.
fn first_largest(grid: &Grid, begins: &[usize], sums: &[i64], point: &[i64; MOST_INDICES]) -> u8 {
    let (mut label, mut largest, mut first) = (0, i64::MIN, 0);
    for (j, &begin) in begins.iter().enumerate() {
        let size = grid.sizes[j];
        let (mut expected, mut least, mut at) = (0, i64::MAX, 0);
        for (h, (&loss, &number)) in sums[begin..begin + size].iter().zip(&point[first..]).enumerate() {
            expected += number * loss;
            if loss < least {
                (least, at) = (loss, h);
            }
        }
        let difference = expected - grid.divisions[j] as i64 * least;
        if difference > largest {
            (label, largest) = (first + at + 1, difference);
        }
        first += size;
    }
    label as u8
}

impl Part {
    /// Sums over the block's strategies, each times its coordinate.
    fn sum_over(&self, row: &[i64], sums: &mut [i64]) {
        let (from, to) = sums.split_at_mut(self.to);
        let from = &from[self.from..self.from + self.length];
        if self.rest == 1 {
            for (own, sum) in from.chunks_exact(row.len()).zip(to) {
                *sum = own.iter().zip(row).map(|(loss, number)| loss * number).sum();
            }
            return;
        }
        for (own, sums) in from.chunks_exact(row.len() * self.rest).zip(to.chunks_exact_mut(self.rest)) {
            sums.fill(0);
            for (losses, number) in own.chunks_exact(self.rest).zip(row) {
                sums.iter_mut().zip(losses).for_each(|(sum, loss)| *sum += loss * number);
            }
        }
    }
}

/// The same labels by the rule's own words: for each point, p_j and q_h as sums over all strategy vectors.
pub fn fill_by_rule(grid: &Grid, losses: &[u16], labels: &mut [u8]) {
    for (label, point) in labels.iter_mut().zip(grid.all_points()) {
        *label = label_by_rule(grid, losses, &point);
    }
}

fn label_by_rule(grid: &Grid, losses: &[u16], point: &[u16; MOST_INDICES]) -> u8 {
    let ranges: Vec<_> = grid.ranges().collect();
    let vectors: usize = ranges.iter().map(|range| range.len()).product();
    let (mut expected, mut replaced) = (vec![0i64; grid.blocks], vec![0i64; grid.m]);
    for player in 0..grid.blocks {
        for vector in 0..vectors {
            // The vector's digits are the own strategy first and then the opponents' in order.
            let mut left = vector;
            let mut chosen = vec![0; grid.blocks];
            for j in (0..grid.blocks).rev().filter(|&j| j != player) {
                chosen[j] = ranges[j].start + left % ranges[j].len();
                left /= ranges[j].len();
            }
            chosen[player] = ranges[player].start + left;
            let loss = losses[player * vectors + vector] as i64;
            let others: i64 = (0..grid.blocks).filter(|&j| j != player).map(|j| point[chosen[j]] as i64).product();
            expected[player] += loss * others * point[chosen[player]] as i64;
            replaced[chosen[player]] += loss * others * grid.divisions[player] as i64;
        }
    }
    let differences: Vec<i64> = (0..grid.blocks)
        .flat_map(|j| ranges[j].clone().map(move |h| (j, h)))
        .map(|(j, h)| expected[j] - replaced[h])
        .collect();
    let largest = *differences.iter().max().expect("a grid has indices");
    differences.iter().position(|&difference| difference == largest).expect("the largest is there") as u8 + 1
}
