//! Grids for which questions 1 to 4 are answered yes.

pub const MOST_BLOCKS: usize = 6;
pub const MOST_INDICES: usize = 16;
pub const MOST_POINTS: usize = 60_000;
/// Of a loss table: 3 3 3 3 2 2 in any order.
pub const MOST_LOSSES: usize = 1_944;

#[derive(Clone, Debug, PartialEq, Eq)]
pub struct Grid {
    pub blocks: usize,
    pub sizes: [usize; MOST_BLOCKS],
    pub divisions: [u16; MOST_BLOCKS],
    /// The number of indices.
    pub m: usize,
    /// The number of grid points.
    pub points: usize,
}

impl Grid {
    /// Asks questions 1 to 4 and answers the number of the first that is answered no.
    pub fn new(sizes: &[u8], divisions: &[u16]) -> Result<Grid, u64> {
        if sizes.is_empty() || sizes.len() > MOST_BLOCKS {
            return Err(1);
        }
        let m = sizes.iter().map(|&size| size as usize).sum();
        if sizes.iter().any(|&size| size < 2) || m > MOST_INDICES {
            return Err(2);
        }
        if divisions.len() != sizes.len() || divisions.contains(&0) {
            return Err(3);
        }
        let mut grid = Grid { blocks: sizes.len(), sizes: [0; MOST_BLOCKS], divisions: [0; MOST_BLOCKS], m, points: 1 };
        for (j, (&size, &division)) in sizes.iter().zip(divisions).enumerate() {
            grid.sizes[j] = size as usize;
            grid.divisions[j] = division;
            let points = points_of_block(size as usize, division as usize).ok_or(4u64)?;
            grid.points *= points;
            if grid.points > MOST_POINTS {
                return Err(4);
            }
        }
        Ok(grid)
    }

    /// The number of dimensions.
    pub fn n(&self) -> usize {
        self.m - self.blocks
    }

    /// The length of a loss table: N times the product of the sizes.
    pub fn losses(&self) -> usize {
        self.blocks * self.sizes[..self.blocks].iter().product::<usize>()
    }

    /// The indices of each block, counted from 0.
    pub fn ranges(&self) -> impl Iterator<Item = std::ops::Range<usize>> + '_ {
        let mut first = 0;
        self.sizes[..self.blocks].iter().map(move |&size| {
            first += size;
            first - size..first
        })
    }

    /// P times the sum 1 + m + m(m - 1) + ..., whose last term has n factors. At most 16 indices keep it below 2 to the
    /// 62.
    pub fn bound(&self) -> u64 {
        let (mut sum, mut term) = (1u64, 1u64);
        for factor in 0..self.n() {
            term *= (self.m - factor) as u64;
            sum += term;
        }
        self.points as u64 * sum
    }

    /// Question 5: m numbers, each block adding up to its division.
    pub fn has_point(&self, point: &[u16]) -> bool {
        point.len() == self.m
            && self.ranges().zip(self.divisions).all(|(range, division)| {
                point[range].iter().map(|&number| number as u32).sum::<u32>() == division as u32
            })
    }

    /// The start of a slip without one: "each block has d_j at its first index".
    pub fn first_corner(&self) -> [u16; MOST_INDICES] {
        let mut point = [0; MOST_INDICES];
        for (range, division) in self.ranges().zip(self.divisions) {
            point[range.start] = division;
        }
        point
    }

    /// All grid points in rising lexicographic order.
    pub fn all_points(&self) -> Vec<[u16; MOST_INDICES]> {
        let mut all = vec![[0u16; MOST_INDICES]];
        for (range, &division) in self.ranges().zip(&self.divisions) {
            let mut longer = Vec::new();
            for point in all {
                fill(point, range.clone(), division, &mut longer);
            }
            all = longer;
        }
        all
    }
}

/// Every way to spread `left` over the indices of `range`, in rising lexicographic order.
fn fill(mut point: [u16; MOST_INDICES], range: std::ops::Range<usize>, left: u16, all: &mut Vec<[u16; MOST_INDICES]>) {
    if range.len() == 1 {
        point[range.start] = left;
        all.push(point);
        return;
    }
    for number in 0..=left {
        point[range.start] = number;
        fill(point, range.start + 1..range.end, left - number, all);
    }
}

/// "d_j + n_j choose n_j", or none if it is more than 60,000. The partial binomials only rise, so stopping early is
/// safe.
fn points_of_block(size: usize, division: usize) -> Option<usize> {
    let mut count = 1;
    for taken in 1..size {
        count = count * (division + taken) / taken;
        if count > MOST_POINTS {
            return None;
        }
    }
    Some(count)
}
