//! Checking the end simplices of other programs, twice: by search over the simplices of the Q triangulation, and by
//! coefficient lists.

use crate::grid::{Grid, MOST_INDICES};

/// What the checker says: yes with a block, counted from 1, or no, or the number of a refusal.
#[derive(Clone, Copy, Debug, PartialEq, Eq)]
pub enum Verdict {
    Refused(u64),
    Yes(usize),
    No,
}

type Point = [u16; MOST_INDICES];

/// Questions 1 to 4, 6, 7 and 19; the points come back apart.
fn questions(sizes: &[u8], divisions: &[u16], labels: &[u8], points: &[u16]) -> Result<(Grid, Vec<Point>), u64> {
    let grid = Grid::new(sizes, divisions)?;
    if labels.len() != grid.points {
        return Err(6);
    }
    if labels.iter().any(|&label| label as usize > grid.m) {
        return Err(7);
    }
    if points.is_empty() || points.len() % grid.m != 0 || points.len() > (grid.n() + 1) * grid.m {
        return Err(19);
    }
    let mut listed = Vec::new();
    for point in points.chunks_exact(grid.m) {
        if !grid.has_point(point) {
            return Err(19);
        }
        let mut numbers = [0; MOST_INDICES];
        numbers[..grid.m].copy_from_slice(point);
        listed.push(numbers);
    }
    Ok((grid, listed))
}

fn judge(
    sizes: &[u8],
    divisions: &[u16],
    labels: &[u8],
    points: &[u16],
    in_one: fn(&Grid, &[Point]) -> bool,
) -> Verdict {
    match questions(sizes, divisions, labels, points) {
        Err(number) => Verdict::Refused(number),
        Ok((grid, listed)) if in_one(&grid, &listed) => {
            first_complete(&grid, labels, &listed).map_or(Verdict::No, Verdict::Yes)
        }
        Ok(_) => Verdict::No,
    }
}

/// By the request's sentences.
pub fn by_search(sizes: &[u8], divisions: &[u16], labels: &[u8], points: &[u16]) -> Verdict {
    judge(sizes, divisions, labels, points, |grid, listed| distinct(listed) && Search::new(grid, listed).finds())
}

/// By coefficient lists: with one of the points as the start they are 0s and 1s, and put in order of size each lies in
/// the next.
pub fn by_lists(sizes: &[u8], divisions: &[u16], labels: &[u8], points: &[u16]) -> Verdict {
    judge(sizes, divisions, labels, points, |grid, listed| listed.iter().any(|start| is_chain(grid, start, listed)))
}

fn is_chain(grid: &Grid, start: &Point, listed: &[Point]) -> bool {
    let sets: Option<Vec<u16>> = listed.iter().map(|point| set_of(grid, start, point)).collect();
    let Some(mut sets) = sets else { return false };
    sets.sort_by_key(|set| set.count_ones());
    sets.windows(2).all(|pair| pair[0] & !pair[1] == 0 && pair[0] != pair[1])
}

/// The indices with coefficient 1, if none is larger. In each block c_(h+1) is c_h + v_h - y_h, and the least is 0.
fn set_of(grid: &Grid, start: &Point, point: &Point) -> Option<u16> {
    let mut set = 0;
    for range in grid.ranges() {
        let mut list = [0i32; MOST_INDICES];
        for h in range.start + 1..range.end {
            list[h] = list[h - 1] + start[h - 1] as i32 - point[h - 1] as i32;
        }
        let block = &list[range.clone()];
        let (least, most) = (block.iter().min()?, block.iter().max()?);
        if most - least > 1 {
            return None;
        }
        set |= range.filter(|&h| list[h] > *least).map(|h| 1 << h).sum::<u16>();
    }
    Some(set)
}

/// Whether the search over this grid's simplices ends in reasonable time: about as many steps as simplices.
pub fn fits(grid: &Grid) -> bool {
    let mut orders = grid.points;
    for taken in 0..grid.n() {
        orders = orders.saturating_mul(grid.m - taken);
    }
    orders <= 2_000_000
}

fn distinct(points: &[Point]) -> bool {
    points.iter().enumerate().all(|(at, point)| !points[..at].contains(point))
}

/// Definition 2.2: the first block, counted from 1, each of whose indices is a label of one of the points or 0 at all
/// of them.
fn first_complete(grid: &Grid, labels: &[u8], points: &[Point]) -> Option<usize> {
    let all = grid.all_points();
    let named: Vec<u8> = points.iter().map(|point| labels[all.binary_search(point).expect("a grid point")]).collect();
    let covered = |h: usize| named.contains(&(h as u8 + 1)) || points.iter().all(|point| point[h] == 0);
    grid.ranges().position(|mut range| range.all(covered)).map(|block| block + 1)
}

/// "a first point and an order of all indices but one in each block; each next point adds 1 at the next index and takes
/// 1 at the one before it in the block, and all n + 1 points are on the grid"
struct Search<'a> {
    grid: &'a Grid,
    listed: &'a [Point],
    before: [usize; MOST_INDICES],
    block: [usize; MOST_INDICES],
}

impl Search<'_> {
    fn new<'a>(grid: &'a Grid, listed: &'a [Point]) -> Search<'a> {
        let (mut before, mut block) = ([0; MOST_INDICES], [0; MOST_INDICES]);
        for (number, range) in grid.ranges().enumerate() {
            for h in range.clone() {
                before[h] = if h == range.start { range.end - 1 } else { h - 1 };
                block[h] = number;
            }
        }
        Search { grid, listed, before, block }
    }

    fn finds(&self) -> bool {
        let most: Vec<usize> = self.grid.ranges().map(|range| range.len() - 1).collect();
        self.grid.all_points().into_iter().any(|first| self.goes_on(first, 0, &mut most.clone(), self.met(&first)))
    }

    /// How many of the listed points this one is.
    fn met(&self, point: &Point) -> usize {
        self.listed.contains(point) as usize
    }

    /// `used` has the indices taken so far, `left` how many each block still gives, `met` the listed points met.
    fn goes_on(&self, point: Point, used: u16, left: &mut [usize], met: usize) -> bool {
        if left.iter().all(|&count| count == 0) {
            return met == self.listed.len();
        }
        (0..self.grid.m).any(|h| {
            let block = self.block[h];
            if used >> h & 1 == 1 || left[block] == 0 || point[self.before[h]] == 0 {
                return false;
            }
            let mut next = point;
            next[h] += 1;
            next[self.before[h]] -= 1;
            left[block] -= 1;
            let found = self.goes_on(next, used | 1 << h, left, met + self.met(&next));
            left[block] += 1;
            found
        })
    }
}
