//! Document 01's definitions by search over sets of grid points, for small grids.
//!
//! Nothing is pivoted: the links of a place are found by trying every set that shares all points but one with it, has
//! one point more or one point fewer, and testing the document's conditions on that set.

use crate::grid::{Grid, MOST_INDICES};
use crate::outcome::{End, Kind, Outcome};
use crate::{questions, trail};

/// A grid and start, with what the conditions ask of each grid point. Sets of indices are masks, bit h for index h + 1.
pub struct Problem {
    grid: Grid,
    points: Vec<Point>,
    start: usize,
    before: [usize; MOST_INDICES],
    block: [u16; MOST_INDICES],
}

struct Point {
    numbers: [u16; MOST_INDICES],
    /// The indices with coordinate 0.
    zero: u16,
    /// The indices with a positive coefficient.
    positive: u16,
    coefficient_sum: u32,
}

/// A set of grid points by their positions, in rising order of coefficient sum.
pub(crate) type Set = Vec<usize>;

#[derive(Clone, PartialEq, Eq, Debug)]
pub(crate) enum Way {
    Link(Set),
    End(Kind, usize, Set),
}

impl Problem {
    pub fn new(grid: &Grid, start: &[u16]) -> Problem {
        let mut before = [0; MOST_INDICES];
        let mut block = [0; MOST_INDICES];
        for range in grid.ranges() {
            for h in range.clone() {
                before[h] = if h == range.start { range.end - 1 } else { h - 1 };
                block[h] = range.clone().map(|k| 1 << k).sum();
            }
        }
        let all = grid.all_points();
        let start_at = all.iter().position(|numbers| numbers[..grid.m] == *start).expect("the start is a grid point");
        let points = all.iter().map(|numbers| Point::new(grid, start, numbers)).collect();
        Problem { grid: grid.clone(), points, start: start_at, before, block }
    }

    /// "the set of indices h with y_h = 0 at all of them"
    pub(crate) fn set_u(&self, set: &[usize]) -> u16 {
        set.iter().fold(self.all_indices(), |common, &y| common & self.points[y].zero)
    }

    /// "the set of indices not in U whose coefficient is positive at one of them at least"
    pub(crate) fn set_t(&self, set: &[usize]) -> u16 {
        set.iter().fold(0, |any, &y| any | self.points[y].positive) & !self.set_u(set)
    }

    fn all_indices(&self) -> u16 {
        (0..self.grid.m).map(|h| 1u16 << h).sum()
    }

    /// "the first index met going back from h that is not in U"
    fn taken(&self, u: u16, h: usize) -> usize {
        let mut b = self.before[h];
        while u >> b & 1 == 1 {
            b = self.before[b];
        }
        b
    }

    /// The index h of T by which y goes to z, if there is one.
    fn step(&self, t: u16, u: u16, y: usize, z: usize) -> Option<usize> {
        (0..self.grid.m).filter(|&h| t >> h & 1 == 1).find(|&h| {
            let b = self.taken(u, h);
            let mut numbers = self.points[y].numbers;
            numbers[h] = numbers[h].wrapping_add(1);
            numbers[b] = numbers[b].wrapping_sub(1);
            numbers == self.points[z].numbers
        })
    }

    /// The position of a grid point.
    pub(crate) fn position(&self, numbers: &[u16; MOST_INDICES]) -> Option<usize> {
        self.points.iter().position(|point| point.numbers == *numbers)
    }

    /// Whether the coefficient sums rise from each point to the next.
    pub(crate) fn rises(&self, set: &[usize]) -> bool {
        set.windows(2).all(|pair| self.points[pair[0]].coefficient_sum < self.points[pair[1]].coefficient_sum)
    }

    /// The set in rising order of coefficient sum.
    pub(crate) fn in_order(&self, mut set: Set) -> Set {
        set.sort_by_key(|&y| self.points[y].coefficient_sum);
        set
    }

    fn label_set(&self, labels: &[u8], set: &[usize]) -> u16 {
        set.iter().filter(|&&y| labels[y] != 0).fold(0, |any, &y| any | 1 << (labels[y] - 1))
    }

    pub(crate) fn is_place(&self, labels: &[u8], set: &[usize]) -> bool {
        self.set_t(set) & !self.label_set(labels, set) == 0 && self.is_shape(set)
    }

    /// The first two conditions of a place, which look at no label.
    pub fn is_shape(&self, set: &[usize]) -> bool {
        let (t, u) = (self.set_t(set), self.set_u(set));
        if t.count_ones() as usize + 1 != set.len() {
            return false;
        }
        if (0..self.grid.m).any(|h| self.block[h] & !(t | u) == 0) {
            return false;
        }
        let mut used = 0u16;
        for pair in set.windows(2) {
            match self.step(t, u, pair[0], pair[1]) {
                Some(h) => used |= 1 << h,
                None => return false,
            }
        }
        used == t
    }

    /// The position of the start.
    pub fn start(&self) -> usize {
        self.start
    }

    pub fn numbers(&self, position: usize) -> &[u16] {
        &self.points[position].numbers[..self.grid.m]
    }

    /// A set of points in rising order of coefficient sum, with its T and U.
    pub fn set(&self, positions: &[usize]) -> trail::Set {
        let positions = self.in_order(positions.to_vec());
        trail::Set { t: self.set_t(&positions), u: self.set_u(&positions), positions }
    }

    /// Every set with a point more, with one fewer that leaves some, or with one exchanged.
    pub fn each_near(&self, set: &[usize], mut take: impl FnMut(&[usize])) {
        let outside: Vec<usize> = (0..self.points.len()).filter(|z| !set.contains(z)).collect();
        let mut near = set.to_vec();
        for &z in &outside {
            near.push(z);
            take(&near);
            near.pop();
        }
        for gone in 0..set.len() {
            let mut near = set.to_vec();
            near.remove(gone);
            if !near.is_empty() {
                take(&near);
            }
            for &z in &outside {
                near.push(z);
                take(&near);
                near.pop();
            }
        }
    }

    /// The blocks, counted from 1, for which the set is complete.
    fn complete<'a>(&'a self, labels: &[u8], set: &[usize]) -> impl Iterator<Item = usize> + 'a {
        let have = self.label_set(labels, set) | self.set_u(set);
        self.grid
            .ranges()
            .enumerate()
            .filter(move |(_, range)| range.clone().all(|h| have >> h & 1 == 1))
            .map(|(j, _)| j + 1)
    }

    /// The links and ends of a place.
    pub(crate) fn ways(&self, labels: &[u8], place: &Set) -> Vec<Way> {
        let t = self.set_t(place);
        let mut ways: Vec<Way> =
            self.complete(labels, place).map(|j| Way::End(Kind::Place, j, place.clone())).collect();
        let outside = || (0..self.points.len()).filter(|z| !place.contains(z));
        for z in outside() {
            let mut larger = place.clone();
            larger.push(z);
            let larger = self.in_order(larger);
            if self.label_set(labels, place) == self.set_t(&larger) && self.is_place(labels, &larger) {
                ways.push(Way::Link(larger));
            }
        }
        for gone in 0..place.len() {
            let mut rest = place.clone();
            rest.remove(gone);
            let carried = self.label_set(labels, &rest);
            if rest.is_empty() || t & !carried != 0 {
                continue;
            }
            if carried == t {
                ways.extend(self.complete(labels, &rest).map(|j| Way::End(Kind::Facet, j, rest.clone())));
                if self.is_place(labels, &rest) {
                    ways.push(Way::Link(rest.clone()));
                }
            }
            for z in outside() {
                let mut other = rest.clone();
                other.push(z);
                let other = self.in_order(other);
                if self.set_t(&other) == t && self.is_place(labels, &other) {
                    ways.push(Way::Link(other));
                }
            }
        }
        ways
    }

    /// Follows the path; panics where document 01's "exactly one link or end" fails.
    pub fn follow(&self, labels: &[u8], budget: u64, answer: &mut [u16]) -> Outcome {
        self.follow_past(labels, budget, answer, |_| ())
    }

    /// The same, with each place as the positions of its points.
    pub fn follow_past(
        &self,
        labels: &[u8],
        budget: u64,
        answer: &mut [u16],
        mut passes: impl FnMut(&[usize]),
    ) -> Outcome {
        let mut here = vec![self.start];
        let mut come_from: Option<Set> = None;
        let mut labels_read = 0;
        for places in 1..=budget {
            passes(&here);
            labels_read += come_from.as_ref().map_or(true, |before| here.iter().any(|y| !before.contains(y))) as u64;
            if let Some(&position) = here.iter().find(|&&y| labels[y] == 0) {
                return Outcome::Unknown { places: places - 1, position };
            }
            let mut on = self.ways(labels, &here);
            on.retain(|way| come_from.as_ref().map_or(true, |place| *way != Way::Link(place.clone())));
            assert!(on.len() == 1, "{} ways on from {:?}", on.len(), here);
            match on.remove(0) {
                Way::Link(next) => come_from = Some(std::mem::replace(&mut here, next)),
                Way::End(kind, block, set) => {
                    for (vertex, &y) in set.iter().enumerate() {
                        let m = self.grid.m;
                        answer[vertex * m..(vertex + 1) * m].copy_from_slice(&self.points[y].numbers[..m]);
                    }
                    return Outcome::Ended(End { places, labels_read, kind, block, vertices: set.len() });
                }
            }
        }
        Outcome::Spent(budget)
    }
}

impl Point {
    fn new(grid: &Grid, start: &[u16], numbers: &[u16; MOST_INDICES]) -> Point {
        let coefficients = coefficient_list(grid, start, numbers);
        let mask = |test: &dyn Fn(usize) -> bool| (0..grid.m).filter(|&h| test(h)).map(|h| 1u16 << h).sum();
        Point {
            numbers: *numbers,
            zero: mask(&|h| numbers[h] == 0),
            positive: mask(&|h| coefficients[h] > 0),
            coefficient_sum: coefficients[..grid.m].iter().map(|&c| c as u32).sum(),
        }
    }
}

/// "whole numbers c, none negative, at least one zero in each block, with y_h = v_h + c_h - c_(h+1) for every h". In a
/// block one coefficient gives the others, and as two of them differ by at most the division, the first is among 0 to
/// the division.
fn coefficient_list(grid: &Grid, start: &[u16], point: &[u16; MOST_INDICES]) -> [i32; MOST_INDICES] {
    let mut list = [0; MOST_INDICES];
    for (range, &division) in grid.ranges().zip(&grid.divisions) {
        let fits = (0..=division as i32).filter(|&first| {
            let mut coefficient = first;
            for h in range.clone() {
                list[h] = coefficient;
                coefficient -= point[h] as i32 - start[h] as i32;
            }
            let block = &list[range.clone()];
            coefficient == first && block.iter().all(|&c| c >= 0) && block.contains(&0)
        });
        let fits: Vec<i32> = fits.collect();
        assert!(fits.len() == 1, "each grid point has one coefficient list");
        let mut coefficient = fits[0];
        for h in range {
            list[h] = coefficient;
            coefficient -= point[h] as i32 - start[h] as i32;
        }
    }
    list
}

/// A run by the definitions.
pub fn run(sizes: &[u8], divisions: &[u16], start: &[u16], labels: &[u8], answer: &mut [u16], budget: u64) -> Outcome {
    match questions::of_run(sizes, divisions, start, labels, answer.len()) {
        Ok(grid) => Problem::new(&grid, start).follow(labels, budget, answer),
        Err(number) => Outcome::Refused(number),
    }
}
