//! Request 03's trail. It is written from the places of a path by set difference. It is read twice: by the fields of
//! each record, whose points are put to the test of a place, and by search over all sets that differ from a place by a
//! point in, out or both.

use crate::grid::{Grid, MOST_INDICES};
use crate::outcome::Outcome;
use crate::{paper, questions, small};

/// What the run answers, and after an end how many bytes the trail has.
#[derive(Clone, Copy, Debug, PartialEq, Eq)]
pub struct Written {
    pub run: Outcome,
    pub bytes: Option<usize>,
}

/// A place: the numbers of its points in rising order of coefficient sum, and T and U as masks, bit h for index h + 1.
#[derive(Clone, Debug, PartialEq, Eq)]
pub struct Rebuilt {
    pub points: Vec<Vec<u16>>,
    pub t: u16,
    pub u: u16,
    pub labels_read: u64,
}

/// Why a reader gives 17, in the order of the request's sentence.
#[derive(Clone, Copy, Debug, PartialEq, Eq)]
pub enum Why {
    NoSuchRecord,
    OtherBeginning,
    NoPoint,
    AlreadyThere,
    OffTheTable,
    NotThere,
    NoPlace,
    NoRule,
    BitSeven,
    OtherFields,
}

pub const WHY: [Why; 10] = [
    Why::NoSuchRecord,
    Why::OtherBeginning,
    Why::NoPoint,
    Why::AlreadyThere,
    Why::OffTheTable,
    Why::NotThere,
    Why::NoPlace,
    Why::NoRule,
    Why::BitSeven,
    Why::OtherFields,
];

type Point = [u16; MOST_INDICES];

/// A set of points by their positions, with its T and U.
#[derive(Clone, Debug, Default)]
pub struct Set {
    pub positions: Vec<usize>,
    pub t: u16,
    pub u: u16,
}

/// What comes in and goes out on the way from a set to another.
pub struct Change {
    pub points_in: Vec<usize>,
    pub points_out: Vec<usize>,
    /// The indices into T, out of T, into U and out of U.
    pub sets: [u16; 4],
}

impl Change {
    pub fn new(from: &Set, to: &Set) -> Change {
        let less = |a: &[usize], b: &[usize]| a.iter().copied().filter(|position| !b.contains(position)).collect();
        Change {
            points_in: less(&to.positions, &from.positions),
            points_out: less(&from.positions, &to.positions),
            sets: [to.t & !from.t, from.t & !to.t, to.u & !from.u, from.u & !to.u],
        }
    }

    /// "Rule 1 keeps T and U; 2 keeps T and U gains; 3 keeps T and U loses; 4 takes an index into T from outside U; 5
    /// takes it from U; 6 moves an index from T to U; 7 only drops it from T."
    pub fn rule(&self) -> Option<u8> {
        let [into_t, out_of_t, into_u, out_of_u] = self.sets;
        match self.sets.map(u16::count_ones) {
            [0, 0, 0, 0] => Some(1),
            [0, 0, 1, 0] => Some(2),
            [0, 0, 0, 1] => Some(3),
            [1, 0, 0, 0] => Some(4),
            [1, 0, 0, 1] if into_t == out_of_u => Some(5),
            [0, 1, 1, 0] if out_of_t == into_u => Some(6),
            [0, 1, 0, 0] => Some(7),
            _ => None,
        }
    }

    /// "a bit map byte first and then only the fields whose bit stands, in bit order"
    pub fn record(&self, rule: Option<u8>) -> Vec<u8> {
        let mut bytes = vec![0];
        let mut field = |bit: u8, value: &mut dyn Iterator<Item = u8>| {
            let long = bytes.len();
            bytes.extend(value);
            bytes[0] |= ((bytes.len() > long) as u8) << bit;
        };
        let position = |position: &usize| (*position as u16).to_le_bytes();
        field(0, &mut self.points_in.iter().flat_map(position));
        field(1, &mut self.points_out.iter().flat_map(position));
        for (bit, set) in self.sets.iter().enumerate() {
            field(bit as u8 + 2, &mut (0..MOST_INDICES as u8).filter(|&h| set >> h & 1 == 1).map(|h| h + 1));
        }
        field(6, &mut rule.into_iter());
        bytes
    }

    /// One point in, one out, or both, by one of the rules.
    fn is_move(&self) -> bool {
        let counts = (self.points_in.len(), self.points_out.len());
        matches!(counts, (0, 1) | (1, 0) | (1, 1)) && self.rule().is_some()
    }
}

/// "{v} has bit 0 only"
fn start_record(position: usize) -> Vec<u8> {
    Change { points_in: vec![position], points_out: Vec::new(), sets: [0; 4] }.record(None)
}

/// The records of places as they are passed.
#[derive(Default)]
pub struct Trail {
    pub bytes: Vec<u8>,
    /// Where each record begins.
    pub begins: Vec<usize>,
    last: Option<Set>,
}

impl Trail {
    pub fn pass(&mut self, set: Set) {
        self.begins.push(self.bytes.len());
        match &self.last {
            None => self.bytes.extend(start_record(set.positions[0])),
            Some(last) => {
                let change = Change::new(last, &set);
                assert!(change.is_move(), "a link is one rule");
                self.bytes.extend(change.record(change.rule()));
            }
        }
        self.last = Some(set);
    }
}

/// "17 when the trail buffer is shorter than the whole trail, asked after the run has ended and before anything is
/// written"
fn settle(run: Outcome, vertices: &[u16], m: usize, trail: Trail, answer: &mut [u16], to: &mut [u8]) -> Written {
    let Outcome::Ended(end) = run else { return Written { run, bytes: None } };
    let bytes = trail.bytes;
    if to.len() < bytes.len() {
        return Written { run: Outcome::Refused(17), bytes: None };
    }
    let numbers = end.vertices * m;
    answer[..numbers].copy_from_slice(&vertices[..numbers]);
    to[..bytes.len()].copy_from_slice(&bytes);
    Written { run, bytes: Some(bytes.len()) }
}

/// A run with the trail of the places that the paper's steps pass.
pub fn write_by_paper(
    sizes: &[u8],
    divisions: &[u16],
    start: &[u16],
    labels: &[u8],
    answer: &mut [u16],
    budget: u64,
    to: &mut [u8],
) -> Written {
    let grid = match questions::of_run(sizes, divisions, start, labels, answer.len()) {
        Ok(grid) => grid,
        Err(number) => return Written { run: Outcome::Refused(number), bytes: None },
    };
    let mut vertices = vec![0; answer.len()];
    let (run, trail) = trail_by_paper(&grid, start, labels, &mut vertices, budget);
    settle(run, &vertices, grid.m, trail, answer, to)
}

/// The trail of the places within the budget, also of a path that has not ended there.
pub fn trail_by_paper(grid: &Grid, start: &[u16], labels: &[u8], answer: &mut [u16], budget: u64) -> (Outcome, Trail) {
    let mut trail = Trail::default();
    let run = paper::follow_places(grid, start, labels, answer, budget, |set| trail.pass(set));
    (run, trail)
}

/// A run with the trail of the places of the definitions, each with T and U by theirs.
pub fn write_by_definitions(
    sizes: &[u8],
    divisions: &[u16],
    start: &[u16],
    labels: &[u8],
    answer: &mut [u16],
    budget: u64,
    to: &mut [u8],
) -> Written {
    let grid = match questions::of_run(sizes, divisions, start, labels, answer.len()) {
        Ok(grid) => grid,
        Err(number) => return Written { run: Outcome::Refused(number), bytes: None },
    };
    let (mut vertices, mut trail) = (vec![0; answer.len()], Trail::default());
    let problem = small::Problem::new(&grid, start);
    let run = problem.follow_past(labels, budget, &mut vertices, |place| trail.pass(problem.set(place)));
    settle(run, &vertices, grid.m, trail, answer, to)
}

/// "puts 1 to 5"
fn asked(sizes: &[u8], divisions: &[u16], start: &[u16]) -> Result<Grid, u64> {
    let grid = Grid::new(sizes, divisions)?;
    if grid.has_point(start) {
        Ok(grid)
    } else {
        Err(5)
    }
}

/// The place at a record by the fields of the records up to it, or the refusal's number.
pub fn read_by_fields(
    sizes: &[u8],
    divisions: &[u16],
    start: &[u16],
    trail: &[u8],
    record: u64,
) -> Result<Rebuilt, u64> {
    let grid = asked(sizes, divisions, start)?;
    let (shape, labels_read) = Reader { grid: &grid, start }.read(trail, record).map_err(|_| 17u64)?;
    let points = shape.points.iter().map(|point| point[..grid.m].to_vec()).collect();
    Ok(Rebuilt { points, t: shape.set.t, u: shape.set.u, labels_read })
}

/// The reason for a 17.
pub fn why(sizes: &[u8], divisions: &[u16], start: &[u16], trail: &[u8], record: u64) -> Option<Why> {
    let grid = asked(sizes, divisions, start).ok()?;
    Reader { grid: &grid, start }.read(trail, record).err()
}

/// How many ways there are to spread a number over indices.
fn spreads(number: usize, indices: usize) -> usize {
    match indices {
        0 => (number == 0) as usize,
        _ => (1..indices).fold(1, |count, taken| count * (number + taken) / taken),
    }
}

/// How many ways have a smaller number than `first` at the first of the indices.
fn spreads_before(number: usize, indices: usize, first: usize) -> usize {
    spreads(number, indices) - if first > number { 0 } else { spreads(number - first, indices) }
}

/// The point at a position, counted from 0 in lexicographic order.
fn point_at(grid: &Grid, position: usize) -> Point {
    let (mut point, mut behind, mut rest) = ([0; MOST_INDICES], grid.points, position);
    for (range, division) in grid.ranges().zip(grid.divisions) {
        behind /= spreads(division as usize, range.len());
        let (mut at, mut left) = (rest / behind, division as usize);
        rest %= behind;
        for h in range.start..range.end - 1 {
            let indices = range.end - h;
            let (mut low, mut high) = (0, left);
            while low < high {
                let middle = (low + high + 1) / 2;
                if spreads_before(left, indices, middle) <= at {
                    low = middle;
                } else {
                    high = middle - 1;
                }
            }
            at -= spreads_before(left, indices, low);
            left -= low;
            point[h] = low as u16;
        }
        point[range.end - 1] = left as u16;
    }
    point
}

fn position_of(grid: &Grid, point: &[u16]) -> usize {
    let mut position = 0;
    for (range, division) in grid.ranges().zip(grid.divisions) {
        let (mut at, mut left) = (0, division as usize);
        for h in range.clone() {
            at += spreads_before(left, range.end - h, point[h] as usize);
            left -= point[h] as usize;
        }
        position = position * spreads(division as usize, range.len()) + at;
    }
    position
}

/// A set of points that meets the first two conditions of a place, in rising order of coefficient sum.
struct Shape {
    set: Set,
    points: Vec<Point>,
}

struct Reader<'a> {
    grid: &'a Grid,
    start: &'a [u16],
}

/// The fields of a record, each as it stands there.
struct Fields {
    point_in: Option<usize>,
    point_out: Option<usize>,
    length: usize,
}

/// The fields that the map byte announces; none if the record is cut short.
fn fields(bytes: &[u8]) -> Option<Fields> {
    let map = *bytes.first()?;
    let mut length = 1;
    let mut position = |bit: u8| {
        (map >> bit & 1 == 1).then(|| {
            length += 2;
            bytes.get(length - 2..length).map(|pair| u16::from_le_bytes([pair[0], pair[1]]) as usize)
        })
    };
    let (point_in, point_out) = (position(0), position(1));
    length += (map & 0x7c).count_ones() as usize;
    let whole = point_in != Some(None) && point_out != Some(None) && length <= bytes.len();
    whole.then(|| Fields { point_in: point_in.flatten(), point_out: point_out.flatten(), length })
}

impl Reader<'_> {
    /// The place at a record, and the labels read up to it, by the records with a point that comes in.
    fn read(&self, trail: &[u8], record: u64) -> Result<(Shape, u64), Why> {
        if record == 0 || trail.is_empty() {
            return Err(Why::NoSuchRecord);
        }
        let first = position_of(self.grid, self.start);
        let begin = start_record(first);
        if !trail.starts_with(&begin) {
            return Err(if begin.starts_with(trail) { Why::NoSuchRecord } else { Why::OtherBeginning });
        }
        let mut rest = &trail[begin.len()..];
        let mut here = self.shape(vec![first]).expect("{v} is a place");
        let mut labels_read = 1;
        for _ in 1..record {
            let (next, length) = self.next(&here, rest)?;
            labels_read += (rest[0] & 1) as u64;
            rest = &rest[length..];
            here = next;
        }
        Ok((here, labels_read))
    }

    /// The place that the record at the front of the bytes leads to, and the record's length.
    fn next(&self, here: &Shape, bytes: &[u8]) -> Result<(Shape, usize), Why> {
        let &map = bytes.first().ok_or(Why::NoSuchRecord)?;
        if map >> 7 == 1 {
            return Err(Why::BitSeven);
        }
        let Fields { point_in, point_out, length } = fields(bytes).ok_or(Why::NoSuchRecord)?;
        if point_in.or(point_out).is_none() {
            return Err(Why::NoPoint);
        }
        let mut positions = here.set.positions.clone();
        if point_in.is_some_and(|position| position >= self.grid.points) {
            return Err(Why::OffTheTable);
        }
        if point_in.is_some_and(|position| positions.contains(&position)) {
            return Err(Why::AlreadyThere);
        }
        if point_out.is_some_and(|position| !positions.contains(&position)) {
            return Err(Why::NotThere);
        }
        positions.retain(|&position| Some(position) != point_out);
        positions.extend(point_in);
        let next = self.shape(positions).ok_or(Why::NoPlace)?;
        let change = Change::new(&here.set, &next.set);
        let rule = change.rule().ok_or(Why::NoRule)?;
        if bytes[..length] != change.record(Some(rule)) {
            return Err(Why::OtherFields);
        }
        Ok((next, length))
    }

    /// "whole numbers c, none negative, at least one zero in each block, with y_h = v_h + c_h - c_(h+1) for every h"
    fn coefficients(&self, point: &Point) -> [i32; MOST_INDICES] {
        let mut list = [0; MOST_INDICES];
        for range in self.grid.ranges() {
            for h in range.start + 1..range.end {
                list[h] = list[h - 1] + self.start[h - 1] as i32 - point[h - 1] as i32;
            }
            let least = *list[range.clone()].iter().min().expect("a block has indices");
            list[range].iter_mut().for_each(|c| *c -= least);
        }
        list
    }

    /// The points as a place with its T and U, if they meet the first two conditions.
    fn shape(&self, positions: Vec<usize>) -> Option<Shape> {
        let grid = self.grid;
        let mut points: Vec<(i32, usize, Point, u16)> = Vec::new();
        let mut u = ((1u32 << grid.m) - 1) as u16;
        for position in positions {
            let point = point_at(grid, position);
            let list = self.coefficients(&point);
            let mask = |test: &dyn Fn(usize) -> bool| (0..grid.m).filter(|&h| test(h)).map(|h| 1u16 << h).sum::<u16>();
            u &= mask(&|h| point[h] == 0);
            points.push((list.iter().sum(), position, point, mask(&|h| list[h] > 0)));
        }
        let t = points.iter().fold(0, |any, &(_, _, _, positive)| any | positive) & !u;
        points.sort_by_key(|&(sum, ..)| sum);
        let free = grid.ranges().all(|mut range| range.any(|h| (t | u) >> h & 1 == 0));
        if t.count_ones() as usize + 1 != points.len() || !free {
            return None;
        }
        let mut used = 0;
        for pair in points.windows(2) {
            used |= 1 << self.step(t, u, &pair[0].2, &pair[1].2)?;
        }
        let set = Set { positions: points.iter().map(|&(_, position, ..)| position).collect(), t, u };
        (used == t).then(|| Shape { set, points: points.iter().map(|&(_, _, point, _)| point).collect() })
    }

    /// The index of T by which a point goes to the next: it gains 1 there, and loses 1 at "the first index met going
    /// back from h that is not in U".
    fn step(&self, t: u16, u: u16, from: &Point, to: &Point) -> Option<usize> {
        let h = (0..self.grid.m).find(|&h| to[h] == from[h] + 1)?;
        let range = self.grid.ranges().find(|range| range.contains(&h))?;
        let back = (range.start..h).rev().chain((h..range.end).rev());
        let b = back.into_iter().find(|&k| u >> k & 1 == 0)?;
        let mut after = *from;
        after[h] += 1;
        after[b] = after[b].checked_sub(1)?;
        (after == *to && t >> h & 1 == 1).then_some(h)
    }
}

/// The place at a record by search: of all sets of points next to a place, that to which the record at the front of the
/// bytes leads.
pub fn read_by_search(
    sizes: &[u8],
    divisions: &[u16],
    start: &[u16],
    trail: &[u8],
    record: u64,
) -> Result<Rebuilt, u64> {
    let grid = asked(sizes, divisions, start)?;
    let problem = small::Problem::new(&grid, start);
    let mut here = problem.set(&[problem.start()]);
    let begin = start_record(problem.start());
    if record == 0 || !trail.starts_with(&begin) {
        return Err(17);
    }
    let mut rest = &trail[begin.len()..];
    let mut labels_read = 1;
    for _ in 1..record {
        let (next, record) = search(&problem, &here, rest).ok_or(17u64)?;
        rest = &rest[record.len()..];
        labels_read += next.positions.iter().any(|position| !here.positions.contains(position)) as u64;
        here = next;
    }
    let points = here.positions.iter().map(|&position| problem.numbers(position).to_vec()).collect();
    Ok(Rebuilt { points, t: here.t, u: here.u, labels_read })
}

fn search(problem: &small::Problem, here: &Set, bytes: &[u8]) -> Option<(Set, Vec<u8>)> {
    let mut found = Vec::new();
    problem.each_near(&here.positions, |set| {
        let next = problem.set(set);
        let change = Change::new(here, &next);
        let record = change.record(change.rule());
        if bytes.starts_with(&record) && change.is_move() && problem.is_shape(&next.positions) {
            found.push((next, record));
        }
    });
    assert!(found.len() <= 1, "a record tells its place");
    found.pop()
}

/// The sets that a place's moves lead to; where `otherwise`, those that leave a place as well but by no rule. For small
/// grids.
pub fn moves(problem: &small::Problem, here: &Set, otherwise: bool) -> Vec<Set> {
    let mut found = Vec::new();
    problem.each_near(&here.positions, |set| {
        let next = problem.set(set);
        if problem.is_shape(&next.positions) && Change::new(here, &next).rule().is_none() == otherwise {
            found.push(next);
        }
    });
    found
}
