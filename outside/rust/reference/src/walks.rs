//! Walks that are lent, shown and moved on, by document 01's definitions: a place is a set of points, and what comes
//! next is found among its links and ends. The structs are those that cross to C.

use crate::grid::{Grid, MOST_INDICES};
use crate::outcome::Kind;
use crate::questions::labels_in_range;
use crate::small::{Problem, Set, Way};

#[repr(C)]
#[derive(Clone, Copy, Debug, PartialEq, Eq)]
pub struct Place {
    pub first: [u16; MOST_INDICES],
    pub order: [u32; MOST_INDICES],
    pub count: u8,
}

pub const NONE: Place = Place { first: [0; MOST_INDICES], order: [0; MOST_INDICES], count: 0 };

#[repr(C)]
#[derive(Clone, Copy, Debug, PartialEq, Eq)]
pub struct Walk {
    pub places: u64,
    pub labels_read: u64,
    pub present: Place,
    pub before: Place,
    pub start: [u16; MOST_INDICES],
    pub divisions: [u16; 6],
    pub sizes: [u8; 6],
    pub blocks: u8,
    /// The labels of the present place's points, 0 behind.
    pub carried: [u8; MOST_INDICES],
}

#[repr(C)]
#[derive(Clone, Copy, Debug, PartialEq, Eq)]
pub struct Step {
    pub walk: Walk,
    pub vertices: u64,
    pub fields: [u32; 6],
    pub simplex: [u16; 256],
    pub number: u8,
    pub kind: u8,
    pub block: u8,
    pub rule: u8,
    pub map: u8,
}

/// Why a walk meets 20.
#[derive(Clone, Copy, Debug, PartialEq, Eq)]
pub enum Twenty {
    NoPlace,
    NotLinked,
    OnlyOne,
    Count,
    OtherLabels,
    LabelsRead,
}

/// What is refused, with the reason for 20.
#[derive(Clone, Copy, Debug, PartialEq, Eq)]
pub struct Refusal {
    pub number: u8,
    pub reason: Option<Twenty>,
}

impl From<u8> for Refusal {
    fn from(number: u8) -> Refusal {
        Refusal { number, reason: None }
    }
}

fn twenty(reason: Twenty) -> Refusal {
    Refusal { number: 20, reason: Some(reason) }
}

/// What comes next.
enum Next {
    End(Kind, usize, Set),
    Move(Set),
}

impl Step {
    /// The walk, and nothing answered.
    pub fn of(walk: Walk) -> Step {
        Step { walk, vertices: 0, fields: [0; 6], simplex: [0; 256], number: 0, kind: 0, block: 0, rule: 0, map: 0 }
    }

    fn put(&mut self, problem: &Problem, m: usize, set: &[usize]) {
        self.vertices = set.len() as u64;
        for (vertex, &y) in set.iter().enumerate() {
            self.simplex[vertex * m..(vertex + 1) * m].copy_from_slice(problem.numbers(y));
        }
    }
}

/// A grid, start and table that questions 1 to 7 accept.
pub struct Table<'a> {
    pub grid: Grid,
    problem: Problem,
    labels: &'a [u8],
}

impl<'a> Table<'a> {
    /// Questions 1 to 7, on the walk's own grid and start.
    pub fn of(walk: &Walk, labels: &'a [u8]) -> Result<Table<'a>, u8> {
        let blocks = walk.blocks as usize;
        if blocks > 6 {
            return Err(1);
        }
        let grid = Grid::new(&walk.sizes[..blocks], &walk.divisions[..blocks]).map_err(|number| number as u8)?;
        if !grid.has_point(&walk.start[..grid.m]) {
            return Err(5);
        }
        if labels.len() != grid.points {
            return Err(6);
        }
        if !labels_in_range(labels, grid.m) {
            return Err(7);
        }
        let problem = Problem::new(&grid, &walk.start[..grid.m]);
        Ok(Table { grid, problem, labels })
    }

    /// The points that a first point and an order keep, if they are grid points: "adding 1 to the coordinate at an
    /// index h of T and taking 1 from the coordinate at b", the first index met going back from h that is not in U.
    fn points(&self, place: &Place) -> Option<Set> {
        let m = self.grid.m;
        let count = place.count as usize;
        if count == 0
            || count > MOST_INDICES
            || place.first[m..].iter().any(|&x| x != 0)
            || place.order[count - 1..].iter().any(|&h| h != 0)
        {
            return None;
        }
        let order = &place.order[..count - 1];
        let in_u = |h: usize| place.first[h] == 0 && !order.contains(&(h as u32));
        let mut numbers = place.first;
        let mut set = vec![self.problem.position(&numbers)?];
        for &h in order {
            let range = self.grid.ranges().find(|range| range.contains(&(h as usize)))?;
            let back = |k: usize| if k == range.start { range.end - 1 } else { k - 1 };
            let mut b = back(h as usize);
            while b != h as usize && in_u(b) {
                b = back(b);
            }
            numbers[h as usize] += 1;
            numbers[b] = numbers[b].checked_sub(1)?;
            set.push(self.problem.position(&numbers)?);
        }
        Some(set)
    }

    /// The place that a struct holds, over the table.
    pub fn place(&self, place: &Place) -> Option<Set> {
        self.points(place).filter(|set| self.problem.rises(set) && self.problem.is_place(self.labels, set))
    }

    /// A place as its first point and order.
    fn kept(&self, set: &[usize]) -> Place {
        let mut place = Place { count: set.len() as u8, ..NONE };
        place.first[..self.grid.m].copy_from_slice(self.problem.numbers(set[0]));
        for (at, pair) in set.windows(2).enumerate() {
            let (y, z) = (self.problem.numbers(pair[0]), self.problem.numbers(pair[1]));
            place.order[at] = (0..self.grid.m).find(|&h| z[h] > y[h]).expect("a step raises a coordinate") as u32;
        }
        place
    }

    /// Places that are linked to one, as they are kept.
    pub fn linked(&self, place: &Place) -> Vec<Place> {
        let set = self.place(place).expect("a place");
        let links = self.problem.ways(self.labels, &set).into_iter();
        links.filter_map(|way| if let Way::Link(other) = way { Some(self.kept(&other)) } else { None }).collect()
    }

    /// The labels of points, as a walk carries them.
    fn carried(&self, set: &[usize]) -> [u8; MOST_INDICES] {
        let mut carried = [0; MOST_INDICES];
        carried.iter_mut().zip(set).for_each(|(label, &y)| *label = self.labels[y]);
        carried
    }

    /// The walk with the labels of its present place, if it stands on one.
    pub fn labelled(&self, walk: Walk) -> Walk {
        let set = self.place(&walk.present).unwrap_or_default();
        Walk { carried: self.carried(&set), ..walk }
    }

    /// 20 and 16, and then the one way on.
    fn next(&self, walk: &Walk) -> Result<(Set, Next), Refusal> {
        let here = self.place(&walk.present).ok_or(twenty(Twenty::NoPlace))?;
        let mut ways = self.problem.ways(self.labels, &here);
        let none = walk.before == NONE;
        if !none {
            let before = self.place(&walk.before).ok_or(twenty(Twenty::NotLinked))?;
            let at = ways.iter().position(|way| *way == Way::Link(before.clone())).ok_or(twenty(Twenty::NotLinked))?;
            ways.remove(at);
        }
        if (here == [self.problem.start()]) != none {
            return Err(twenty(Twenty::OnlyOne));
        }
        if walk.places == 0 || walk.places > self.grid.bound() {
            return Err(twenty(Twenty::Count));
        }
        if walk.carried != self.carried(&here) {
            return Err(twenty(Twenty::OtherLabels));
        }
        if walk.labels_read == 0 || walk.labels_read > walk.places {
            return Err(twenty(Twenty::LabelsRead));
        }
        if here.iter().any(|&y| self.labels[y] == 0) {
            return Err(16.into());
        }
        assert!(ways.len() == 1, "{} ways on from {here:?}", ways.len());
        Ok((
            here,
            match ways.remove(0) {
                Way::Link(next) => Next::Move(next),
                Way::End(kind, block, set) => Next::End(kind, block, set),
            },
        ))
    }

    /// The six fields of a move, and its rule.
    fn change(&self, from: &[usize], to: &[usize]) -> ([Option<u32>; 6], u8) {
        let point = |a: &[usize], b: &[usize]| b.iter().find(|y| !a.contains(y)).map(|&y| y as u32);
        let index = |a: u16, b: u16| (b & !a != 0).then(|| (b & !a).trailing_zeros() + 1);
        let (t, u) = (self.problem.set_t(from), self.problem.set_u(from));
        let (t2, u2) = (self.problem.set_t(to), self.problem.set_u(to));
        let fields = [point(from, to), point(to, from), index(t, t2), index(t2, t), index(u, u2), index(u2, u)];
        let rule = match fields.map(|field| field.is_some()) {
            [_, _, false, false, false, false] => 1,
            [_, _, false, false, true, false] => 2,
            [_, _, false, false, false, true] => 3,
            [_, _, true, false, false, false] => 4,
            [_, _, true, false, false, true] => 5,
            [_, _, false, true, true, false] => 6,
            [_, _, false, true, false, false] => 7,
            _ => panic!("no rule"),
        };
        (fields, rule)
    }
}

fn refused(step: &Step, refusal: impl Into<Refusal>) -> (Step, Option<Twenty>) {
    let refusal = refusal.into();
    (Step { number: refusal.number, ..Step::of(step.walk) }, refusal.reason)
}

/// The moving call, or with `shown` the preview; with the reason for 20.
pub fn call(step: &Step, labels: &[u8], shown: bool) -> (Step, Option<Twenty>) {
    let table = match Table::of(&step.walk, labels) {
        Ok(table) => table,
        Err(number) => return refused(step, number),
    };
    let (here, next) = match table.next(&step.walk) {
        Ok(found) => found,
        Err(refusal) => return refused(step, refusal),
    };
    let mut after = Step::of(step.walk);
    match next {
        Next::End(kind, block, set) => {
            after.kind = (kind == Kind::Facet) as u8;
            after.block = block as u8;
            after.put(&table.problem, table.grid.m, &set);
        }
        Next::Move(to) => {
            let (fields, rule) = table.change(&here, &to);
            after.rule = rule;
            if shown {
                after.map = fields.iter().enumerate().map(|(bit, field)| (field.is_some() as u8) << bit).sum();
                after.fields = fields.map(|field| field.unwrap_or(0));
            } else {
                let walk = step.walk;
                after.walk = Walk {
                    places: walk.places + 1,
                    labels_read: walk.labels_read + fields[0].is_some() as u64,
                    present: table.kept(&to),
                    before: walk.present,
                    carried: table.carried(&to),
                    ..walk
                };
            }
        }
    }
    (after, None)
}

/// The points of the present place.
pub fn points(step: &Step, labels: &[u8]) -> Step {
    let table = match Table::of(&step.walk, labels) {
        Ok(table) => table,
        Err(number) => return refused(step, number).0,
    };
    let Some(set) = table.place(&step.walk.present) else {
        return refused(step, 20).0;
    };
    let mut after = Step::of(step.walk);
    after.put(&table.problem, table.grid.m, &set);
    after
}

/// The walk at {v}, over a table.
pub fn at_start(step: &Step, sizes: &[u8], divisions: &[u16], start: &[u16], labels: &[u8]) -> Step {
    let grid = match Grid::new(sizes, divisions) {
        Ok(grid) => grid,
        Err(number) => return refused(step, number as u8).0,
    };
    if !grid.has_point(start) {
        return refused(step, 5).0;
    }
    let mut walk = Walk {
        places: 1,
        labels_read: 1,
        present: NONE,
        before: NONE,
        start: [0; MOST_INDICES],
        divisions: [0; 6],
        sizes: [0; 6],
        blocks: sizes.len() as u8,
        carried: [0; MOST_INDICES],
    };
    walk.start[..start.len()].copy_from_slice(start);
    walk.sizes[..sizes.len()].copy_from_slice(sizes);
    walk.divisions[..divisions.len()].copy_from_slice(divisions);
    walk.present = Place { first: walk.start, order: [0; MOST_INDICES], count: 1 };
    match Table::of(&walk, labels) {
        Ok(table) => Step::of(table.labelled(walk)),
        Err(number) => refused(step, number).0,
    }
}
