//! The calls of the trail: a run that writes one and the reading of a record, their inputs, and their lines in the
//! stored cases.

use crate::calls::{hex, spaced, Call, RunCall};
use crate::inputs::{random_run, spoil, with_gaps, Take};
use crate::random::Random;
use reference::grid::{Grid, MOST_INDICES};
use reference::small::Problem;
use reference::trail::{self, Change, Set, Trail};
use reference::{Outcome, Rebuilt, Written};
use std::fmt::{Display, Formatter, Result as Shown};

/// A run with a trail buffer of `room` bytes.
#[derive(Clone, Debug, Default, PartialEq)]
pub struct TrailCall {
    pub run: RunCall,
    pub room: usize,
}

/// The reading of a trail at a record.
#[derive(Clone, Debug, Default, PartialEq)]
pub struct ReadCall {
    pub sizes: Vec<u8>,
    pub divisions: Vec<u16>,
    pub start: Vec<u16>,
    pub trail: Vec<u8>,
    pub record: u64,
}

/// One of the reference's two ways to write.
type Writer = fn(&[u8], &[u16], &[u16], &[u8], &mut [u16], u64, &mut [u8]) -> Written;

/// One of its two ways to read.
type Reader = fn(&[u8], &[u16], &[u16], &[u8], u64) -> Result<Rebuilt, u64>;

impl TrailCall {
    pub fn by(&self, way: Writer, answer: &mut [u16], trail: &mut [u8]) -> Written {
        let run = &self.run;
        way(&run.sizes, &run.divisions, &run.start, &run.labels, answer, run.budget, trail)
    }

    /// How many numbers of the answer buffer and bytes of the trail buffer the call writes.
    pub fn written(&self, written: &Written) -> (usize, usize) {
        match (written.run, written.bytes) {
            (Outcome::Ended(end), Some(bytes)) => (end.vertices * self.run.start.len(), bytes),
            _ => (0, 0),
        }
    }
}

impl ReadCall {
    pub fn by(&self, way: Reader) -> Result<Rebuilt, u64> {
        way(&self.sizes, &self.divisions, &self.start, &self.trail, self.record)
    }

    /// The number in the reference's list of reasons, where there is one for a 17.
    pub fn why(&self) -> Option<usize> {
        let why = trail::why(&self.sizes, &self.divisions, &self.start, &self.trail, self.record)?;
        trail::WHY.iter().position(|&other| other == why)
    }
}

impl Display for TrailCall {
    fn fmt(&self, to: &mut Formatter) -> Shown {
        let run = &self.run;
        writeln!(to, "call run-with-trail\nsizes {}\nd {}", spaced(&run.sizes), spaced(&run.divisions))?;
        writeln!(to, "start {}\nlabels {}", spaced(&run.start), spaced(&run.labels))?;
        write!(to, "budget {}\nanswer {}\ntrail {}", run.budget, run.answer, self.room)
    }
}

impl Display for ReadCall {
    fn fmt(&self, to: &mut Formatter) -> Shown {
        writeln!(to, "call read-trail\nsizes {}\nd {}", spaced(&self.sizes), spaced(&self.divisions))?;
        write!(to, "start {}\ntrail {}\nrecord {}", spaced(&self.start), hex(&self.trail), self.record)
    }
}

/// A trail of more bytes is stored by its first and last 40 and a sum: each byte times its place, counted from 1.
const MOST_STORED: usize = 2_000;

/// What stands behind a run's lines in a stored case.
pub fn written_lines(trail: &[u8]) -> Vec<String> {
    let mut lines = vec![format!("trail-bytes {}", trail.len())];
    if trail.len() <= MOST_STORED {
        lines.push(format!("trail {}", hex(trail)));
        return lines;
    }
    let sum = trail.iter().zip(1u64..).fold(0, |sum, (&byte, place)| (sum + place * byte as u64) % 1_000_000_007);
    lines.push(format!("trail-front {}", hex(&trail[..40])));
    lines.push(format!("trail-back {}", hex(&trail[trail.len() - 40..])));
    lines.push(format!("trail-sum {sum}"));
    lines
}

/// The place at a record as a stored case has it.
pub fn read_lines(read: Result<Rebuilt, u64>, grid: Option<Grid>) -> Vec<String> {
    let (place, grid) = match (read, grid) {
        (Ok(place), Some(grid)) => (place, grid),
        (Err(number), _) => return vec![format!("refused {number}")],
        (Ok(_), None) => return vec!["a place without a grid".to_string()],
    };
    let all = grid.all_points();
    let position = |point: &Vec<u16>| all.iter().position(|other| other[..grid.m] == point[..]).expect("a grid point");
    let indices = |mask: u16| match mask {
        0 => "-".to_string(),
        _ => spaced(&(0..MOST_INDICES).filter(|&h| mask >> h & 1 == 1).map(|h| h + 1).collect::<Vec<_>>()),
    };
    let mut lines = vec![format!("points {}", place.points.len())];
    lines.extend(place.points.iter().map(|point| spaced(point)));
    lines.push(format!("positions {}", spaced(&place.points.iter().map(position).collect::<Vec<_>>())));
    lines.push(format!("T {}", indices(place.t)));
    lines.push(format!("U {}", indices(place.u)));
    lines.push(format!("labels read {}", place.labels_read));
    lines
}

/// The trail of the places of a run within its budget, ended or not.
fn trail_of(run: &RunCall, grid: &Grid) -> (Outcome, Trail) {
    trail::trail_by_paper(grid, &run.start, &run.labels, &mut vec![0; run.answer], run.budget)
}

/// Random runs with a trail, every fourth on a table with gaps. The buffer has as many bytes as the trail, one fewer or
/// more, none, few or many.
pub fn random_writes(seed: u64, count: usize, limit: usize, take: Take) {
    let mut random = Random(seed);
    for number in 0..count {
        let mut run = random_run(&mut random, limit);
        if number % 4 == 0 {
            with_gaps(&mut random, &mut run.labels);
        }
        let grid = Grid::new(&run.sizes, &run.divisions).expect("a grid");
        let bytes = trail_of(&run, &grid).1.bytes.len();
        let room = match random.below(8) {
            0 => bytes.saturating_sub(1),
            1 => 0,
            2 => random.below(bytes + 1),
            3 => bytes % 65_536,
            4 => bytes,
            5 => bytes + 1,
            _ => bytes + random.below(200),
        };
        take(Call::Trail(TrailCall { run, room }));
    }
}

/// Runs with a trail and one to three faults, so that the order of the questions shows.
pub fn faulty_writes(seed: u64, count: usize, take: Take) {
    let mut random = Random(seed);
    for _ in 0..count {
        let mut run = random_run(&mut random, 40);
        for _ in 0..1 + random.below(3) {
            spoil(&mut random, &mut run);
        }
        let room = random.below(60) * random.below(2);
        take(Call::Trail(TrailCall { run, room }));
    }
}

/// A record's number: one of those there, the first beyond, 0, or one that 16 or 32 bits cut off.
fn random_number(random: &mut Random, records: usize) -> u64 {
    match random.below(16) {
        0 => 0,
        1 => records as u64 + 1,
        2 => u64::MAX,
        3 => 65_536 + 1 + random.below(records) as u64,
        4 => (1 << 32) + 1 + random.below(records) as u64,
        _ => {
            let among = 1 + random.below(records);
            (records - random.below(among)) as u64
        }
    }
}

fn read_call(random: &mut Random, run: &RunCall, trail: Vec<u8>, records: usize) -> ReadCall {
    let (sizes, divisions, start) = (run.sizes.clone(), run.divisions.clone(), run.start.clone());
    ReadCall { sizes, divisions, start, trail, record: random_number(random, records) }
}

/// A byte, a bit, a part or a record of a trail that is not as a run wrote it.
fn damage(random: &mut Random, bytes: &mut Vec<u8>, begins: &[usize]) {
    let at = random.below(bytes.len());
    let which = random.below(begins.len());
    let begin = begins[which];
    let end = begins.get(which + 1).copied().unwrap_or(bytes.len());
    match random.below(10) {
        0 => bytes[at] ^= 1 << random.below(8),
        1 => bytes[at] = random.next() as u8,
        2 => bytes.truncate(at),
        3 => drop(bytes.drain(begin..end)),
        4 => {
            let twice = bytes[begin..end].to_vec();
            bytes.splice(end..end, twice);
        }
        5 => bytes[begin..end].rotate_left(1),
        6 => bytes[begin] |= 0x80,
        7 => bytes[end - 1] = 1 + random.below(7) as u8,
        8 => bytes[begin] ^= 0x40 | 1 << random.below(7),
        _ => {
            let second = bytes.get(begin + 1).copied().unwrap_or(0);
            bytes[begin + 1] = second.wrapping_add(1 + random.below(4) as u8);
        }
    }
}

/// Trails of runs read at some record, most of them damaged.
pub fn random_reads(seed: u64, count: usize, limit: usize, take: Take) {
    let mut random = Random(seed);
    let mut put = 0;
    while put < count {
        let run = random_run(&mut random, limit);
        let grid = Grid::new(&run.sizes, &run.divisions).expect("a grid");
        let (_, Trail { bytes, begins, .. }) = trail_of(&run, &grid);
        if bytes.is_empty() {
            continue;
        }
        for _ in 0..8 {
            let mut trail = bytes.clone();
            if !random.chance(4) {
                damage(&mut random, &mut trail, &begins);
            }
            take(Call::Read(read_call(&mut random, &run, trail, begins.len())));
            put += 1;
        }
    }
}

/// A trail of moves in any order, turning back and coming back included; the last change is, now and then, one that is
/// no rule, told truly or named after a rule. For small grids.
pub fn random_walks(seed: u64, count: usize, limit: usize, take: Take) {
    let mut random = Random(seed);
    for _ in 0..count {
        let run = random_run(&mut random, limit);
        let grid = Grid::new(&run.sizes, &run.divisions).expect("a grid");
        let problem = Problem::new(&grid, &run.start);
        let mut here = problem.set(&[problem.start()]);
        let mut walk = Trail::default();
        walk.pass(here.clone());
        for _ in 0..random.below(20) {
            here = random.among(&trail::moves(&problem, &here, false)).clone();
            walk.pass(here.clone());
        }
        let mut records = walk.begins.len();
        let others = trail::moves(&problem, &here, true);
        if !others.is_empty() && random.chance(2) {
            let other = random.among(&others).clone();
            walk.bytes.extend(told(&mut random, &here, &other));
            records += 1;
        }
        take(Call::Read(read_call(&mut random, &run, walk.bytes, records)));
    }
}

/// The record of a change that is no rule, with all its fields or without those of T and U, and with the number of some
/// rule.
fn told(random: &mut Random, from: &Set, to: &Set) -> Vec<u8> {
    let mut change = Change::new(from, to);
    if random.chance(3) {
        change.sets = [0; 4];
    }
    change.record(Some(1 + random.below(7) as u8))
}

/// Readings with one to three faults, so that the order of the questions shows.
pub fn faulty_reads(seed: u64, count: usize, take: Take) {
    let mut random = Random(seed);
    for _ in 0..count {
        let run = random_run(&mut random, 40);
        let grid = Grid::new(&run.sizes, &run.divisions).expect("a grid");
        let (_, Trail { bytes, begins, .. }) = trail_of(&run, &grid);
        let mut read = read_call(&mut random, &run, bytes, begins.len().max(1));
        for _ in 0..1 + random.below(3) {
            let at = random.below(read.start.len().max(1));
            match random.below(4) {
                0 => read.start.iter_mut().skip(at).take(1).for_each(|number| *number = number.wrapping_sub(1)),
                1 => drop(read.start.pop()),
                _ => {
                    let mut run =
                        RunCall { sizes: read.sizes.clone(), divisions: read.divisions.clone(), ..RunCall::default() };
                    spoil(&mut random, &mut run);
                    (read.sizes, read.divisions) = (run.sizes, run.divisions);
                }
            }
        }
        take(Call::Read(read));
    }
}
