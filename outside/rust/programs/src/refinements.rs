//! Refinement runs: the call, its text in the stored cases, and inputs.

use crate::calls::{game_table, spaced, Call, GameTable};
use crate::inputs::{random_grid, random_start, Take};
use crate::random::Random;
use reference::grid::Grid;
use reference::refine::Game;
use reference::{End, Kind};
use std::fmt::{Formatter, Result};

/// A refinement; `buffer` and `answer` are the lengths of the two buffers.
#[derive(Clone, Debug, Default, PartialEq)]
pub struct RefineCall {
    pub sizes: Vec<u8>,
    pub divisions: Vec<u16>,
    pub start: Vec<u16>,
    pub losses: Vec<u16>,
    pub factor: usize,
    pub levels: usize,
    pub buffer: usize,
    pub answer: usize,
}

impl RefineCall {
    pub fn game(&self) -> Game<'_> {
        let RefineCall { sizes, divisions, start, losses, factor, levels, .. } = self;
        Game { sizes, divisions, start, losses, factor: *factor, levels: *levels }
    }

    /// The last grid, if all are accepted.
    pub fn largest(&self) -> Option<Grid> {
        self.game().grids().ok().and_then(|grids| grids.last().cloned())
    }

    /// With buffers of the lengths that are asked for.
    pub fn with_buffers(self) -> RefineCall {
        let last = self.largest().expect("accepted grids");
        RefineCall { buffer: last.points, answer: self.levels * (last.n() + 1) * last.m, ..self }
    }

    /// Whether number `at` of the answer buffer is one of a level's vertices.
    pub fn is_vertex(&self, ends: &[End], at: usize) -> bool {
        let m = self.start.len();
        let room = (m - self.sizes.len() + 1) * m;
        ends.get(at / room).is_some_and(|end| at % room < end.vertices * m)
    }

    /// What the stored cases expect; an untouched number is written as a dot, and a long table by its CRC-32.
    pub fn lines(&self, ends: &[End], labels: &[u8], answer: &[u16], untouched: u16) -> Vec<String> {
        let mut lines = Vec::new();
        for (level, end) in ends.iter().enumerate() {
            let kind = if end.kind == Kind::Place { "place" } else { "facet" };
            lines.push(format!("level {level}"));
            lines.push(format!("places {}", end.places));
            lines.push(format!("labels read {}", end.labels_read));
            lines.push(format!("end {kind}"));
            lines.push(format!("block {}", end.block));
            lines.push(format!("vertices {}", end.vertices));
        }
        let number = |x: &u16| if *x == untouched { ".".to_string() } else { x.to_string() };
        lines.push(format!("answer-after {}", answer.iter().map(number).collect::<Vec<_>>().join(" ")));
        lines.push(format!("labels-after {}", table(labels)));
        lines
    }

    pub fn write(&self, to: &mut Formatter) -> Result {
        writeln!(to, "call refine\nsizes {}\nd {}", spaced(&self.sizes), spaced(&self.divisions))?;
        writeln!(to, "start {}\nlosses {}", spaced(&self.start), spaced(&self.losses))?;
        write!(to, "k {}\nlevels {}\nbuffer {}\nanswer {}", self.factor, self.levels, self.buffer, self.answer)
    }
}

/// A label table by its CRC-32.
pub fn table(labels: &[u8]) -> String {
    let mut remainder = u32::MAX;
    for &label in labels {
        remainder ^= label as u32;
        for _ in 0..8 {
            remainder = remainder >> 1 ^ if remainder & 1 == 1 { 0xedb8_8320 } else { 0 };
        }
    }
    format!("crc32 {:08x} of {}", !remainder, labels.len())
}

/// A line of a stored case with `3x.` written out, and a label table by its CRC-32.
pub fn expected(line: &str) -> String {
    let mut words = Vec::new();
    for word in line.split(' ') {
        match word.split_once('x') {
            Some((count, word)) if count.parse::<usize>().is_ok() => {
                words.extend(vec![word; count.parse().expect("a count")])
            }
            _ => words.push(word),
        }
    }
    if words[0] == "labels-after" && words[1] != "crc32" {
        let labels: Vec<u8> = words[1..].iter().map(|word| word.parse().expect("a label")).collect();
        return format!("labels-after {}", table(&labels));
    }
    words.join(" ")
}

fn random_losses(random: &mut Random, sizes: &[u8]) -> Vec<u16> {
    let count = sizes.len() * sizes.iter().map(|&size| size as usize).product::<usize>();
    let highest = *random.among(&[2, 10, 1000]);
    (0..count).map(|_| 1 + random.below(highest) as u16).collect()
}

/// A game on grids up to `limit` points: some levels, as far as they fit.
fn random_call(random: &mut Random, limit: usize) -> RefineCall {
    let first = (limit / (1 + random.below(limit))).max(8);
    let (mut sizes, mut divisions, grid) = random_grid(random, first);
    let mut losses = random_losses(random, &sizes);
    let mut start = random_start(random, &grid);
    if random.chance(4) {
        let GameTable { sizes: own, losses: table } = game_table(1 + random.below(3));
        let most = 1 + random.below(3);
        divisions = own.iter().map(|_| 1 + random.below(most) as u16).collect();
        start = random_start(random, &Grid::new(&own, &divisions).expect("a grid"));
        (sizes, losses) = (own, table);
    }
    let (factor, levels) = (2 + random.below(9), 1 + random.below(8));
    let mut call = RefineCall { sizes, divisions, start, losses, factor, levels, ..RefineCall::default() };
    while call.levels > 1 && call.largest().map_or(true, |grid| grid.points > limit) {
        match random.chance(2) && call.factor > 2 {
            true => call.factor -= 1,
            false => call.levels -= 1,
        }
    }
    call.with_buffers()
}

pub fn random(seed: u64, count: usize, limit: usize, take: Take) {
    let mut random = Random(seed);
    for _ in 0..count {
        take(Call::Refine(random_call(&mut random, limit)));
    }
}

/// With one to three faults.
pub fn faulty(seed: u64, count: usize, take: Take) {
    let mut random = Random(seed);
    for _ in 0..count {
        let mut call = random_call(&mut random, 130);
        for _ in 0..1 + random.below(3) {
            spoil(&mut random, &mut call);
        }
        take(Call::Refine(call));
    }
}

fn spoil(random: &mut Random, call: &mut RefineCall) {
    let any = |random: &mut Random, length: usize| random.below(length.max(1));
    match random.below(12) {
        0 => call.factor = *random.among(&[0, 1, 2, 10, 11, 255, 258, usize::MAX]),
        1 => call.levels = *random.among(&[0, 1, 2, 8, 9, 264, usize::MAX]),
        2 => call.sizes.push(2),
        3 => {
            let at = any(random, call.sizes.len());
            call.sizes[at] = *random.among(&[0, 1, 2, 15, 255]);
        }
        4 => {
            call.divisions.pop();
        }
        5 if !call.divisions.is_empty() => {
            let at = any(random, call.divisions.len());
            call.divisions[at] = *random.among(&[0, 1, 32_768, 40_000, 59_999, 60_000, 65_535]);
        }
        6 if !call.start.is_empty() => {
            let at = any(random, call.start.len());
            call.start[at] = call.start[at].wrapping_add(*random.among(&[1, 2, 65_535]));
        }
        7 => {
            call.start.pop();
        }
        8 => {
            call.losses.pop();
        }
        9 if !call.losses.is_empty() => {
            let at = any(random, call.losses.len());
            call.losses[at] = *random.among(&[0, 1, 1000, 1001]);
        }
        10 => call.buffer = (call.buffer + random.below(3)).saturating_sub(1),
        _ => call.answer = call.answer.saturating_sub(*random.among(&[1, 2, call.answer])),
    }
}

/// One player with two strategies, of whom each division from the last that fits on is refused; and the longest numbers
/// of levels.
pub fn edges(take: Take) {
    for factor in 2..=10usize {
        for levels in 1..=8 {
            let power = (factor as u64).pow(levels as u32 - 1);
            let most = (59_999 / power) as u16;
            for division in [1, most.max(1), most + 1, 32_768, 40_000, 59_999, 60_000, 65_535] {
                let (sizes, divisions) = (vec![2], vec![division]);
                let (start, losses) = (vec![division, 0], vec![1000, 1]);
                let call =
                    RefineCall { sizes, divisions, start, losses, factor, levels, buffer: 60_000, answer: levels * 4 };
                take(Call::Refine(if call.largest().is_some() { call.with_buffers() } else { call }));
            }
        }
    }
}

/// The built-in game, with as many levels as P allows when each division is doubled.
pub fn of_game(game: usize) -> RefineCall {
    let GameTable { sizes, losses } = game_table(game);
    let divisions = vec![1u16; sizes.len()];
    let grid = Grid::new(&sizes, &divisions).expect("a grid");
    let start = grid.first_corner()[..grid.m].to_vec();
    let call = RefineCall { sizes, divisions, start, losses, factor: 2, levels: 8, ..RefineCall::default() };
    let levels =
        (1..=8).rev().find(|&levels| RefineCall { levels, ..call.clone() }.largest().is_some()).expect("a level");
    RefineCall { levels, ..call }.with_buffers()
}
