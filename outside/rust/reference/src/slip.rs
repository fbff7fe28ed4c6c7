//! Reading a slip, running it, and printing its sheet.

use crate::games::{self, GAMES};
use crate::grid::{Grid, MOST_BLOCKS, MOST_INDICES, MOST_LOSSES, MOST_POINTS};
use crate::outcome::{Kind, Outcome};
use crate::{paper, questions, small};
use std::cmp::Ordering;

pub const SHEET_BYTES: usize = 4096;
const ANSWER_NUMBERS: usize = MOST_INDICES * MOST_INDICES;

/// A slip for which questions 13, 1 to 4, 14, 15, 11, 5 and 7 are answered yes.
pub struct Slip<'a> {
    pub grid: Grid,
    pub start: [u16; MOST_INDICES],
    pub budget: u64,
    pub table: Table<'a>,
}

/// Where the labels come from: a part of the slip, a game, or losses, two bytes each.
pub enum Table<'a> {
    Labels(&'a [u8]),
    Game(usize),
    Losses(&'a [u8]),
}

fn take<'a>(bytes: &mut &'a [u8], count: usize, number: u64) -> Result<&'a [u8], u64> {
    if bytes.len() < count {
        return Err(number);
    }
    let (taken, rest) = bytes.split_at(count);
    *bytes = rest;
    Ok(taken)
}

fn number16(pair: &[u8]) -> u16 {
    u16::from_le_bytes([pair[0], pair[1]])
}

/// Asks the slip's questions in order.
pub fn read(slip: &[u8]) -> Result<Slip<'_>, u64> {
    let mut rest = slip;
    let head = take(&mut rest, 2, 13)?;
    let (map, blocks) = (head[0], head[1] as usize);
    let sizes = take(&mut rest, blocks, 13)?;
    let pairs = take(&mut rest, 2 * blocks, 13)?;
    if map >> 5 != 0 || (map >> 2 & 7).count_ones() != 1 {
        return Err(13);
    }
    let mut divisions = [0; MOST_BLOCKS];
    for (division, pair) in divisions.iter_mut().zip(pairs.chunks_exact(2)) {
        *division = number16(pair);
    }
    let grid = Grid::new(sizes, &divisions[..blocks.min(MOST_BLOCKS)])?;
    let mut start = grid.first_corner();
    if map & 1 != 0 {
        let numbers = take(&mut rest, 2 * grid.m, 14)?;
        for (number, pair) in start.iter_mut().zip(numbers.chunks_exact(2)) {
            *number = number16(pair);
        }
    }
    let mut budget = grid.bound();
    if map & 2 != 0 {
        budget = u64::from_le_bytes(take(&mut rest, 8, 14)?.try_into().expect("eight bytes"));
    }
    let table = if map & 4 != 0 {
        Table::Labels(take(&mut rest, grid.points, 14)?)
    } else if map & 8 != 0 {
        Table::Game(take(&mut rest, 1, 14)?[0] as usize)
    } else {
        Table::Losses(take(&mut rest, 2 * grid.losses(), 14)?)
    };
    if !rest.is_empty() {
        return Err(14);
    }
    if let Table::Game(game) = table {
        if game == 0 || game > GAMES.len() || GAMES[game - 1].sizes != sizes {
            return Err(15);
        }
    }
    if let Table::Losses(bytes) = table {
        if !bytes.chunks_exact(2).all(|pair| (1..=1000).contains(&number16(pair))) {
            return Err(11);
        }
    }
    if !grid.has_point(&start[..grid.m]) {
        return Err(5);
    }
    if let Table::Labels(labels) = table {
        if !questions::labels_in_range(labels, grid.m) {
            return Err(7);
        }
    }
    Ok(Slip { grid, start, budget, table })
}

/// How a sheet's labels and path are found.
pub trait Method {
    fn fill(grid: &Grid, losses: &[u16], labels: &mut [u8]);
    fn follow(grid: &Grid, start: &[u16], labels: &[u8], answer: &mut [u16], budget: u64) -> Outcome;
}

pub struct ByPaper;

impl Method for ByPaper {
    fn fill(grid: &Grid, losses: &[u16], labels: &mut [u8]) {
        games::fill(grid, losses, labels);
    }

    fn follow(grid: &Grid, start: &[u16], labels: &[u8], answer: &mut [u16], budget: u64) -> Outcome {
        paper::follow(grid, start, labels, answer, budget)
    }
}

pub struct ByDefinitions;

impl Method for ByDefinitions {
    fn fill(grid: &Grid, losses: &[u16], labels: &mut [u8]) {
        games::fill_by_rule(grid, losses, labels);
    }

    fn follow(grid: &Grid, start: &[u16], labels: &[u8], answer: &mut [u16], budget: u64) -> Outcome {
        small::Problem::new(grid, start).follow(labels, budget, answer)
    }
}

/// Prints the sheet of a slip at the front of `sheet` and answers its length.
pub fn sheet<M: Method>(slip: &[u8], sheet: &mut [u8; SHEET_BYTES]) -> usize {
    let mut page = Page { bytes: sheet, length: 0 };
    match read(slip) {
        Err(number) => page.line("refused ", &[number]),
        Ok(slip) => {
            let mut room;
            let labels = match slip.table {
                Table::Labels(labels) => labels,
                Table::Game(game) => {
                    room = [0; MOST_POINTS];
                    let labels = &mut room[..slip.grid.points];
                    M::fill(&slip.grid, GAMES[game - 1].losses, labels);
                    labels
                }
                Table::Losses(bytes) => {
                    let mut losses = [0; MOST_LOSSES];
                    for (loss, pair) in losses.iter_mut().zip(bytes.chunks_exact(2)) {
                        *loss = number16(pair);
                    }
                    room = [0; MOST_POINTS];
                    let labels = &mut room[..slip.grid.points];
                    M::fill(&slip.grid, &losses[..bytes.len() / 2], labels);
                    labels
                }
            };
            let mut answer = [0; ANSWER_NUMBERS];
            let outcome = M::follow(&slip.grid, &slip.start[..slip.grid.m], labels, &mut answer, slip.budget);
            page.outcome(&slip.grid, outcome, &answer);
        }
    }
    page.length
}

/// The whole number nearest to a fraction, and the even one of two that are equally near.
fn nearest(above: u64, below: u64) -> u64 {
    let (number, rest) = (above / below, above % below);
    match rest.cmp(&(below - rest)) {
        Ordering::Less => number,
        Ordering::Equal => number + number % 2,
        Ordering::Greater => number + 1,
    }
}

struct Page<'a> {
    bytes: &'a mut [u8],
    length: usize,
}

impl Page<'_> {
    fn text(&mut self, text: &str) {
        self.bytes[self.length..self.length + text.len()].copy_from_slice(text.as_bytes());
        self.length += text.len();
    }

    fn number(&mut self, mut number: u64) {
        let mut digits = [0; 20];
        let mut at = digits.len();
        loop {
            at -= 1;
            digits[at] = b'0' + (number % 10) as u8;
            number /= 10;
            if number == 0 {
                break;
            }
        }
        let count = digits.len() - at;
        self.bytes[self.length..self.length + count].copy_from_slice(&digits[at..]);
        self.length += count;
    }

    fn line(&mut self, text: &str, numbers: &[u64]) {
        self.text(text);
        for (at, &number) in numbers.iter().enumerate() {
            if at > 0 {
                self.text(" ");
            }
            self.number(number);
        }
        self.text("\n");
    }

    fn outcome(&mut self, grid: &Grid, outcome: Outcome, answer: &[u16]) {
        let end = match outcome {
            Outcome::Refused(number) => return self.line("refused ", &[number]),
            Outcome::Spent(places) => {
                self.line("refused ", &[9]);
                return self.line("places ", &[places]);
            }
            Outcome::Unknown { places, position } => {
                self.line("refused ", &[16]);
                self.line("places ", &[places]);
                return self.line("position ", &[position as u64]);
            }
            Outcome::Ended(end) => end,
        };
        self.line("places ", &[end.places]);
        self.line("labels read ", &[end.labels_read]);
        self.line("bound ", &[grid.bound()]);
        self.text(if end.kind == Kind::Place { "end place\n" } else { "end facet\n" });
        self.line("block ", &[end.block as u64]);
        self.line("vertices ", &[end.vertices as u64]);
        let mut sums = [0u64; MOST_INDICES];
        for vertex in answer.chunks_exact(grid.m).take(end.vertices) {
            let mut numbers = [0u64; MOST_INDICES];
            for (h, &number) in vertex.iter().enumerate() {
                numbers[h] = number as u64;
                sums[h] += number as u64;
            }
            self.line("", &numbers[..grid.m]);
        }
        for (range, &division) in grid.ranges().zip(&grid.divisions) {
            for sum in &mut sums[range] {
                *sum = nearest(10_000 * *sum, end.vertices as u64 * division as u64);
            }
        }
        self.line("centre ", &sums[..grid.m]);
    }
}
