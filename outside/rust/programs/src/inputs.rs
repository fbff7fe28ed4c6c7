//! The inputs of the comparison and of the benchmark.

use crate::calls::{game_table, Call, CheckCall, Fields, GameTable, LabelCall, RunCall, ShelfCall, ShelfCalls};
use crate::random::Random;
use reference::grid::{Grid, MOST_INDICES};
use reference::shelf::MOST_SHEETS;
use reference::{paper, Outcome};

/// Receives each call.
pub type Take<'a> = &'a mut dyn FnMut(Call);

fn room(grid: &Grid) -> usize {
    (grid.n() + 1) * grid.m
}

/// Grids whose label tables are all tried, from every start where `true` stands and from the first corner otherwise.
const EVERY_TABLE: [(&[u8], &[u16], bool); 16] = [
    (&[2], &[1], true),
    (&[2], &[2], true),
    (&[2], &[3], true),
    (&[2], &[4], true),
    (&[2], &[5], true),
    (&[2], &[7], true),
    (&[3], &[1], true),
    (&[3], &[2], true),
    (&[3], &[3], true),
    (&[4], &[1], true),
    (&[5], &[1], true),
    (&[6], &[1], true),
    (&[2, 2], &[1, 1], true),
    (&[2, 2], &[1, 2], true),
    (&[2, 3], &[1, 1], true),
    (&[2, 2, 2], &[1, 1, 1], false),
];

/// Every label table of the smallest grids. The labels count through like a number's digits.
pub fn every_table(take: Take) {
    for (sizes, divisions, every_start) in EVERY_TABLE {
        let grid = Grid::new(sizes, divisions).expect("a grid");
        let starts = if every_start { grid.all_points() } else { vec![grid.first_corner()] };
        for start in &starts {
            let mut labels = vec![1; grid.points];
            loop {
                take(Call::Run(RunCall {
                    sizes: sizes.to_vec(),
                    divisions: divisions.to_vec(),
                    start: start[..grid.m].to_vec(),
                    labels: labels.clone(),
                    budget: grid.bound(),
                    answer: room(&grid) + labels[0] as usize,
                }));
                let Some(at) = labels.iter().position(|&label| (label as usize) < grid.m) else { break };
                labels[..at].fill(1);
                labels[at] += 1;
            }
        }
    }
}

/// A grid with a number of blocks from 1 to 6 and at most `limit` points, if the sizes drawn allow it.
pub fn random_grid(random: &mut Random, limit: usize) -> (Vec<u8>, Vec<u16>, Grid) {
    loop {
        let blocks = 1 + random.below(6);
        let mut sizes = vec![2u8; blocks];
        for _ in 0..random.below(MOST_INDICES + 1 - 2 * blocks) {
            sizes[random.below(blocks)] += 1;
        }
        let mut divisions = vec![1u16; blocks];
        let Ok(mut grid) = Grid::new(&sizes, &divisions) else { continue };
        if grid.points > limit {
            continue;
        }
        for _ in 0..random.below(40) {
            let block = random.below(blocks);
            let by = 1 + random.below(1 + divisions[block] as usize) as u16;
            divisions[block] += by;
            match Grid::new(&sizes, &divisions) {
                Ok(larger) if larger.points <= limit => grid = larger,
                _ => divisions[block] -= by,
            }
        }
        return (sizes, divisions, grid);
    }
}

/// A start in the interior where the divisions allow it, on the boundary, or at a corner.
pub fn random_start(random: &mut Random, grid: &Grid) -> Vec<u16> {
    let mut start = vec![0u16; grid.m];
    let kind = random.below(3);
    for (range, &division) in grid.ranges().zip(&grid.divisions) {
        let size = range.len();
        let mut left = division;
        if kind == 0 && left as usize >= size {
            start[range.clone()].fill(1);
            left -= size as u16;
        }
        let corner = range.start + random.below(size);
        while left > 0 {
            let part = if kind == 2 { left } else { 1 + random.below(left as usize) as u16 };
            start[if kind == 2 { corner } else { range.start + random.below(size) }] += part;
            left -= part;
        }
    }
    start
}

/// Labels drawn at random: from all indices, from all but one, from all but one of each block, from two, or one alone.
/// Where an index of each block is left out, no place is complete inside, and the paths are long.
pub fn random_labels(random: &mut Random, grid: &Grid) -> Vec<u8> {
    let any = |random: &mut Random| 1 + random.below(grid.m) as u8;
    let mut choice: Vec<u8> = (1..=grid.m as u8).collect();
    match random.below(8) {
        0 => {}
        1 => drop(choice.remove(random.below(grid.m))),
        2 => choice = vec![any(random), any(random)],
        3 => choice = vec![any(random)],
        _ => choice = one_left_out(random, grid),
    }
    (0..grid.points).map(|_| *random.among(&choice)).collect()
}

/// Takes some of the labels away: one, or each with the same chance.
pub fn with_gaps(random: &mut Random, labels: &mut [u8]) {
    if random.chance(2) {
        let at = random.below(labels.len());
        labels[at] = 0;
    } else {
        let of = 2 + random.below(30);
        labels.iter_mut().for_each(|label| {
            if random.chance(of) {
                *label = 0;
            }
        });
    }
}

/// All indices but one of each block, counted from 1.
pub fn one_left_out(random: &mut Random, grid: &Grid) -> Vec<u8> {
    let mut choice = Vec::new();
    for range in grid.ranges() {
        let left_out = range.start + random.below(range.len());
        choice.extend(range.filter(|&h| h != left_out).map(|h| h as u8 + 1));
    }
    choice
}

/// The bound, more than the bound, nothing, a few places, or the length of the path and one place less.
fn random_budget(random: &mut Random, grid: &Grid, start: &[u16], labels: &[u8]) -> u64 {
    let kind = random.below(8);
    if kind < 2 {
        let mut answer = [0; MOST_INDICES * MOST_INDICES];
        if let Outcome::Ended(end) = paper::follow(grid, start, labels, &mut answer, u64::MAX) {
            return end.places - kind as u64;
        }
    }
    match kind {
        2 => 0,
        3 => 1 + random.below(20) as u64,
        4 => u64::MAX,
        _ => grid.bound(),
    }
}

pub fn random_run(random: &mut Random, limit: usize) -> RunCall {
    let (sizes, divisions, grid) = random_grid(random, limit);
    let start = random_start(random, &grid);
    let labels = random_labels(random, &grid);
    let budget = random_budget(random, &grid, &start, &labels);
    let answer = room(&grid) + random.below(3) * random.below(40);
    RunCall { sizes, divisions, start, labels, budget, answer }
}

/// Random runs on grids of at most `limit` points, some of them also as slips.
pub fn random_runs(seed: u64, count: usize, limit: usize, take: Take) {
    let mut random = Random(seed);
    for number in 0..count {
        let run = random_run(&mut random, limit);
        if number % 8 == 0 {
            take(Call::Slip(run.slip()));
        }
        take(Call::Run(run));
    }
}

/// Random runs on tables where some labels are not yet known, some of them also as slips.
pub fn gap_runs(seed: u64, count: usize, limit: usize, take: Take) {
    let mut random = Random(seed);
    for number in 0..count {
        let mut run = random_run(&mut random, limit);
        with_gaps(&mut random, &mut run.labels);
        if number % 8 == 0 {
            take(Call::Slip(run.slip()));
        }
        take(Call::Run(run));
    }
}

/// Runs with one to three faults, so that the order of the questions shows.
pub fn faulty_runs(seed: u64, count: usize, take: Take) {
    let mut random = Random(seed);
    for _ in 0..count {
        let mut run = random_run(&mut random, 40);
        for _ in 0..1 + random.below(3) {
            spoil(&mut random, &mut run);
        }
        take(Call::Run(run));
    }
}

pub fn spoil(random: &mut Random, run: &mut RunCall) {
    let any = |random: &mut Random, length: usize| random.below(length.max(1));
    let m = run.start.len() as u8;
    let (size, division) = (any(random, run.sizes.len()), any(random, run.divisions.len()));
    let (number, label) = (any(random, run.start.len()), any(random, run.labels.len()));
    match random.below(16) {
        0 => run.sizes.clear(),
        1 => run.sizes.resize(7 + random.below(3), 2),
        2 => run.sizes.iter_mut().skip(size).take(1).for_each(|size| *size = random.below(2) as u8),
        3 => run.sizes.iter_mut().skip(size).take(1).for_each(|size| *size = 15 + random.below(241) as u8),
        4 => drop(run.divisions.pop()),
        5 => run.divisions.push(1),
        6 => run.divisions.iter_mut().skip(division).take(1).for_each(|division| *division = 0),
        7 => run.divisions.iter_mut().skip(division).take(1).for_each(|division| *division = random.next() as u16),
        8 => drop(run.start.pop()),
        9 => run.start.push(0),
        10 => run
            .start
            .iter_mut()
            .skip(number)
            .take(1)
            .for_each(|number| *number = number.wrapping_add(random.next() as u16)),
        11 => drop(run.labels.pop()),
        12 => run.labels.push(1),
        13 => run.labels.iter_mut().skip(label).take(1).for_each(|label| *label = 0),
        14 => run
            .labels
            .iter_mut()
            .skip(label)
            .take(1)
            .for_each(|label| *label = m + 1 + random.below(255 - m as usize) as u8),
        _ => run.answer = run.answer.saturating_sub(1 + random.below(60)),
    }
}

/// The edges of questions 2 to 4: the largest grids that are accepted and the smallest that are not.
pub fn edges(take: Take) {
    let grids: [(&[u8], &[u16]); 12] = [
        (&[2], &[59_999]),
        (&[2], &[60_000]),
        (&[2], &[65_535]),
        (&[3], &[344]),
        (&[3], &[345]),
        (&[16], &[6]),
        (&[16], &[7]),
        (&[17], &[1]),
        (&[2, 2], &[1, 29_999]),
        (&[2, 2], &[1, 30_000]),
        (&[2, 2, 2, 2, 2, 2], &[65_535; 6]),
        (&[8, 8], &[4, 3]),
    ];
    for (sizes, divisions) in grids {
        let grid = Grid::new(sizes, divisions);
        let m: usize = sizes.iter().map(|&size| size as usize).sum();
        let mut start = vec![0; m];
        let mut first = 0;
        for (&size, &division) in sizes.iter().zip(divisions) {
            start[first] = division;
            first += size as usize;
        }
        for label in 1..=m as u8 {
            let labels = vec![label; grid.as_ref().map_or(8, |grid| grid.points)];
            let answer = m * m;
            let run = RunCall {
                sizes: sizes.to_vec(),
                divisions: divisions.to_vec(),
                start: start.clone(),
                labels,
                budget: u64::MAX,
                answer,
            };
            take(Call::Slip(run.slip()));
            take(Call::Run(run));
        }
    }
}

/// Slips whose centres stand at halves and beside them: every point of a block as one vertex, and every two neighbours.
/// Halves need that 32 divides vertices times division.
pub fn halves(take: Take) {
    for division in [15u16, 16, 31, 32, 33, 48, 96, 160, 4_000, 20_000, 20_001] {
        let labels = vec![1; division as usize + 1];
        for first in (0..=division).step_by(if division < 1_000 { 1 } else { 97 }) {
            let second = division - first;
            let (divisions, start) = ([1, division], [1, 0, first, second]);
            let twice = labels.repeat(2);
            take(Call::Slip(
                Fields {
                    sizes: &[2, 2],
                    divisions: &divisions,
                    start: Some(&start),
                    labels: Some(&twice),
                    ..Fields::default()
                }
                .bytes(),
            ));
            let mut labels = labels.clone();
            labels[first as usize] = 2;
            let (divisions, start) = ([division], [first, second]);
            take(Call::Slip(
                Fields {
                    sizes: &[2],
                    divisions: &divisions,
                    start: Some(&start),
                    labels: Some(&labels),
                    ..Fields::default()
                }
                .bytes(),
            ));
        }
    }
}

/// The built-in games on grids of at most `limit` points: the labels, the run on them, and the slip.
pub fn games(seed: u64, count: usize, limit: usize, take: Take) {
    let mut random = Random(seed);
    for number in 0..count {
        let game = 1 + number % 3;
        let GameTable { sizes, losses } = game_table(game);
        let divisions = random_divisions(&mut random, &sizes, limit);
        let grid = Grid::new(&sizes, &divisions).expect("a grid");
        take(Call::Label(LabelCall::of_game(game, &divisions, grid.points)));
        let mut labels = vec![0; grid.points];
        reference::games::fill(&grid, &losses, &mut labels);
        let start = random_start(&mut random, &grid);
        let budget = random_budget(&mut random, &grid, &start, &labels);
        let start_field = (!random.chance(3)).then_some(&start[..]);
        let budget_field = random.chance(3).then_some(budget);
        let fields = Fields {
            sizes: &sizes,
            divisions: &divisions,
            start: start_field,
            budget: budget_field,
            game: Some(game as u8),
            ..Fields::default()
        };
        take(Call::Slip(fields.bytes()));
        take(Call::Slip(Fields { game: None, losses: Some(&losses), ..fields }.bytes()));
        take(Call::Run(RunCall { sizes, divisions, start, labels, budget, answer: room(&grid) }));
    }
}

fn random_divisions(random: &mut Random, sizes: &[u8], limit: usize) -> Vec<u16> {
    let mut divisions = vec![1u16; sizes.len()];
    for _ in 0..random.below(120) {
        let block = random.below(sizes.len());
        divisions[block] += 1;
        if !Grid::new(sizes, &divisions).is_ok_and(|grid| grid.points <= limit) {
            divisions[block] -= 1;
        }
    }
    divisions
}

/// Labellings of games with random losses, some with faults.
pub fn random_labellings(seed: u64, count: usize, limit: usize, take: Take) {
    let mut random = Random(seed);
    for _ in 0..count {
        let (sizes, divisions, grid) = random_grid(&mut random, limit);
        let length = sizes.len() * sizes.iter().map(|&size| size as usize).product::<usize>();
        let highest = *random.among(&[1, 2, 10, 1000]);
        let losses = (0..length).map(|_| 1 + random.below(highest) as u16).collect();
        let mut call = LabelCall { sizes, divisions, losses, buffer: grid.points };
        for _ in 0..random.below(3) * random.below(2) {
            spoil_labelling(&mut random, &mut call);
        }
        take(Call::Label(call));
    }
}

fn spoil_labelling(random: &mut Random, call: &mut LabelCall) {
    let at = random.below(call.losses.len().max(1));
    match random.below(9) {
        0 => call.sizes = vec![2; 7 * random.below(2)],
        1 => call.sizes.iter_mut().take(1).for_each(|size| *size = 1),
        2 => drop(call.divisions.pop()),
        3 => call.divisions.iter_mut().take(1).for_each(|division| *division = u16::MAX),
        4 => drop(call.losses.pop()),
        5 => call.losses.push(1),
        6 => call.losses.iter_mut().skip(at).take(1).for_each(|loss| *loss = 0),
        7 => call.losses.iter_mut().skip(at).take(1).for_each(|loss| *loss = 1001),
        _ => call.buffer = (call.buffer + 3).saturating_sub(random.below(7)),
    }
}

/// Slips with random fields, cut, lengthened, or with bits and bytes changed.
pub fn damaged_slips(seed: u64, count: usize, take: Take) {
    let mut random = Random(seed);
    for number in 0..count {
        let mut slip = random_slip(&mut random);
        if number % 50 == 0 {
            (0..slip.len()).for_each(|length| take(Call::Slip(slip[..length].to_vec())));
            for bit in 0..8 * slip.len() {
                let mut changed = slip.clone();
                changed[bit / 8] ^= 1 << (bit % 8);
                take(Call::Slip(changed));
            }
        }
        for _ in 0..1 + random.below(2) {
            damage(&mut random, &mut slip);
        }
        take(Call::Slip(slip));
    }
}

fn random_slip(random: &mut Random) -> Vec<u8> {
    let run = random_run(random, 30);
    let start = (!random.chance(3)).then_some(&run.start[..]);
    let budget = random.chance(2).then_some(run.budget);
    let game = 1 + random.below(3);
    let sizes = game_table(game).sizes;
    if random.chance(3) {
        let divisions = random_divisions(random, &sizes, 60);
        return Fields {
            sizes: &sizes,
            divisions: &divisions,
            start: None,
            budget,
            game: Some(game as u8),
            ..Fields::default()
        }
        .bytes();
    }
    let fields = Fields { sizes: &run.sizes, divisions: &run.divisions, start, budget, ..Fields::default() };
    if random.chance(3) {
        let losses = random_losses(random, &run.sizes);
        return Fields { losses: Some(&losses), ..fields }.bytes();
    }
    Fields { labels: Some(&run.labels), ..fields }.bytes()
}

/// Losses of a game with these sizes, now and then one out of range.
fn random_losses(random: &mut Random, sizes: &[u8]) -> Vec<u16> {
    let length = sizes.len() * sizes.iter().map(|&size| size as usize).product::<usize>();
    let highest = *random.among(&[1, 2, 10, 1000]);
    let mut losses: Vec<u16> = (0..length).map(|_| 1 + random.below(highest) as u16).collect();
    if random.chance(4) {
        losses[random.below(length)] = *random.among(&[0, 256, 1000, 1001, 1024]);
    }
    losses
}

/// Slips with losses of their own on grids of at most `limit` points.
pub fn own_games(seed: u64, count: usize, limit: usize, take: Take) {
    let mut random = Random(seed);
    for _ in 0..count {
        let run = random_run(&mut random, limit);
        let losses = random_losses(&mut random, &run.sizes);
        let start = (!random.chance(3)).then_some(&run.start[..]);
        let budget = random.chance(3).then_some(run.budget);
        let fields = Fields {
            sizes: &run.sizes,
            divisions: &run.divisions,
            start,
            budget,
            losses: Some(&losses),
            ..Fields::default()
        };
        take(Call::Slip(fields.bytes()));
    }
}

fn damage(random: &mut Random, slip: &mut Vec<u8>) {
    let at = random.below(slip.len().max(1));
    match random.below(6) {
        0 => slip.truncate(at),
        1 => (0..1 + random.below(4)).for_each(|_| slip.push(random.next() as u8)),
        2 => slip.iter_mut().skip(at).take(1).for_each(|byte| *byte = random.next() as u8),
        3 => slip.iter_mut().skip(at).take(1).for_each(|byte| *byte ^= 1 << random.below(8)),
        4 => slip.iter_mut().take(1).for_each(|byte| *byte = random.below(32) as u8),
        _ => slip.iter_mut().skip(at % 20).take(1).for_each(|byte| *byte = random.below(18) as u8),
    }
}

/// Every set of up to n + 1 points of small grids, some with a point that stands twice, in random order and with random
/// labels, gaps too.
pub fn every_list(take: Take) {
    let mut random = Random(14);
    let grids: [(&[u8], &[u16]); 9] = [
        (&[2], &[3]),
        (&[3], &[2]),
        (&[4], &[1]),
        (&[2, 2], &[1, 1]),
        (&[2, 2], &[2, 1]),
        (&[3, 2], &[1, 1]),
        (&[2, 2, 2], &[1, 1, 1]),
        (&[3, 3], &[1, 1]),
        (&[4], &[2]),
    ];
    for (sizes, divisions) in grids {
        let grid = Grid::new(sizes, divisions).expect("a grid");
        let all = grid.all_points();
        for set in 1u32..1 << all.len() {
            if set.count_ones() as usize > grid.n() + 1 {
                continue;
            }
            let mut chosen: Vec<usize> = (0..all.len()).filter(|&at| set >> at & 1 == 1).collect();
            if chosen.len() <= grid.n() && random.chance(8) {
                chosen.push(*random.among(&chosen));
            }
            for at in 1..chosen.len() {
                chosen.swap(at, random.below(at + 1));
            }
            take(check_of(&mut random, sizes, divisions, &grid, chosen.iter().map(|&at| &all[at][..grid.m])));
        }
    }
}

/// A list with random labels, mostly such that some block may be complete.
fn check_of<'a>(
    random: &mut Random,
    sizes: &[u8],
    divisions: &[u16],
    grid: &Grid,
    points: impl Iterator<Item = &'a [u16]>,
) -> Call {
    let mut labels = random_labels(random, grid);
    for _ in 0..random.below(3) {
        let at = random.below(labels.len());
        labels[at] = 0;
    }
    Call::Check(CheckCall {
        sizes: sizes.to_vec(),
        divisions: divisions.to_vec(),
        labels,
        points: points.flatten().copied().collect(),
    })
}

/// Parts of random simplices, some with a point moved, in random order.
pub fn lists_near_simplices(seed: u64, count: usize, limit: usize, take: Take) {
    let mut random = Random(seed);
    for _ in 0..count {
        let (sizes, divisions, grid) = random_grid(&mut random, limit);
        let mut points = random_simplex(&mut random, &grid);
        for _ in 0..random.below(points.len()) {
            points.swap_remove(random.below(points.len()));
        }
        for at in 1..points.len() {
            points.swap(at, random.below(at + 1));
        }
        if random.chance(3) {
            let at = random.below(points.len());
            points[at] = random_start(&mut random, &grid);
        }
        take(check_of(&mut random, &sizes, &divisions, &grid, points.iter().map(|point| &point[..])));
    }
}

/// From a random point steps at indices in random order, as far as they stay on the grid.
fn random_simplex(random: &mut Random, grid: &Grid) -> Vec<Vec<u16>> {
    let mut points = vec![random_start(random, grid)];
    let mut left: Vec<u8> = one_left_out(random, grid);
    while !left.is_empty() {
        let h = left.swap_remove(random.below(left.len())) as usize - 1;
        let range = grid.ranges().find(|range| range.contains(&h)).expect("a block");
        let before = if h == range.start { range.end - 1 } else { h - 1 };
        let mut next = points[points.len() - 1].clone();
        if next[before] > 0 {
            next[h] += 1;
            next[before] -= 1;
            points.push(next);
        }
    }
    points
}

/// All points of a simplex that begins at the first corner, the last first, with the label 1 everywhere: the test goes
/// through all of them.
pub fn whole_simplex(sizes: &[u8], divisions: &[u16]) -> CheckCall {
    let grid = Grid::new(sizes, divisions).expect("a grid");
    let mut points = vec![grid.first_corner()[..grid.m].to_vec()];
    for range in grid.ranges() {
        for h in range.start + 1..range.end {
            let mut next = points[points.len() - 1].clone();
            next[h] += 1;
            next[h - 1] -= 1;
            points.push(next);
        }
    }
    points.reverse();
    CheckCall {
        sizes: sizes.to_vec(),
        divisions: divisions.to_vec(),
        labels: vec![1; grid.points],
        points: points.concat(),
    }
}

/// The ends that the reference announces, in random order, on their own tables.
pub fn checked_ends(seed: u64, count: usize, limit: usize, take: Take) {
    let mut random = Random(seed);
    for _ in 0..count {
        let RunCall { sizes, divisions, start, labels, .. } = random_run(&mut random, limit);
        let grid = Grid::new(&sizes, &divisions).expect("a grid");
        let mut answer = [0; MOST_INDICES * MOST_INDICES];
        let Outcome::Ended(end) = paper::follow(&grid, &start, &labels, &mut answer, u64::MAX) else { continue };
        let mut points: Vec<&[u16]> = answer.chunks_exact(grid.m).take(end.vertices).collect();
        for at in 1..points.len() {
            points.swap(at, random.below(at + 1));
        }
        take(Call::Check(CheckCall { sizes, divisions, labels, points: points.concat() }));
    }
}

/// Lists with one to three faults, so that the order of the questions shows.
pub fn faulty_lists(seed: u64, count: usize, take: Take) {
    let mut random = Random(seed);
    for _ in 0..count {
        let (sizes, divisions, grid) = random_grid(&mut random, 40);
        let points = random_simplex(&mut random, &grid);
        let labels = random_labels(&mut random, &grid);
        let mut call = CheckCall { sizes, divisions, labels, points: points.concat() };
        for _ in 0..1 + random.below(3) {
            spoil_list(&mut random, &mut call);
        }
        take(Call::Check(call));
    }
}

fn spoil_list(random: &mut Random, call: &mut CheckCall) {
    let (label, number) = (random.below(call.labels.len().max(1)), random.below(call.points.len().max(1)));
    match random.below(12) {
        0 => call.sizes = vec![2; 7 * random.below(2)],
        1 => call.sizes.iter_mut().take(1).for_each(|size| *size = 1),
        2 => drop(call.divisions.pop()),
        3 => call.divisions.iter_mut().take(1).for_each(|division| *division = u16::MAX),
        4 => drop(call.labels.pop()),
        5 => call.labels.push(0),
        6 => call.labels.iter_mut().skip(label).take(1).for_each(|label| *label = 17 + random.below(239) as u8),
        7 => call.points.clear(),
        8 => drop(call.points.pop()),
        9 => call.points.extend_from_within(..),
        10 => call.points.iter_mut().skip(number).take(1).for_each(|number| *number = number.wrapping_add(1)),
        _ => call.points.iter_mut().skip(number).take(1).for_each(|number| *number = random.next() as u16),
    }
}

/// Where a long path begins.
#[derive(Clone, Copy, Debug)]
pub enum From {
    FirstCorner,
    LastCorner,
    Middle,
}

/// Grids, starts, seeds and rounds for which the search found long paths.
pub const LONG_RUNS: [(&[u8], &[u16], From, u64, usize); 8] = [
    (&[3], &[344], From::LastCorner, 44, 200),
    (&[2, 2], &[240, 240], From::FirstCorner, 224, 200),
    (&[4], &[60], From::FirstCorner, 106, 200),
    (&[16], &[6], From::LastCorner, 1, 1_000),
    (&[2, 2, 2, 2, 2, 2], &[5, 5, 5, 5, 5, 6], From::Middle, 0, 20_000),
    (&[2, 2, 2], &[38, 38, 38], From::LastCorner, 363, 500),
    (&[3, 3, 3], &[7, 7, 8], From::LastCorner, 1, 5_000),
    (&[2, 2, 2, 2], &[14, 14, 15, 15], From::LastCorner, 2, 3_000),
];

pub fn start_from(grid: &Grid, from: From) -> Vec<u16> {
    let mut start = vec![0; grid.m];
    for (range, &division) in grid.ranges().zip(&grid.divisions) {
        let size = range.len() as u16;
        match from {
            From::FirstCorner => start[range.start] = division,
            From::LastCorner => start[range.end - 1] = division,
            From::Middle => {
                start[range.clone()].fill(division / size);
                start[range.start] += division % size;
            }
        }
    }
    start
}

/// A run with a long path. A random table without one index of each block, then for some rounds a vertex of the end
/// simplex gets another label, and the change stays if it makes the path no shorter.
pub fn long_run(sizes: &[u8], divisions: &[u16], from: From, seed: u64, rounds: usize) -> RunCall {
    let grid = Grid::new(sizes, divisions).expect("a grid");
    let start = start_from(&grid, from);
    let points = grid.all_points();
    let mut random = Random(seed);
    let choice = one_left_out(&mut random, &grid);
    let mut labels: Vec<u8> = (0..grid.points).map(|_| *random.among(&choice)).collect();
    let mut answer = [0; MOST_INDICES * MOST_INDICES];
    let mut length = |labels: &[u8], vertex: &mut [u16; MOST_INDICES], pick: usize| {
        let Outcome::Ended(end) = paper::follow(&grid, &start, labels, &mut answer, u64::MAX) else {
            unreachable!("no budget")
        };
        let pick = pick % end.vertices;
        vertex[..grid.m].copy_from_slice(&answer[pick * grid.m..(pick + 1) * grid.m]);
        end.places
    };
    let mut vertex = [0; MOST_INDICES];
    let mut best = length(&labels, &mut vertex, 0);
    for _ in 0..rounds {
        let at = points.binary_search(&vertex).expect("a grid point");
        let old = std::mem::replace(&mut labels[at], *random.among(&choice));
        let mut other = [0; MOST_INDICES];
        let places = length(&labels, &mut other, random.below(MOST_INDICES));
        if places >= best {
            (best, vertex) = (places, other);
        } else {
            labels[at] = old;
            length(&labels, &mut vertex, random.below(MOST_INDICES));
        }
    }
    RunCall {
        sizes: sizes.to_vec(),
        divisions: divisions.to_vec(),
        start,
        labels,
        budget: grid.bound(),
        answer: room(&grid),
    }
}

/// Every list of up to five numbers from 0 to one above its length, with every count to one above its length: each
/// sheet filed and asked for.
pub fn every_shelf(take: Take) {
    for length in 0..=5 {
        let most = length as u16 + 1;
        let mut list = vec![0; length];
        loop {
            for count in 0..=length + 1 {
                for sheet in (0..=length + 2).chain([65_535, 65_536, 65_537, usize::MAX]) {
                    for call in [ShelfCall::File(sheet), ShelfCall::Ask(sheet)] {
                        take(Call::Shelf(ShelfCalls { list: list.clone(), count, calls: vec![call] }));
                    }
                }
            }
            let Some(at) = list.iter().position(|&number| number < most) else { break };
            list[..at].fill(0);
            list[at] += 1;
        }
    }
}

/// Shelves of up to 1,000 sheets, a third of them with 998 or more, some with a fault, and calls in turn on each.
pub fn random_shelves(seed: u64, count: usize, take: Take) {
    let mut random = Random(seed);
    for _ in 0..count {
        let sheets = if random.chance(3) { MOST_SHEETS - random.below(3) } else { random.below(MOST_SHEETS) };
        let mut list = random_shelf(&mut random, sheets);
        list.extend((0..random.below(4)).map(|_| random.below(1 << 16) as u16));
        let mut count = sheets;
        match random.below(8) {
            0 if sheets > 0 => list[random.below(sheets)] = random.below(sheets + 2) as u16,
            1 => count += random.below(3),
            _ => {}
        }
        let calls = (0..16).map(|_| random_shelf_call(&mut random, &list, sheets)).collect();
        take(Call::Shelf(ShelfCalls { list, count, calls }));
    }
}

/// Each sheet replaces an earlier one that is not replaced, or none.
fn random_shelf(random: &mut Random, sheets: usize) -> Vec<u16> {
    let (mut list, mut current) = (Vec::new(), Vec::new());
    for sheet in 1..=sheets {
        let replaces = !current.is_empty() && !random.chance(3);
        list.push(if replaces { current.swap_remove(random.below(current.len())) } else { 0 });
        current.push(sheet as u16);
    }
    list
}

/// Half of the filings name a sheet that no entry names, or none.
fn random_shelf_call(random: &mut Random, list: &[u16], sheets: usize) -> ShelfCall {
    let sheet = random.below(sheets + 3);
    if random.chance(2) {
        return ShelfCall::Ask(sheet);
    }
    let named = if random.chance(2) { (0..=sheet as u16).rev().find(|named| !list.contains(named)) } else { None };
    ShelfCall::File(named.map_or(sheet, usize::from))
}
