//! The inputs of the comparison for the older boundary rule.

use crate::calls::{BoundaryCall, Call, RunCall};
use crate::inputs::{random_grid, random_labels, random_start, Take};
use crate::random::Random;
use reference::grid::Grid;
use reference::{boundary, paper, Kind, Outcome};

/// Grids whose old tables are all tried, gaps too.
const EVERY_OLD_TABLE: [(&[u8], &[u16]); 8] = [
    (&[2], &[1]),
    (&[2], &[2]),
    (&[2], &[4]),
    (&[3], &[1]),
    (&[3], &[2]),
    (&[4], &[1]),
    (&[2, 2], &[1, 1]),
    (&[2, 2], &[2, 1]),
];

/// Every old table of the smallest grids, with a run from every start over the new one.
pub fn every_table(take: Take) {
    for (sizes, divisions) in EVERY_OLD_TABLE {
        let grid = Grid::new(sizes, divisions).expect("a grid");
        let mut labels = vec![0; grid.points];
        loop {
            let call = BoundaryCall {
                sizes: sizes.to_vec(),
                divisions: divisions.to_vec(),
                labels: labels.clone(),
                buffer: grid.points,
            };
            for start in grid.all_points() {
                take(Call::Run(run_over(&grid, &call, start[..grid.m].to_vec())));
            }
            take(Call::Boundary(call));
            let Some(at) = labels.iter().position(|&label| (label as usize) < grid.m) else { break };
            labels[..at].fill(0);
            labels[at] += 1;
        }
    }
}

/// Tables of random grids of at most `limit` points, most with gaps, each with a run over the new one.
pub fn tables(seed: u64, count: usize, limit: usize, take: Take) {
    let mut random = Random(seed);
    for _ in 0..count {
        let (call, grid) = random_call(&mut random, limit);
        let start = random_start(&mut random, &grid);
        take(Call::Run(run_over(&grid, &call, start)));
        take(Call::Boundary(call));
    }
}

/// Calls with one to three faults, so that the order of the questions shows.
pub fn faulty_calls(seed: u64, count: usize, take: Take) {
    let mut random = Random(seed);
    for _ in 0..count {
        let (mut call, grid) = random_call(&mut random, 40);
        for _ in 0..1 + random.below(3) {
            spoil(&mut random, &grid, &mut call);
        }
        take(Call::Boundary(call));
    }
}

fn random_call(random: &mut Random, limit: usize) -> (BoundaryCall, Grid) {
    let (sizes, divisions, grid) = random_grid(random, limit);
    let mut labels = random_labels(random, &grid);
    let gaps = random.below(4) * random.below(8);
    labels.iter_mut().for_each(|label| {
        if random.below(20) < gaps {
            *label = 0;
        }
    });
    (BoundaryCall { sizes, divisions, labels, buffer: grid.points }, grid)
}

/// The run over the new table. "every end that a run announces is a place end", and a label that it asks for is one of
/// the interior.
fn run_over(grid: &Grid, call: &BoundaryCall, start: Vec<u16>) -> RunCall {
    let mut labels = vec![0; call.buffer];
    boundary::by_rule(&call.sizes, &call.divisions, &call.labels, &mut labels).expect("a table");
    let mut answer = vec![0; (grid.n() + 1) * grid.m];
    match paper::run(&call.sizes, &call.divisions, &start, &labels, &mut answer, u64::MAX) {
        Outcome::Ended(end) => {
            assert!(end.kind == Kind::Place, "a facet end over a boundary table: {call:?} from {start:?}")
        }
        Outcome::Unknown { position, .. } => {
            assert!(
                grid.all_points()[position][..grid.m].iter().all(|&number| number > 0),
                "a gap on the boundary: {call:?}"
            )
        }
        other => panic!("{other:?}: {call:?} from {start:?}"),
    }
    let (sizes, divisions) = (call.sizes.clone(), call.divisions.clone());
    RunCall { sizes, divisions, start, labels, budget: u64::MAX, answer: answer.len() }
}

fn spoil(random: &mut Random, grid: &Grid, call: &mut BoundaryCall) {
    let at = random.below(call.labels.len().max(1));
    let above = grid.m + 1 + random.below(255 - grid.m);
    match random.below(9) {
        0 => call.sizes = vec![2; 7 * random.below(2)],
        1 => call.sizes.iter_mut().take(1).for_each(|size| *size = 1),
        2 => drop(call.divisions.pop()),
        3 => call.divisions.iter_mut().take(1).for_each(|division| *division = u16::MAX),
        4 => drop(call.labels.pop()),
        5 => call.labels.push(1),
        6 => call.labels.iter_mut().skip(at).take(1).for_each(|label| *label = grid.m as u8 + 1),
        7 => call.labels.iter_mut().skip(at).take(1).for_each(|label| *label = above as u8),
        _ => call.buffer = (call.buffer + 3).saturating_sub(random.below(7)),
    }
}
