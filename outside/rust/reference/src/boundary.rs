//! The older boundary rule, twice: by the request's sentences over a list of all points, and in one pass from point to
//! point.

use crate::grid::{Grid, MOST_INDICES};
use crate::questions::labels_in_range;
use std::ops::Range;

/// Questions 1 to 4, 6, 7 and 12.
fn questions(sizes: &[u8], divisions: &[u16], old: &[u8], labels: usize) -> Result<Grid, u64> {
    let grid = Grid::new(sizes, divisions)?;
    if old.len() != grid.points {
        return Err(6);
    }
    if !labels_in_range(old, grid.m) {
        return Err(7);
    }
    if labels != grid.points {
        return Err(12);
    }
    Ok(grid)
}

/// The index before each, round its block.
fn indices_before(grid: &Grid) -> [u8; MOST_INDICES] {
    let mut before = [0; MOST_INDICES];
    for range in grid.ranges() {
        for h in range.clone() {
            before[h] = if h == range.start { range.end - 1 } else { h - 1 } as u8;
        }
    }
    before
}

/// "interior labels are the old ones and .. boundary points have the label of rule (1.3): the first index h with y_h =
/// 0 and the number before it, round the block, positive"
pub fn by_rule(sizes: &[u8], divisions: &[u16], old: &[u8], labels: &mut [u8]) -> Result<usize, u64> {
    let grid = questions(sizes, divisions, old, labels.len())?;
    let before = indices_before(&grid);
    for (at, point) in grid.all_points().iter().enumerate() {
        let interior = point[..grid.m].iter().all(|&number| number > 0);
        let mut rule = (0..grid.m).filter(|&h| point[h] == 0 && point[before[h] as usize] > 0);
        labels[at] =
            if interior { old[at] } else { rule.next().expect("a boundary point has such an index") as u8 + 1 };
    }
    Ok(grid.points)
}

/// The same from each point to the next. Where no index is found the point is interior: going back from a 0 one meets a
/// positive number.
pub fn write(sizes: &[u8], divisions: &[u16], old: &[u8], labels: &mut [u8]) -> Result<usize, u64> {
    let grid = questions(sizes, divisions, old, labels.len())?;
    let ranges: Vec<Range<usize>> = grid.ranges().collect();
    let before = indices_before(&grid);
    let mut point = [0; MOST_INDICES];
    for (range, division) in ranges.iter().zip(grid.divisions) {
        point[range.end - 1] = division;
    }
    for (new, &old) in labels.iter_mut().zip(old) {
        *new = named(&before, &point, grid.m).map_or(old, |h| h as u8 + 1);
        advance(&ranges, &mut point);
    }
    Ok(grid.points)
}

fn named(before: &[u8; MOST_INDICES], point: &[u16; MOST_INDICES], m: usize) -> Option<usize> {
    (0..m).find(|&h| point[h] == 0 && point[before[h] as usize] > 0)
}

/// The next point in lexicographic order; the last block that is not at its last list goes on, and those behind it
/// begin again.
fn advance(ranges: &[Range<usize>], point: &mut [u16; MOST_INDICES]) {
    for range in ranges.iter().rev() {
        let block = &mut point[range.clone()];
        let last = block.len() - 1;
        let at = block.iter().rposition(|&number| number > 0).unwrap_or(0);
        let rest = std::mem::take(&mut block[at]);
        if at > 0 {
            block[at - 1] += 1;
            block[last] = rest - 1;
            return;
        }
        block[last] = rest;
    }
}
