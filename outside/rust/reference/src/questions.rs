//! The questions of a run and of a game labelling, in document 01's order.

use crate::grid::Grid;

/// Questions 1 to 8; the start comes back as part of the call.
pub fn of_run(sizes: &[u8], divisions: &[u16], start: &[u16], labels: &[u8], answer: usize) -> Result<Grid, u64> {
    let grid = Grid::new(sizes, divisions)?;
    if !grid.has_point(start) {
        return Err(5);
    }
    if labels.len() != grid.points {
        return Err(6);
    }
    if !labels_in_range(labels, grid.m) {
        return Err(7);
    }
    if answer < (grid.n() + 1) * grid.m {
        return Err(8);
    }
    Ok(grid)
}

/// Questions 1 to 4 and 10 to 12.
pub fn of_labelling(sizes: &[u8], divisions: &[u16], losses: &[u16], labels: usize) -> Result<Grid, u64> {
    let grid = Grid::new(sizes, divisions)?;
    if losses.len() != grid.losses() {
        return Err(10);
    }
    if losses.iter().any(|&loss| !(1..=1000).contains(&loss)) {
        return Err(11);
    }
    if labels != grid.points {
        return Err(12);
    }
    Ok(grid)
}

/// Question 7, over the whole table without leaving early, so that the compiler can test many bytes at once.
pub fn labels_in_range(labels: &[u8], m: usize) -> bool {
    let mut outside = 0u8;
    for &label in labels {
        outside |= (label > m as u8) as u8;
    }
    outside == 0
}
