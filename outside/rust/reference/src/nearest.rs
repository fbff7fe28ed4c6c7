//! Where the path came nearest to a grid point, twice: by the points that come in, and by all points of all places.

use crate::grid::{Grid, MOST_INDICES};
use crate::outcome::Outcome;
use crate::{paper, questions, small};

/// What the run answers, and after an end the position of the nearest visited vertex and how many positions are listed.
#[derive(Clone, Copy, Debug, PartialEq, Eq)]
pub struct Near {
    pub run: Outcome,
    pub nearest: Option<(usize, usize)>,
}

/// A point, the distance within which vertices are listed, and the list.
pub struct Around<'a> {
    pub w: &'a [u16],
    pub distance: u64,
    pub list: &'a mut [u16],
}

type Point = [u16; MOST_INDICES];

/// Questions 1 to 8, where 5 is put for w behind the start, and 8 for the list behind the answer buffer.
fn questions(
    sizes: &[u8],
    divisions: &[u16],
    start: &[u16],
    labels: &[u8],
    answer: usize,
    around: &Around,
) -> Result<Grid, u64> {
    let grid = Grid::new(sizes, divisions)?;
    if !grid.has_point(start) || !grid.has_point(around.w) {
        return Err(5);
    }
    questions::of_run(sizes, divisions, start, labels, answer)?;
    if around.list.len() < grid.points {
        return Err(8);
    }
    Ok(grid)
}

/// "the sum over all indices of the absolute coordinate difference times (D / d_j), D being the product of the
/// divisions"
fn distance(grid: &Grid, w: &[u16], point: &Point) -> u64 {
    let all: u64 = grid.divisions[..grid.blocks].iter().map(|&division| division as u64).product();
    let blocks = grid.ranges().zip(grid.divisions);
    blocks
        .map(|(range, division)| range.map(|h| w[h].abs_diff(point[h]) as u64).sum::<u64>() * (all / division as u64))
        .sum()
}

/// Writes the list of an end and answers the nearest vertex, of vertices in order of first visit.
fn reported(grid: &Grid, visited: &[usize], around: Around) -> (usize, usize) {
    let points = grid.all_points();
    let away: Vec<u64> = visited.iter().map(|&position| distance(grid, around.w, &points[position])).collect();
    let mut listed = 0;
    for (&position, _) in visited.iter().zip(&away).filter(|(_, &away)| away <= around.distance) {
        around.list[listed] = position as u16;
        listed += 1;
    }
    let least = away.iter().min().expect("the start is visited");
    let first = away.iter().position(|away| away == least).expect("the least is one of them");
    (visited[first], listed)
}

/// By the paper's steps: each point that comes in is looked up in a table of the points met.
pub fn by_paper(
    sizes: &[u8],
    divisions: &[u16],
    start: &[u16],
    labels: &[u8],
    answer: &mut [u16],
    budget: u64,
    around: Around,
) -> Near {
    let grid = match questions(sizes, divisions, start, labels, answer.len(), &around) {
        Ok(grid) => grid,
        Err(number) => return Near { run: Outcome::Refused(number), nearest: None },
    };
    let (mut met, mut visited) = (vec![false; grid.points], Vec::new());
    let run = paper::follow_past(&grid, start, labels, answer, budget, |position| {
        if !std::mem::replace(&mut met[position], true) {
            visited.push(position);
        }
    });
    let ended = matches!(run, Outcome::Ended(_));
    Near { run, nearest: ended.then(|| reported(&grid, &visited, around)) }
}

/// By the definitions: the points of all places one after the other, each where it stands first.
pub fn by_definitions(
    sizes: &[u8],
    divisions: &[u16],
    start: &[u16],
    labels: &[u8],
    answer: &mut [u16],
    budget: u64,
    around: Around,
) -> Near {
    let grid = match questions(sizes, divisions, start, labels, answer.len(), &around) {
        Ok(grid) => grid,
        Err(number) => return Near { run: Outcome::Refused(number), nearest: None },
    };
    let mut visited = Vec::new();
    let run = small::Problem::new(&grid, start).follow_past(labels, budget, answer, |place| {
        let new: Vec<usize> = place.iter().copied().filter(|position| !visited.contains(position)).collect();
        assert!(new.len() <= 1, "a place brings at most one point");
        visited.extend(new);
    });
    let ended = matches!(run, Outcome::Ended(_));
    Near { run, nearest: ended.then(|| reported(&grid, &visited, around)) }
}
