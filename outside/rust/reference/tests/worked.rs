//! Document 01's worked ends, edges, example sheet and labels, by the paper's steps and by the definitions.

use reference::games::{fill, fill_by_rule, GAMES};
use reference::grid::{Grid, MOST_POINTS};
use reference::slip::{sheet, ByDefinitions, ByPaper, Method, SHEET_BYTES};
use reference::{paper, small, End, Kind, Outcome};

/// Sizes, divisions, start, labels; places, labels read, kind, block, vertices.
type Row = (&'static [u8], &'static [u16], &'static [u16], &'static [u8], u64, u64, Kind, usize, &'static [u16]);

const WORKED: [Row; 8] = [
    (&[2], &[1], &[1, 0], &[1, 1], 1, 1, Kind::Place, 1, &[1, 0]),
    (&[2], &[1], &[1, 0], &[2, 2], 2, 2, Kind::Facet, 1, &[0, 1]),
    (&[2], &[1], &[1, 0], &[1, 2], 2, 2, Kind::Place, 1, &[1, 0, 0, 1]),
    (&[2], &[4], &[2, 2], &[1; 5], 3, 3, Kind::Facet, 1, &[4, 0]),
    (&[3], &[1], &[1, 0, 0], &[3; 3], 2, 2, Kind::Facet, 1, &[0, 0, 1]),
    (&[3], &[3], &[1, 1, 1], &[1; 10], 3, 3, Kind::Facet, 1, &[3, 0, 0]),
    (&[2, 2], &[1, 1], &[1, 0, 1, 0], &[3, 1, 2, 4], 3, 3, Kind::Place, 2, &[1, 0, 1, 0, 1, 0, 0, 1, 0, 1, 0, 1]),
    (&[2, 2], &[1, 1], &[1, 0, 1, 0], &[2, 2, 2, 4], 5, 4, Kind::Facet, 1, &[0, 1, 1, 0]),
];

#[test]
fn worked_ends() {
    for run in [paper::run, small::run] {
        for (sizes, divisions, start, labels, places, labels_read, kind, block, vertices) in WORKED {
            let mut answer = [77; 256];
            let end = End { places, labels_read, kind, block, vertices: vertices.len() / start.len() };
            assert_eq!(run(sizes, divisions, start, labels, &mut answer, u64::MAX), Outcome::Ended(end));
            assert_eq!(&answer[..vertices.len()], vertices);
            assert!(answer[vertices.len()..].iter().all(|&number| number == 77));
        }
        let mut answer = [77; 4];
        assert_eq!(run(&[2], &[4], &[2, 2], &[1; 5], &mut answer, 2), Outcome::Spent(2));
        assert_eq!(answer, [77; 4]);
    }
}

#[test]
fn edges() {
    let run =
        |division: u16, labels: &[u8]| paper::run(&[2], &[division], &[division, 0], labels, &mut [0; 4], u64::MAX);
    assert!(matches!(run(59_999, &[2; 60_000]), Outcome::Ended(End { places: 60_000, .. })));
    assert_eq!(run(60_000, &[2; 60_001]), Outcome::Refused(4));
    assert!(matches!(run(1, &[2, 2]), Outcome::Ended(_)));
    assert_eq!(run(1, &[2, 0]), Outcome::Unknown { places: 0, position: 1 });
    assert_eq!(run(1, &[3, 2]), Outcome::Refused(7));
}

fn printed<M: Method>(slip: &[u8]) -> String {
    let mut page = [0; SHEET_BYTES];
    let length = sheet::<M>(slip, &mut page);
    String::from_utf8_lossy(&page[..length]).into_owned()
}

#[test]
fn example_sheet() {
    let slip = [4, 2, 2, 2, 1, 0, 1, 0, 2, 2, 2, 4];
    let expected =
        "places 5\nlabels read 4\nbound 68\nend facet\nblock 1\nvertices 1\n0 1 1 0\ncentre 0 10000 10000 0\n";
    assert_eq!(printed::<ByPaper>(&slip), expected);
    assert_eq!(printed::<ByDefinitions>(&slip), expected);
}

#[test]
fn labels_of_game_1() {
    let grid = Grid::new(GAMES[0].sizes, &[1, 1, 1]).expect("a grid");
    for fill in [fill, fill_by_rule] {
        let mut labels = [0; 8];
        fill(&grid, GAMES[0].losses, &mut labels);
        let points = grid.all_points();
        let label =
            |point: [u16; 6]| labels[points.iter().position(|other| other[..6] == point).expect("a grid point")];
        assert_eq!((label([1, 0, 1, 0, 1, 0]), label([1, 0, 0, 1, 1, 0])), (4, 2));
    }
}
