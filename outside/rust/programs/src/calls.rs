//! The calls, and a call as text in the form of the stored cases.

use crate::near::NearCall;
use crate::refinements::RefineCall;
use crate::trails::{ReadCall, TrailCall};
use reference::games::GAMES;
use std::fmt::{Display, Formatter, Result};

/// A run; `answer` is the length of the answer buffer.
#[derive(Clone, Debug, Default, PartialEq)]
pub struct RunCall {
    pub sizes: Vec<u8>,
    pub divisions: Vec<u16>,
    pub start: Vec<u16>,
    pub labels: Vec<u8>,
    pub budget: u64,
    pub answer: usize,
}

/// A game labelling; `buffer` is the length of the label buffer.
#[derive(Clone, Debug, Default, PartialEq)]
pub struct LabelCall {
    pub sizes: Vec<u8>,
    pub divisions: Vec<u16>,
    pub losses: Vec<u16>,
    pub buffer: usize,
}

/// The boundary table of a table of labels; `buffer` is the length of the label buffer.
#[derive(Clone, Debug, Default, PartialEq)]
pub struct BoundaryCall {
    pub sizes: Vec<u8>,
    pub divisions: Vec<u16>,
    pub labels: Vec<u8>,
    pub buffer: usize,
}

/// Calls of a shelf in turn; the count goes on by each answer.
#[derive(Clone, Debug, PartialEq)]
pub struct ShelfCalls {
    pub list: Vec<u16>,
    pub count: usize,
    pub calls: Vec<ShelfCall>,
}

#[derive(Clone, Copy, Debug, PartialEq)]
pub enum ShelfCall {
    File(usize),
    Ask(usize),
}

/// A list of points to be checked, m numbers each one after another.
#[derive(Clone, Debug, Default, PartialEq)]
pub struct CheckCall {
    pub sizes: Vec<u8>,
    pub divisions: Vec<u16>,
    pub labels: Vec<u8>,
    pub points: Vec<u16>,
}

#[derive(Clone, Debug, PartialEq)]
pub enum Call {
    Run(RunCall),
    Label(LabelCall),
    Slip(Vec<u8>),
    Shelf(ShelfCalls),
    Check(CheckCall),
    Boundary(BoundaryCall),
    Near(NearCall),
    Refine(RefineCall),
    Trail(TrailCall),
    Read(ReadCall),
}

/// A slip's fields; those that are none are left out of the slip.
#[derive(Clone, Default)]
pub struct Fields<'a> {
    pub sizes: &'a [u8],
    pub divisions: &'a [u16],
    pub start: Option<&'a [u16]>,
    pub budget: Option<u64>,
    pub labels: Option<&'a [u8]>,
    pub game: Option<u8>,
    pub losses: Option<&'a [u16]>,
}

impl Fields<'_> {
    pub fn bytes(&self) -> Vec<u8> {
        let bit = |there: bool, value: u8| if there { value } else { 0 };
        let map = bit(self.start.is_some(), 1)
            | bit(self.budget.is_some(), 2)
            | bit(self.labels.is_some(), 4)
            | bit(self.game.is_some(), 8)
            | bit(self.losses.is_some(), 16);
        let mut slip = vec![map, self.sizes.len() as u8];
        slip.extend(self.sizes);
        slip.extend(self.divisions.iter().flat_map(|division| division.to_le_bytes()));
        slip.extend(self.start.unwrap_or(&[]).iter().flat_map(|number| number.to_le_bytes()));
        slip.extend(self.budget.iter().flat_map(|budget| budget.to_le_bytes()));
        slip.extend(self.labels.unwrap_or(&[]));
        slip.extend(self.game);
        slip.extend(self.losses.unwrap_or(&[]).iter().flat_map(|loss| loss.to_le_bytes()));
        slip
    }
}

impl RunCall {
    /// The slip of the same run. Its questions come in another order, and it lends an answer buffer that is long
    /// enough.
    pub fn slip(&self) -> Vec<u8> {
        let (start, budget, labels) = (Some(&self.start[..]), Some(self.budget), Some(&self.labels[..]));
        Fields { sizes: &self.sizes, divisions: &self.divisions, start, budget, labels, ..Fields::default() }.bytes()
    }
}

impl LabelCall {
    pub fn of_game(game: usize, divisions: &[u16], buffer: usize) -> LabelCall {
        let GameTable { sizes, losses } = game_table(game);
        LabelCall { sizes, divisions: divisions.to_vec(), losses, buffer }
    }
}

pub struct GameTable {
    pub sizes: Vec<u8>,
    pub losses: Vec<u16>,
}

/// Game 1, 2 or 3.
pub fn game_table(game: usize) -> GameTable {
    GameTable { sizes: GAMES[game - 1].sizes.to_vec(), losses: GAMES[game - 1].losses.to_vec() }
}

pub fn spaced<T: ToString>(numbers: &[T]) -> String {
    numbers.iter().map(T::to_string).collect::<Vec<_>>().join(" ")
}

pub fn hex(bytes: &[u8]) -> String {
    bytes.iter().map(|byte| format!("{byte:02x}")).collect()
}

impl Display for ShelfCall {
    fn fmt(&self, to: &mut Formatter) -> Result {
        match self {
            ShelfCall::File(named) => write!(to, "file {named}"),
            ShelfCall::Ask(sheet) => write!(to, "ask {sheet}"),
        }
    }
}

impl Display for Call {
    fn fmt(&self, to: &mut Formatter) -> Result {
        match self {
            Call::Slip(slip) => write!(to, "call slip\nslip {}", hex(slip)),
            Call::Refine(refine) => refine.write(to),
            Call::Run(run) => {
                writeln!(to, "call run\nsizes {}\nd {}", spaced(&run.sizes), spaced(&run.divisions))?;
                writeln!(to, "start {}\nlabels {}", spaced(&run.start), spaced(&run.labels))?;
                write!(to, "budget {}\nanswer {}\nslip {}", run.budget, run.answer, hex(&run.slip()))
            }
            Call::Near(near) => near.fmt(to),
            Call::Trail(trail) => trail.fmt(to),
            Call::Read(read) => read.fmt(to),
            Call::Check(check) => {
                writeln!(to, "call check\nsizes {}\nd {}", spaced(&check.sizes), spaced(&check.divisions))?;
                write!(to, "labels {}\npoints {}", spaced(&check.labels), spaced(&check.points))
            }
            Call::Boundary(boundary) => {
                writeln!(to, "call boundary\nsizes {}\nd {}", spaced(&boundary.sizes), spaced(&boundary.divisions))?;
                write!(to, "labels {}\nbuffer {}", spaced(&boundary.labels), boundary.buffer)
            }
            Call::Label(label) => {
                writeln!(to, "call label\nsizes {}\nd {}", spaced(&label.sizes), spaced(&label.divisions))?;
                write!(to, "losses {}\nbuffer {}", spaced(&label.losses), label.buffer)
            }
            Call::Shelf(ShelfCalls { list, count, calls }) => {
                let calls: Vec<String> = calls.iter().map(ShelfCall::to_string).collect();
                write!(to, "call shelf\nlist {}\ncount {count}\nscript {}", spaced(list), calls.join(", "))
            }
        }
    }
}
