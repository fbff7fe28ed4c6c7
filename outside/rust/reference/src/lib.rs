//! The simplicial path finder on a product of unit simplices, independent of the proved code.
//!
//! `small` renders document 01's definitions by search over sets of points, `paper` follows the steps of the 1987
//! paper's section 4 as document 01 fixes them. Both answer the same call and share the grid, the questions, the slip
//! and the sheet.

pub mod boundary;
pub mod check;
pub mod games;
pub mod grid;
pub mod nearest;
pub mod outcome;
pub mod paper;
pub mod questions;
pub mod refine;
pub mod shelf;
pub mod slip;
pub mod small;
pub mod trail;
pub mod walks;

pub use check::Verdict;
pub use grid::Grid;
pub use nearest::Near;
pub use outcome::{End, Kind, Outcome};
pub use trail::{Rebuilt, Written};
