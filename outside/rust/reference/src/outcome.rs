//! What a run answers.

/// How the path ended.
#[derive(Clone, Copy, Debug, PartialEq, Eq)]
pub enum Kind {
    Place,
    Facet,
}

/// A path's end; the vertices themselves stand in the answer buffer.
#[derive(Clone, Copy, Debug, PartialEq, Eq)]
pub struct End {
    pub places: u64,
    /// 1 plus the moves by which a point came in.
    pub labels_read: u64,
    pub kind: Kind,
    /// Counted from 1.
    pub block: usize,
    pub vertices: usize,
}

#[derive(Clone, Copy, Debug, PartialEq, Eq)]
pub enum Outcome {
    Ended(End),
    /// Any refusal but numbers 9 and 16.
    Refused(u64),
    /// Number 9, with the places visited.
    Spent(u64),
    /// Number 16: a label that the path needs is 0, with the places visited before and the label's position in the
    /// table.
    Unknown {
        places: u64,
        position: usize,
    },
}
