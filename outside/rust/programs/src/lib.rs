//! What the programs share: calls, the implementations that answer them, inputs, and stored cases.

pub mod boundary_inputs;
pub mod calls;
pub mod implementations;
pub mod inputs;
pub mod near;
#[cfg(feature = "proved")]
pub mod proved;
pub mod random;
pub mod refinements;
pub mod stored;
pub mod trails;
#[cfg(feature = "proved")]
pub mod walks;

pub use calls::{BoundaryCall, Call, CheckCall, LabelCall, RunCall, ShelfCall, ShelfCalls};
pub use implementations::{all, Implementation};
pub use near::NearCall;
pub use refinements::RefineCall;
pub use trails::{ReadCall, TrailCall};
