//! A second controller for scanning machines, written from the documentation alone.
//!
//! The engine is `controller` over `shelf`, `table`, `admission` and `batch`; it needs nothing
//! else. `session` runs scripts on it with a `ledger` beside, and `random` makes scripts.

pub mod admission;
pub mod assessor;
pub mod batch;
pub mod chart;
pub mod controller;
pub mod coverage;
pub mod ledger;
pub mod print;
pub mod random;
pub mod refusal;
pub mod rng;
pub mod script;
pub mod session;
pub mod shelf;
pub mod table;

pub use admission::Demand;
pub use batch::{Event, Sums, Ticked, Token};
pub use controller::Controller;
pub use refusal::Refusal;
pub use shelf::{Cell, Pair, Queue, Shelf};
pub use table::{Segment, Task};
