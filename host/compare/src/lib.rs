//! The proved library beside the second program: every call of the C interface on the same input, every number and every
//! lent byte compared. The tests run it over thousands of seeds, `lumbraquay replay` over one.

mod audit;
mod catalog;
mod check;
mod doublewrite;
mod intake;
mod lent;
mod limits;
mod log;
mod pages;
mod recovery;
mod rows;
mod seen;
mod summary;
mod sweep;
mod twin;

pub use check::check;
pub use limits::limits;
pub use seen::{Seen, Told};
pub use sweep::{case, check_seed, sweep};
