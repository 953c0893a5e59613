//! The objects that a header may name.

mod barrier;
mod fair;
mod flag;
mod once;
mod rw;
mod ticket;

pub use barrier::Barrier;
pub use fair::Fair;
pub use flag::Flag;
pub use once::Once;
pub use rw::Rw;
pub use ticket::Ticket;
