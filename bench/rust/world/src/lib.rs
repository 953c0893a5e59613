//! What two peers of `spin-run world` share: the lines of a schedule, the objects that it may name, the world that plays
//! its moves, and the text of what comes of them.
//!
//! `listed` reads the whole input, checks all lines, and then plays. `single` checks and plays line by line.
//! `cloned` and `shared` are peers of `spin-explore` over the same world.

pub mod entry;
pub mod event;
pub mod object;
pub mod objects;
pub mod program;
pub mod search;
pub mod words;
pub mod world;
