//! Finds all states as one would write it first: the map of those that were seen has a copy of each.

use std::process::ExitCode;

use spin_world_rust::object::Object;
use spin_world_rust::program;
use spin_world_rust::search::{Keeps, State, search};

struct Cloned;

impl Keeps for Cloned {
    type Kept<O: Object> = State<O>;
}

fn main() -> ExitCode {
    program::run(search::<Cloned>)
}
