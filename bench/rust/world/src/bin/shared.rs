//! Finds all states, and keeps each once, for the map and the list.

use std::process::ExitCode;
use std::rc::Rc;

use spin_world_rust::object::Object;
use spin_world_rust::program;
use spin_world_rust::search::{Keeps, State, search};

struct Shared;

impl Keeps for Shared {
    type Kept<O: Object> = Rc<State<O>>;
}

fn main() -> ExitCode {
    program::run(search::<Shared>)
}
