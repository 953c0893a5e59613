//! Measures locks that park a waiting thread, in the way in which `bench/rust` measures those of the crate `spin`.
#[path = "../../src/case.rs"]
mod case;
mod cases;
#[path = "../../src/measure.rs"]
mod measure;
#[path = "../../src/program.rs"]
mod program;

fn main() -> std::process::ExitCode {
    program::run(cases::measure, || ())
}
