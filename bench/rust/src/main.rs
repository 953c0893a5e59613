//! Measures the locks of the Rust crate `spin`, in the way in which `bench/ours` measures ours.
mod case;
mod cases;
mod measure;
mod program;
mod sizes;

fn main() -> std::process::ExitCode {
    program::run(cases::measure, sizes::print)
}
