//! What the words of a command line ask for.
use std::process::ExitCode;

use crate::case::Work;

/// The cases by their names, and what is measured of each. A case with work has a name that ends so: `_work`.
#[macro_export]
macro_rules! cases {
    ($($name:literal: $case:ty,)*) => {
        /// Measures the case of that name.
        pub fn measure(name: &str, threads: u64, work: $crate::case::Work) -> Option<u64> {
            match name {
                $($name => Some($crate::measure::measure::<$case>(threads, work)),)*
                _ => None,
            }
        }
    };
}

// Measures a case, and prints the sum of what its calls saw and added.
fn answer(words: &[String], measure: impl Fn(&str, u64, Work) -> Option<u64>) -> Option<()> {
    let (name, threads, case, work) = match words {
        [name, threads] => (name, threads, name.clone(), Work::default()),
        [name, threads, inside, between] => {
            let (inside, between) = (inside.parse().ok()?, between.parse().ok()?);
            let case = format!("{name}_work");
            (name, threads, case, Work { inside, between })
        }
        _ => return None,
    };
    let threads = threads.parse().ok().filter(|it| (1..=128).contains(it))?;
    let sum = measure(&case, threads, work)?;
    println!("{name}.{threads} {sum}");
    Some(())
}

/// Does what the words of the command line ask for.
pub fn run(measure: impl Fn(&str, u64, Work) -> Option<u64>, sizes: fn()) -> ExitCode {
    let words: Vec<String> = std::env::args().skip(1).collect();
    if words == ["sizes"] {
        sizes();
    } else if answer(&words, measure).is_none() {
        eprintln!("usage: CASE THREADS [INSIDE BETWEEN] | sizes. `cases.rs` has the names");
        return ExitCode::from(2);
    }
    ExitCode::SUCCESS
}
