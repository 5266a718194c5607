//! Times of the library beside other programs, and how far its plans come.

mod agree;
mod buddy;
mod crowded;
mod entries;
mod generate;
mod library;
mod limits;
mod ordinary;
mod plans;
mod points;
mod times;

use std::env;
use std::process::ExitCode;

fn main() -> ExitCode {
    let arguments: Option<Vec<String>> = env::args_os()
        .skip(1)
        .map(|a| a.into_string().ok())
        .collect();
    match arguments.as_deref() {
        Some([]) => times::print(10),
        Some([word]) if word == "plans" => {
            plans::print();
            ExitCode::SUCCESS
        }
        Some([number]) => match number.parse() {
            Ok(repetitions @ 1..=10_000) => times::print(repetitions),
            _ => usage(),
        },
        _ => usage(),
    }
}

fn usage() -> ExitCode {
    eprintln!("usage: bench/run [REPETITIONS], a number from 1 to 10000, or bench/run plans");
    ExitCode::from(2)
}
