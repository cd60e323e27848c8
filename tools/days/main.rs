//! Makes day files and tells what they cover.

use days::{bench, coverage, make, vectors};
use std::io::{self, Write};
use std::process::ExitCode;

const USAGE: &str = "usage: days one SEED | coverage SEED DAYS | vectors DIR
       days largest | empty | standing ORDERS";

fn main() -> ExitCode {
    let words: Vec<String> = std::env::args().skip(1).collect();
    match run(&words) {
        Ok(()) => ExitCode::SUCCESS,
        Err(message) => {
            eprintln!("{message}");
            ExitCode::from(2)
        }
    }
}

fn run(words: &[String]) -> Result<(), String> {
    let words: Vec<&str> = words.iter().map(String::as_str).collect();
    match words[..] {
        ["one", seed] => print(&make(number(seed)?).bytes),
        ["coverage", seed, days] => {
            print(coverage::coverage(number(seed)?, number(days)?).as_bytes())
        }
        ["vectors", dir] => vectors::write(dir.as_ref()).map_err(|error| error.to_string()),
        ["largest"] => print(&bench::largest()),
        ["empty"] => print(&bench::empty()),
        ["standing", orders] => match number(orders)? {
            orders @ 0..=63 => print(&bench::standing(orders as usize)),
            _ => Err("standing takes 0 to 63 orders".to_string()),
        },
        _ => Err(USAGE.to_string()),
    }
}

fn number(word: &str) -> Result<u64, String> {
    word.parse().map_err(|_| format!("{word} is not a number"))
}

fn print(bytes: &[u8]) -> Result<(), String> {
    io::stdout()
        .lock()
        .write_all(bytes)
        .map_err(|error| error.to_string())
}
