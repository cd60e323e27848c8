//! Feeds the days of many seeds to two programs and compares what they say.

use std::io::{self, Write};
use std::path::{Path, PathBuf};
use std::process::{Command, ExitCode, ExitStatus, Stdio};
use std::thread;

const USAGE: &str = "usage: soak DAYBOOK REFERENCE SEED DAYS";

fn main() -> ExitCode {
    let words: Vec<String> = std::env::args().skip(1).collect();
    match run(&words) {
        Ok(Outcome::Same { days, calls }) => {
            println!("{days} days and {calls} calls played, no difference");
            ExitCode::SUCCESS
        }
        Ok(Outcome::Different) => ExitCode::from(1),
        Err(message) => {
            eprintln!("{message}");
            ExitCode::from(2)
        }
    }
}

enum Outcome {
    Same { days: u64, calls: u64 },
    Different,
}

fn run(words: &[String]) -> Result<Outcome, String> {
    let [daybook, reference, seed, days] = words else {
        return Err(USAGE.to_string());
    };
    let seed: u64 = seed.parse().map_err(|_| USAGE.to_string())?;
    let days: u64 = days.parse().map_err(|_| USAGE.to_string())?;
    let mut calls = 0;
    for seed in seed..seed + days {
        let file = days::make(seed).bytes;
        let ours = play(daybook, &file)?;
        let theirs = play(reference, &file)?;
        if ours != theirs {
            let path = keep(seed, &file).map_err(|error| error.to_string())?;
            tell(seed, &path, &ours, &theirs);
            return Ok(Outcome::Different);
        }
        calls += days::reference::format::read(&file).map_or(0, |day| day.calls.len() as u64);
    }
    Ok(Outcome::Same { days, calls })
}

/// What a program printed, and how it ended.
#[derive(PartialEq, Eq)]
struct Played {
    stdout: Vec<u8>,
    status: ExitStatus,
}

/// Runs a program on a file. A thread writes while this one reads, so that
/// neither side waits for the other.
fn play(program: &str, file: &[u8]) -> Result<Played, String> {
    let failed = |error: io::Error| format!("{program}: {error}");
    let mut child = Command::new(program)
        .stdin(Stdio::piped())
        .stdout(Stdio::piped())
        .spawn()
        .map_err(failed)?;
    let stdin = child.stdin.take();
    let output = thread::scope(|scope| {
        scope.spawn(move || {
            // A program may stop reading early, which is no fault of it.
            if let Some(mut stdin) = stdin {
                let _ = stdin.write_all(file);
            }
        });
        child.wait_with_output()
    });
    let output = output.map_err(failed)?;
    Ok(Played {
        stdout: output.stdout,
        status: output.status,
    })
}

fn keep(seed: u64, file: &[u8]) -> io::Result<PathBuf> {
    let folder = Path::new("target/soak");
    std::fs::create_dir_all(folder)?;
    let path = folder.join(format!("{seed}.day"));
    std::fs::write(&path, file)?;
    Ok(path)
}

fn tell(seed: u64, path: &Path, daybook: &Played, reference: &Played) {
    println!("seed {seed} differs; its day file is {}", path.display());
    println!(
        "daybook ended with {}, reference with {}",
        daybook.status, reference.status
    );
    let (one, two) = (&daybook.stdout, &reference.stdout);
    let (mut ours, mut theirs) = (one.split(|&b| b == b'\n'), two.split(|&b| b == b'\n'));
    for line in 1.. {
        let (ours, theirs) = (ours.next(), theirs.next());
        if ours != theirs {
            println!("line {line} of daybook:   {}", shown(ours));
            println!("line {line} of reference: {}", shown(theirs));
            return;
        }
        if ours.is_none() {
            return;
        }
    }
}

fn shown(line: Option<&[u8]>) -> String {
    line.map_or("(none)".to_string(), |line| {
        String::from_utf8_lossy(line).into_owned()
    })
}
