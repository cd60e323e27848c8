//! Day files that each show one thing, written by hand.

mod faults;
mod margins;
mod refusals;
mod registers;
mod stories;

use crate::scenario::{fund_call, fund_put};
use reference::format::Contract;
use std::io;
use std::path::Path;

/// A file's name, without its ending, and its bytes.
pub type Vector = (&'static str, Vec<u8>);

pub fn all() -> Vec<Vector> {
    [
        stories::all(),
        margins::all(),
        registers::all(),
        refusals::all(),
        faults::all(),
    ]
    .concat()
}

/// Writes every file into a folder.
pub fn write(folder: &Path) -> io::Result<()> {
    std::fs::create_dir_all(folder)?;
    for (name, bytes) in all() {
        std::fs::write(folder.join(format!("{name}.day")), bytes)?;
    }
    Ok(())
}

// The contracts of most scenarios, by right and strike in thousands.
const C42: u32 = 90_000_001;
const P38: u32 = 90_000_002;
const C44: u32 = 90_000_003;
const P42: u32 = 90_000_004;
const P36: u32 = 90_000_005;
const C60: u32 = 90_000_006;
/// Puts at 42,000 that are wrong by underlying, by expiry and by unit.
const OTHER_UNDERLYING: u32 = 90_000_007;
const OTHER_EXPIRY: u32 = 90_000_008;
const OTHER_UNIT: u32 = 90_000_009;
/// A code that is not listed.
const UNLISTED: u32 = 90_000_010;

// Their standard leg margins, where a scenario counts on them.
const C42_MARGIN: u64 = 33_000_000;
const P38_MARGIN: u64 = 31_000_000;

fn listing() -> Vec<Contract> {
    vec![
        fund_call(C42, 42_000, 500),
        fund_put(P38, 38_000, 300),
        fund_call(C44, 44_000, 200),
        fund_put(P42, 42_000, 2_600),
        fund_put(P36, 36_000, 100),
        fund_call(C60, 60_000, 50),
        Contract {
            underlying: 900_002,
            ..fund_put(OTHER_UNDERLYING, 42_000, 2_600)
        },
        Contract {
            expiry: 150,
            ..fund_put(OTHER_EXPIRY, 42_000, 2_600)
        },
        Contract {
            unit: 9_999,
            ..fund_put(OTHER_UNIT, 42_000, 2_600)
        },
    ]
}

/// The six strategies over those contracts: number, first, second.
const SIX: [(u8, u32, u32); 6] = [
    (1, C42, C44),
    (2, C44, C42),
    (3, P36, P38),
    (4, P38, P36),
    (5, C42, P42),
    (6, C42, P38),
];

#[cfg(test)]
mod tests {
    use super::*;
    use reference::format::read;

    #[test]
    fn the_worked_example_is_the_crates_example() {
        let (name, bytes) = &all()[0];
        assert_eq!(*name, "worked-example");
        assert_eq!(bytes, include_bytes!("../../crates/daybook/stdin"));
    }

    #[test]
    fn names_differ_and_files_are_small() {
        let all = all();
        let mut names: Vec<_> = all.iter().map(|(name, _)| name).collect();
        names.sort();
        names.dedup();
        assert_eq!(names.len(), all.len());
        assert!(all.iter().map(|(_, bytes)| bytes.len()).sum::<usize>() < 150_000);
    }

    #[test]
    fn faulty_files_have_the_fault_of_their_name() {
        for (name, bytes) in faults::all() {
            let told = read(&bytes).expect_err(name).number.to_string();
            assert_eq!(name.split('-').nth(1), Some(told.as_str()), "{name}");
        }
    }
}
