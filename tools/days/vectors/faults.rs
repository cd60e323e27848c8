//! Faulty files: the worked example with one thing wrong, or two.

use super::{listing, stories, Vector};
use crate::layout::put;
use crate::scenario::{plain, Scenario};
use reference::format::Contract;

// Where the worked example's sections start.
const SETTINGS: usize = 24;
const FIRST_CONTRACT: usize = 44;
const SECOND_CONTRACT: usize = 76;
const CALLS: usize = 108;

/// The worked example with numbers put over it: place, width, value.
fn spoilt(numbers: &[(usize, usize, u64)]) -> Vec<u8> {
    let mut bytes = stories::worked_example();
    for &(place, width, value) in numbers {
        put(&mut bytes, place, width, value);
    }
    bytes
}

/// Sixty-five contracts, sound by themselves.
fn too_many_contracts() -> Vec<u8> {
    let one = listing()[0];
    let contracts = (0..65)
        .map(|more| Contract {
            code: one.code + more,
            ..one
        })
        .collect();
    Scenario::open(plain(0), contracts).file()
}

/// The third contract clashes with the first; the second is of another
/// underlying.
fn clash_with_the_first() -> Vec<u8> {
    let one = listing()[0];
    let two = Contract {
        code: one.code + 1,
        underlying: 900_002,
        ..one
    };
    let three = Contract {
        code: one.code + 2,
        close: 40_001,
        ..one
    };
    Scenario::open(plain(0), vec![one, two, three]).file()
}

pub fn all() -> Vec<Vector> {
    let example = stories::worked_example();
    vec![
        ("fault-1-no-bytes", vec![]),
        ("fault-1-23-bytes", example[..23].to_vec()),
        (
            "fault-1-60001-bytes",
            [example.clone(), vec![0; 60_001 - example.len()]].concat(),
        ),
        ("fault-2-settings-before-24", spoilt(&[(0, 4, 23)])),
        (
            "fault-2-contracts-before-end-of-settings",
            spoilt(&[(8, 4, 43)]),
        ),
        ("fault-2-calls-past-the-file", example[..299].to_vec()),
        (
            "fault-2-sum-past-32-bits",
            spoilt(&[(16, 4, 0xFFFF_FFE8), (20, 4, 0x0000_0060)]),
        ),
        (
            "fault-2-empty-calls-past-the-file",
            spoilt(&[(16, 4, 301), (20, 4, 0)]),
        ),
        ("fault-3-settings-of-19-bytes", spoilt(&[(4, 4, 19)])),
        ("fault-3-no-contracts", spoilt(&[(12, 4, 0)])),
        ("fault-3-contracts-not-whole", spoilt(&[(12, 4, 63)])),
        ("fault-3-65-contracts", too_many_contracts()),
        ("fault-3-calls-not-whole", spoilt(&[(20, 4, 191)])),
        ("fault-4-scale", spoilt(&[(SETTINGS, 1, 0)])),
        ("fault-4-first-number", spoilt(&[(SETTINGS + 4, 4, 0)])),
        (
            "fault-4-opening-balance",
            spoilt(&[(SETTINGS + 8, 8, 10_000_000_000_000_001)]),
        ),
        (
            "fault-4-expiry-before-the-day",
            spoilt(&[(FIRST_CONTRACT + 8, 2, 99)]),
        ),
        ("fault-4-call-12", spoilt(&[(CALLS + 7 * 24, 1, 12)])),
        (
            "fault-5-code-equal",
            spoilt(&[(SECOND_CONTRACT, 4, 90_000_001)]),
        ),
        (
            "fault-6-another-kind",
            spoilt(&[(SECOND_CONTRACT + 11, 1, 1)]),
        ),
        (
            "fault-6-another-close",
            spoilt(&[(SECOND_CONTRACT + 24, 4, 40_001)]),
        ),
        ("fault-7-settings-spare", spoilt(&[(SETTINGS + 18, 2, 256)])),
        ("fault-6-with-the-first-of-three", clash_with_the_first()),
        (
            "fault-7-lots-of-a-cancel",
            spoilt(&[(CALLS + 7 * 24, 1, 9), (CALLS + 7 * 24 + 16, 8, 0)]),
        ),
        (
            "fault-7-strategy-of-a-fill",
            spoilt(&[(CALLS + 24 + 2, 1, 6)]),
        ),
        (
            "fault-7-amount-of-a-combine",
            spoilt(&[(CALLS + 4 * 24 + 16, 8, 1 << 63)]),
        ),
        ("fault-2-before-3", spoilt(&[(4, 4, 19), (16, 4, 23)])),
        (
            "fault-4-before-5-and-6-in-one-record",
            spoilt(&[
                (SECOND_CONTRACT, 4, 90_000_001),
                (SECOND_CONTRACT + 24, 4, 40_001),
                (SECOND_CONTRACT + 20, 4, 0),
            ]),
        ),
        (
            "fault-5-before-6-in-one-record",
            spoilt(&[
                (SECOND_CONTRACT, 4, 90_000_001),
                (SECOND_CONTRACT + 11, 1, 1),
            ]),
        ),
        (
            "fault-7-of-settings-before-4-of-contract",
            spoilt(&[(SETTINGS + 18, 2, 1), (FIRST_CONTRACT, 4, 0)]),
        ),
        (
            "fault-7-of-call-before-4-of-later-call",
            spoilt(&[(CALLS + 3, 1, 1), (CALLS + 24, 1, 0)]),
        ),
    ]
}
