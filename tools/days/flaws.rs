//! Flaws put into a sound day file, one for each fault and each field.

use crate::layout::{self, get, pack_call, put, section, unused, Field};
use crate::rng::Rng;
use reference::format::{Call, Trade};

#[derive(Clone, Copy, Debug)]
pub enum Value {
    UnderRange,
    OverRange,
    Widest,
}

#[derive(Clone, Copy, Debug)]
pub enum Flaw {
    Size(usize),
    PairBeforeHead(usize),
    PairBeforeEnd(usize),
    PairPastFile(usize),
    PairWraps(usize),
    Length(usize, usize),
    Range(usize, Field, Value),
    CodeEqual,
    CodeBelow,
    OtherKind,
    OtherClose,
    SettingsSpare,
    Unused(u8, Field),
}

impl Flaw {
    /// Every flaw that a file can have.
    pub fn all() -> Vec<Flaw> {
        let mut all: Vec<Flaw> = [0, 1, 23, 60_001, 65_536, 70_000].map(Flaw::Size).to_vec();
        for section in 1..=3 {
            all.extend([
                Flaw::PairBeforeHead(section),
                Flaw::PairBeforeEnd(section),
                Flaw::PairPastFile(section),
                Flaw::PairWraps(section),
            ]);
        }
        all.extend([0, 19, 21].map(|length| Flaw::Length(1, length)));
        all.extend([0, 31, 33, 63, 65 * 32].map(|length| Flaw::Length(2, length)));
        all.extend([1, 23, 25].map(|length| Flaw::Length(3, length)));
        for (section, fields) in [
            (1, &layout::SETTINGS_FIELDS[..7]),
            (2, &layout::CONTRACT_FIELDS[..]),
            (3, &layout::CALL_FIELDS[..1]),
        ] {
            for &field in fields {
                if field.low > 0 {
                    all.push(Flaw::Range(section, field, Value::UnderRange));
                }
                if field.high < field.widest() {
                    all.push(Flaw::Range(section, field, Value::OverRange));
                    all.push(Flaw::Range(section, field, Value::Widest));
                }
            }
        }
        all.extend([
            Flaw::CodeEqual,
            Flaw::CodeBelow,
            Flaw::OtherKind,
            Flaw::OtherClose,
        ]);
        all.push(Flaw::SettingsSpare);
        for call in 1..=11 {
            for field in layout::CALL_FIELDS {
                if unused(call, field.at) {
                    all.push(Flaw::Unused(call, field));
                }
            }
        }
        all
    }

    /// The number of the fault that this flaw makes.
    pub fn fault(&self) -> u8 {
        match self {
            Flaw::Size(_) => 1,
            Flaw::PairBeforeHead(_)
            | Flaw::PairBeforeEnd(_)
            | Flaw::PairPastFile(_)
            | Flaw::PairWraps(_) => 2,
            Flaw::Length(..) => 3,
            Flaw::Range(..) => 4,
            Flaw::CodeEqual | Flaw::CodeBelow => 5,
            Flaw::OtherKind | Flaw::OtherClose => 6,
            Flaw::SettingsSpare | Flaw::Unused(..) => 7,
        }
    }

    /// Flaws of records go in before those of sections, and size last.
    pub fn rank(&self) -> u8 {
        match self.fault() {
            1 => 3,
            2 => 2,
            3 => 1,
            _ => 0,
        }
    }

    /// Puts the flaw into a file whose pairs are sound.
    pub fn apply(&self, bytes: &mut Vec<u8>, rng: &mut Rng) {
        match *self {
            Flaw::Size(size) => bytes.resize(size, 0),
            Flaw::PairBeforeHead(number) => {
                put(bytes, (number - 1) * 8, 4, rng.pick(&[0, 23]));
            }
            Flaw::PairBeforeEnd(number) => {
                let before = if number == 1 {
                    layout::HEAD
                } else {
                    let (start, length) = section(bytes, number - 1);
                    start + length
                };
                put(bytes, (number - 1) * 8, 4, before as u64 - 1);
            }
            Flaw::PairPastFile(number) => {
                let (_, length) = section(bytes, number);
                let start = bytes.len() - length + 1;
                put(bytes, (number - 1) * 8, 4, start as u64);
            }
            Flaw::PairWraps(number) => {
                let (_, length) = section(bytes, number);
                let start = 4_294_967_296 + layout::HEAD as u64 - (length as u64).max(25);
                put(bytes, (number - 1) * 8, 4, start);
                put(bytes, (number - 1) * 8 + 4, 4, (length as u64).max(25));
            }
            Flaw::Length(number, length) => resize(bytes, number, length),
            Flaw::Range(number, field, value) => range(bytes, rng, number, field, value),
            Flaw::CodeEqual => code(bytes, rng, 0),
            Flaw::CodeBelow => code(bytes, rng, 1),
            Flaw::OtherKind => clash(bytes, rng, 11),
            Flaw::OtherClose => clash(bytes, rng, 24),
            Flaw::SettingsSpare => {
                let (start, _) = section(bytes, 1);
                put(bytes, start + 18, 2, rng.pick(&[1, 256, 65_535]));
            }
            Flaw::Unused(number, field) => {
                let (start, length) = section(bytes, 3);
                let record = start + rng.index(length / layout::CALL) * layout::CALL;
                let sound = pack_call(&sample_call(number));
                bytes[record..record + layout::CALL].copy_from_slice(&sound);
                let top = 1 << (8 * field.bytes - 1);
                put(
                    bytes,
                    record + field.at,
                    field.bytes,
                    rng.pick(&[1, top, field.widest()]),
                );
            }
        }
    }
}

/// Gives a section another length; bytes that lack are put in behind it.
fn resize(bytes: &mut Vec<u8>, number: usize, length: usize) {
    let (start, old) = section(bytes, number);
    let more = length.saturating_sub(old);
    let end = start + old;
    bytes.splice(end..end, std::iter::repeat_n(0xA5, more));
    put(bytes, (number - 1) * 8 + 4, 4, length as u64);
    for later in number + 1..=3 {
        let (start, _) = section(bytes, later);
        put(bytes, (later - 1) * 8, 4, (start + more) as u64);
    }
}

fn range(bytes: &mut [u8], rng: &mut Rng, number: usize, field: Field, value: Value) {
    let (start, length) = section(bytes, number);
    let width = [layout::SETTINGS, layout::CONTRACT, layout::CALL][number - 1];
    let record = start + rng.index(length / width) * width;
    let low = if field.name == "expiry" {
        let (settings, _) = section(bytes, 1);
        get(bytes, settings + 16, 2)
    } else {
        field.low
    };
    let wrong = match value {
        Value::UnderRange => rng.pick(&[low.saturating_sub(1), 0]),
        Value::OverRange => field.high + 1,
        Value::Widest => field.widest(),
    };
    put(bytes, record + field.at, field.bytes, wrong);
}

/// A contract's code is not above the one before it.
fn code(bytes: &mut [u8], rng: &mut Rng, below: u64) {
    let (start, length) = section(bytes, 2);
    let record = start + rng.between(1, (length / layout::CONTRACT) as u64 - 1) as usize * 32;
    let before = get(bytes, record - layout::CONTRACT, 4);
    put(bytes, record, 4, (before - below).max(10_000_000));
}

/// A later contract of an underlying has another kind or close.
fn clash(bytes: &mut [u8], rng: &mut Rng, at: usize) {
    let (start, length) = section(bytes, 2);
    let records: Vec<usize> = (0..length / 32).map(|index| start + index * 32).collect();
    let later: Vec<usize> = records
        .iter()
        .copied()
        .filter(|&later| {
            let mut earlier = records.iter().take_while(|&&earlier| earlier < later);
            earlier.any(|&earlier| get(bytes, earlier + 4, 4) == get(bytes, later + 4, 4))
        })
        .collect();
    let Some(record) = rng.try_pick(&later) else {
        return;
    };
    if at == 11 {
        bytes[record + at] = 3 - bytes[record + at];
    } else {
        let close = get(bytes, record + at, 4);
        put(bytes, record + at, 4, if close > 1 { close - 1 } else { 2 });
    }
}

/// A call of each number with every used field at 1.
fn sample_call(number: u8) -> Call {
    let order = |trade| Call::Order {
        trade,
        account: 1,
        contract: 1,
        lots: 1,
        limit: 1,
    };
    match number {
        1 => Call::Deposit { amount: 1 },
        2 => Call::Withdraw { amount: 1 },
        3 => order(Trade::SellOpen),
        4 => order(Trade::BuyOpen),
        5 => order(Trade::BuyClose),
        6 => order(Trade::SellClose),
        7 => Call::LegClose {
            combination: 1,
            leg: 1,
            lots: 1,
            limit: 1,
        },
        8 => Call::Fill {
            order: 1,
            lots: 1,
            price: 1,
        },
        9 => Call::Cancel { order: 1 },
        10 => Call::Combine {
            account: 1,
            strategy: 1,
            first: 1,
            second: 1,
            lots: 1,
        },
        _ => Call::Release {
            combination: 1,
            lots: 1,
        },
    }
}

/// Changes bytes, cuts the file or lengthens it, without a plan.
pub fn mutate(bytes: &mut Vec<u8>, rng: &mut Rng) {
    for _ in 0..rng.between(1, 4) {
        let (start, length) = match rng.below(5) {
            0 => (0, layout::HEAD),
            1 => section(bytes, 1),
            2 => section(bytes, 2),
            3 => section(bytes, 3),
            _ => (0, bytes.len()),
        };
        let end = (start + length).min(bytes.len());
        if start >= end {
            continue;
        }
        let at = start + rng.index(end - start);
        match rng.below(8) {
            0 => bytes[at] = rng.next() as u8,
            1 => bytes[at] ^= 1 << rng.below(8),
            2 => bytes[at] = bytes[at].wrapping_add(1),
            3 => bytes[at] = bytes[at].wrapping_sub(1),
            4 => bytes[at] = 0,
            5 => bytes[at] = 0xFF,
            6 => bytes.truncate(bytes.len() - rng.index(bytes.len().min(40))),
            _ => bytes.extend(std::iter::repeat_n(0, rng.index(40))),
        }
        if bytes.len() < layout::HEAD {
            return;
        }
    }
}

/// Puts other values into named fields of calls, which the reader passes.
pub fn mutate_calls(bytes: &mut [u8], rng: &mut Rng) {
    let (start, length) = section(bytes, 3);
    for _ in 0..length / layout::CALL {
        let record = start + rng.index(length / layout::CALL) * layout::CALL;
        let field = rng.pick(&layout::CALL_FIELDS);
        if field.at == 0 || unused(bytes[record], field.at) {
            continue;
        }
        let old = get(bytes, record + field.at, field.bytes);
        let small = rng.below(12);
        let any = rng.next() & field.widest();
        let near = [old.wrapping_add(1), old.wrapping_sub(1)].map(|value| value & field.widest());
        let new = rng.pick(&[0, small, small, any, field.widest(), near[0], near[1]]);
        put(bytes, record + field.at, field.bytes, new);
    }
}
