//! The packed day file: its layout, its faults and the order of checks.

use std::fmt;
use std::ops::RangeInclusive;

pub const SMALLEST_FILE: usize = 24;
pub const LARGEST_FILE: usize = 60_000;
pub const SETTINGS_BYTES: usize = 20;
pub const CONTRACT_BYTES: usize = 32;
pub const CALL_BYTES: usize = 24;
pub const MOST_CONTRACTS: usize = 64;

/// The first rule that a file breaks, told by four numbers.
#[derive(Clone, Copy, Debug, PartialEq, Eq)]
pub struct Fault {
    pub number: u8,
    pub section: u8,
    pub record: usize,
    pub place: usize,
}

impl fmt::Display for Fault {
    fn fmt(&self, f: &mut fmt::Formatter<'_>) -> fmt::Result {
        let Fault {
            number,
            section,
            record,
            place,
        } = self;
        write!(
            f,
            "fault {number} section {section} record {record} place {place}"
        )
    }
}

/// What a passed file says.
#[derive(Clone, Debug, PartialEq, Eq)]
pub struct Day {
    pub settings: Settings,
    pub contracts: Vec<Contract>,
    pub calls: Vec<Call>,
}

#[derive(Clone, Copy, Debug, PartialEq, Eq)]
pub enum Base {
    Standard,
    Listed,
}

#[derive(Clone, Copy, Debug, PartialEq, Eq)]
pub struct Settings {
    pub scale: Base,
    pub first_raise: u8,
    pub second_raise: u8,
    /// Bit 0 lets leg closes of strategy 1, bit 5 those of strategy 6.
    pub permitted: u8,
    pub first_number: u32,
    pub opening_balance: u64,
    pub day: u16,
}

#[derive(Clone, Copy, Debug, PartialEq, Eq)]
pub enum Right {
    Call,
    Put,
}

#[derive(Clone, Copy, Debug, PartialEq, Eq)]
pub enum Kind {
    Stock,
    Fund,
}

#[derive(Clone, Copy, Debug, PartialEq, Eq)]
pub struct Contract {
    pub code: u32,
    pub underlying: u32,
    pub expiry: u16,
    pub right: Right,
    pub kind: Kind,
    pub unit: u32,
    pub strike: u32,
    pub settlement: u32,
    pub close: u32,
    pub listed_margin: u32,
}

/// The four kinds of order on one contract.
#[derive(Clone, Copy, Debug, PartialEq, Eq)]
pub enum Trade {
    SellOpen,
    BuyOpen,
    BuyClose,
    SellClose,
}

#[derive(Clone, Copy, Debug, PartialEq, Eq)]
pub enum Call {
    Deposit {
        amount: u64,
    },
    Withdraw {
        amount: u64,
    },
    Order {
        trade: Trade,
        account: u8,
        contract: u32,
        lots: u32,
        limit: u64,
    },
    LegClose {
        combination: u32,
        leg: u32,
        lots: u32,
        limit: u64,
    },
    Fill {
        order: u32,
        lots: u32,
        price: u64,
    },
    Cancel {
        order: u32,
    },
    Combine {
        account: u8,
        strategy: u8,
        first: u32,
        second: u32,
        lots: u32,
    },
    Release {
        combination: u32,
        lots: u32,
    },
}

impl Call {
    pub fn number(&self) -> u8 {
        match self {
            Call::Deposit { .. } => 1,
            Call::Withdraw { .. } => 2,
            Call::Order {
                trade: Trade::SellOpen,
                ..
            } => 3,
            Call::Order {
                trade: Trade::BuyOpen,
                ..
            } => 4,
            Call::Order {
                trade: Trade::BuyClose,
                ..
            } => 5,
            Call::Order {
                trade: Trade::SellClose,
                ..
            } => 6,
            Call::LegClose { .. } => 7,
            Call::Fill { .. } => 8,
            Call::Cancel { .. } => 9,
            Call::Combine { .. } => 10,
            Call::Release { .. } => 11,
        }
    }

    pub fn name(&self) -> &'static str {
        CALL_NAMES[self.number() as usize - 1]
    }
}

pub const CALL_NAMES: [&str; 11] = [
    "deposit",
    "withdraw",
    "sell-open",
    "buy-open",
    "buy-close",
    "sell-close",
    "leg-close",
    "fill",
    "cancel",
    "combine",
    "release",
];

/// Reads a whole file, or tells its first fault.
pub fn read(bytes: &[u8]) -> Result<Day, Fault> {
    if !(SMALLEST_FILE..=LARGEST_FILE).contains(&bytes.len()) {
        return Err(Fault {
            number: 1,
            section: 0,
            record: 0,
            place: 0,
        });
    }
    let [settings, contracts, calls] = sections(bytes)?;
    check_lengths([
        settings.bytes.len(),
        contracts.bytes.len(),
        calls.bytes.len(),
    ])?;

    let settings = read_settings(&settings.record(0, SETTINGS_BYTES))?;

    let mut listing = Vec::with_capacity(contracts.bytes.len() / CONTRACT_BYTES);
    for index in 0..contracts.bytes.len() / CONTRACT_BYTES {
        let record = contracts.record(index, CONTRACT_BYTES);
        let contract = read_contract(&record, settings.day)?;
        check_joins(&listing, &contract, &record)?;
        listing.push(contract);
    }

    let count = calls.bytes.len() / CALL_BYTES;
    let mut day = Day {
        settings,
        contracts: listing,
        calls: Vec::with_capacity(count),
    };
    for index in 0..count {
        day.calls.push(read_call(&calls.record(index, CALL_BYTES))?);
    }
    Ok(day)
}

/// A section's bytes and where they stand.
#[derive(Clone, Copy)]
struct Section<'a> {
    number: u8,
    place: usize,
    bytes: &'a [u8],
}

impl<'a> Section<'a> {
    fn record(&self, index: usize, width: usize) -> Record<'a> {
        Record {
            section: self.number,
            number: index + 1,
            place: self.place + index * width,
            bytes: &self.bytes[index * width..(index + 1) * width],
        }
    }
}

/// The sections that the three pairs name.
fn sections(bytes: &[u8]) -> Result<[Section<'_>; 3], Fault> {
    let mut free_from = SMALLEST_FILE as u64;
    let mut found = [Section {
        number: 0,
        place: 0,
        bytes: &[],
    }; 3];
    for (index, section) in found.iter_mut().enumerate() {
        let pair = index * 8;
        let start = number(&bytes[pair..pair + 4]);
        let end = start + number(&bytes[pair + 4..pair + 8]);
        if start < free_from || end > bytes.len() as u64 {
            return Err(Fault {
                number: 2,
                section: index as u8 + 1,
                record: 0,
                place: pair,
            });
        }
        *section = Section {
            number: index as u8 + 1,
            place: start as usize,
            bytes: &bytes[start as usize..end as usize],
        };
        free_from = end;
    }
    Ok(found)
}

fn check_lengths([settings, contracts, calls]: [usize; 3]) -> Result<(), Fault> {
    let whole_contracts = contracts % CONTRACT_BYTES == 0
        && (1..=MOST_CONTRACTS).contains(&(contracts / CONTRACT_BYTES));
    let kept = [
        settings == SETTINGS_BYTES,
        whole_contracts,
        calls % CALL_BYTES == 0,
    ];
    match kept.iter().position(|kept| !kept) {
        None => Ok(()),
        Some(index) => Err(Fault {
            number: 3,
            section: index as u8 + 1,
            record: 0,
            place: index * 8 + 4,
        }),
    }
}

/// One record, with what is needed to tell a fault of it.
struct Record<'a> {
    section: u8,
    number: usize,
    place: usize,
    bytes: &'a [u8],
}

impl Record<'_> {
    fn fault(&self, number: u8, at: usize) -> Fault {
        Fault {
            number,
            section: self.section,
            record: self.number,
            place: self.place + at,
        }
    }

    fn field(&self, at: usize, width: usize) -> u64 {
        number(&self.bytes[at..at + width])
    }

    fn ranged(&self, at: usize, width: usize, range: RangeInclusive<u64>) -> Result<u64, Fault> {
        let value = self.field(at, width);
        if range.contains(&value) {
            Ok(value)
        } else {
            Err(self.fault(4, at))
        }
    }

    fn unused(&self, at: usize, width: usize) -> Result<(), Fault> {
        if self.field(at, width) == 0 {
            Ok(())
        } else {
            Err(self.fault(7, at))
        }
    }
}

/// An unsigned number, lowest byte first.
fn number(bytes: &[u8]) -> u64 {
    bytes
        .iter()
        .rev()
        .fold(0, |value, &byte| value << 8 | u64::from(byte))
}

fn read_settings(record: &Record) -> Result<Settings, Fault> {
    let settings = Settings {
        scale: if record.ranged(0, 1, 1..=2)? == 1 {
            Base::Standard
        } else {
            Base::Listed
        },
        first_raise: record.ranged(1, 1, 0..=100)? as u8,
        second_raise: record.ranged(2, 1, 0..=100)? as u8,
        permitted: record.ranged(3, 1, 0..=63)? as u8,
        first_number: record.ranged(4, 4, 1..=u64::from(u32::MAX))? as u32,
        opening_balance: record.ranged(8, 8, 0..=10_000_000_000_000_000)?,
        day: record.ranged(16, 2, 1..=65_535)? as u16,
    };
    record.unused(18, 2)?;
    Ok(settings)
}

fn read_contract(record: &Record, day: u16) -> Result<Contract, Fault> {
    Ok(Contract {
        code: record.ranged(0, 4, 10_000_000..=99_999_999)? as u32,
        underlying: record.ranged(4, 4, 1..=999_999)? as u32,
        expiry: record.ranged(8, 2, u64::from(day)..=65_535)? as u16,
        right: if record.ranged(10, 1, 1..=2)? == 1 {
            Right::Call
        } else {
            Right::Put
        },
        kind: if record.ranged(11, 1, 1..=2)? == 1 {
            Kind::Stock
        } else {
            Kind::Fund
        },
        unit: record.ranged(12, 4, 1..=1_000_000)? as u32,
        strike: record.ranged(16, 4, 1..=10_000_000)? as u32,
        settlement: record.ranged(20, 4, 1..=10_000_000)? as u32,
        close: record.ranged(24, 4, 1..=10_000_000)? as u32,
        listed_margin: record.field(28, 4) as u32,
    })
}

fn check_joins(listing: &[Contract], new: &Contract, record: &Record) -> Result<(), Fault> {
    if listing.last().is_some_and(|last| new.code <= last.code) {
        return Err(record.fault(5, 0));
    }
    let clash = |old: &Contract| {
        old.underlying == new.underlying && (old.kind != new.kind || old.close != new.close)
    };
    if listing.iter().any(clash) {
        Err(record.fault(6, 4))
    } else {
        Ok(())
    }
}

/// The fields of a call behind its number, by place: where and how wide.
const CALL_FIELDS: [(usize, usize); 7] = [(1, 1), (2, 1), (3, 1), (4, 4), (8, 4), (12, 4), (16, 8)];

/// Which of those fields each call uses:
/// account, strategy, spare, A, B, lots, amount.
const USED: [[u8; 7]; 11] = [
    [0, 0, 0, 0, 0, 0, 1],
    [0, 0, 0, 0, 0, 0, 1],
    [1, 0, 0, 1, 0, 1, 1],
    [1, 0, 0, 1, 0, 1, 1],
    [1, 0, 0, 1, 0, 1, 1],
    [1, 0, 0, 1, 0, 1, 1],
    [0, 0, 0, 1, 1, 1, 1],
    [0, 0, 0, 1, 0, 1, 1],
    [0, 0, 0, 1, 0, 0, 0],
    [1, 1, 0, 1, 1, 1, 0],
    [0, 0, 0, 1, 0, 1, 0],
];

fn read_call(record: &Record) -> Result<Call, Fault> {
    let call = record.ranged(0, 1, 1..=11)? as usize;
    for (&(at, width), &used) in CALL_FIELDS.iter().zip(&USED[call - 1]) {
        if used == 0 {
            record.unused(at, width)?;
        }
    }
    let account = record.bytes[1];
    let strategy = record.bytes[2];
    let a = record.field(4, 4) as u32;
    let b = record.field(8, 4) as u32;
    let lots = record.field(12, 4) as u32;
    let amount = record.field(16, 8);
    let order = |trade| Call::Order {
        trade,
        account,
        contract: a,
        lots,
        limit: amount,
    };
    Ok(match call {
        1 => Call::Deposit { amount },
        2 => Call::Withdraw { amount },
        3 => order(Trade::SellOpen),
        4 => order(Trade::BuyOpen),
        5 => order(Trade::BuyClose),
        6 => order(Trade::SellClose),
        7 => Call::LegClose {
            combination: a,
            leg: b,
            lots,
            limit: amount,
        },
        8 => Call::Fill {
            order: a,
            lots,
            price: amount,
        },
        9 => Call::Cancel { order: a },
        10 => Call::Combine {
            account,
            strategy,
            first: a,
            second: b,
            lots,
        },
        _ => Call::Release {
            combination: a,
            lots,
        },
    })
}

#[cfg(test)]
mod tests {
    use super::*;

    const EXAMPLE: &[u8] = include_bytes!("../../crates/daybook/stdin");

    fn spoilt(place: usize, byte: u8) -> String {
        let mut bytes = EXAMPLE.to_vec();
        bytes[place] = byte;
        read(&bytes).expect_err("a fault").to_string()
    }

    #[test]
    fn the_example_passes() {
        let day = read(EXAMPLE).expect("a sound file");
        assert_eq!(day.settings.opening_balance, 100_000_000);
        assert_eq!(day.settings.day, 100);
        assert_eq!(day.contracts.len(), 2);
        assert_eq!(day.contracts[1].code, 90_000_002);
        assert_eq!(day.calls.len(), 8);
        assert_eq!(
            day.calls[7],
            Call::Fill {
                order: 3,
                lots: 1,
                price: 350
            }
        );
    }

    #[test]
    fn sizes() {
        let told = "fault 1 section 0 record 0 place 0";
        assert_eq!(read(&EXAMPLE[..23]).expect_err("short").to_string(), told);
        assert_eq!(read(&[0; 60_001]).expect_err("long").to_string(), told);
        assert_eq!(
            read(&[0; 24]).expect_err("no settings").to_string(),
            "fault 2 section 1 record 0 place 0"
        );
    }

    #[test]
    fn faults_are_told_by_place() {
        assert_eq!(spoilt(0, 23), "fault 2 section 1 record 0 place 0");
        assert_eq!(spoilt(4, 19), "fault 3 section 1 record 0 place 4");
        assert_eq!(spoilt(16, 109), "fault 2 section 3 record 0 place 16");
        assert_eq!(spoilt(12, 63), "fault 3 section 2 record 0 place 12");
        assert_eq!(spoilt(24, 3), "fault 4 section 1 record 1 place 24");
        assert_eq!(spoilt(42, 1), "fault 7 section 1 record 1 place 42");
        assert_eq!(spoilt(52, 99), "fault 4 section 2 record 1 place 52");
        assert_eq!(spoilt(76, 0x81), "fault 5 section 2 record 2 place 76");
        assert_eq!(spoilt(100, 0x41), "fault 6 section 2 record 2 place 80");
        assert_eq!(spoilt(108, 12), "fault 4 section 3 record 1 place 108");
        assert_eq!(spoilt(110, 1), "fault 7 section 3 record 1 place 110");
    }
}
