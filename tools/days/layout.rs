//! The fields of the day file, as tables, and the packing of a day.

use reference::format::{Base, Call, Contract, Day, Kind, Right, Settings, Trade};

pub const HEAD: usize = 24;
pub const SETTINGS: usize = 20;
pub const CONTRACT: usize = 32;
pub const CALL: usize = 24;
pub const LARGEST: usize = 60_000;

/// A field of a record: its place, its width and its range.
#[derive(Clone, Copy, Debug)]
pub struct Field {
    pub name: &'static str,
    pub at: usize,
    pub bytes: usize,
    pub low: u64,
    pub high: u64,
}

impl Field {
    /// The largest value that the width can hold.
    pub fn widest(&self) -> u64 {
        u64::MAX >> (64 - 8 * self.bytes)
    }
}

const fn field(name: &'static str, at: usize, bytes: usize, low: u64, high: u64) -> Field {
    Field {
        name,
        at,
        bytes,
        low,
        high,
    }
}

pub const SETTINGS_FIELDS: [Field; 8] = [
    field("scale", 0, 1, 1, 2),
    field("first raise", 1, 1, 0, 100),
    field("second raise", 2, 1, 0, 100),
    field("permitted", 3, 1, 0, 63),
    field("first number", 4, 4, 1, 4_294_967_295),
    field("opening balance", 8, 8, 0, 10_000_000_000_000_000),
    field("day", 16, 2, 1, 65_535),
    field("spare", 18, 2, 0, 0),
];

/// The expiry's lower end is the file's day.
pub const CONTRACT_FIELDS: [Field; 10] = [
    field("code", 0, 4, 10_000_000, 99_999_999),
    field("underlying", 4, 4, 1, 999_999),
    field("expiry", 8, 2, 1, 65_535),
    field("right", 10, 1, 1, 2),
    field("kind", 11, 1, 1, 2),
    field("unit", 12, 4, 1, 1_000_000),
    field("strike", 16, 4, 1, 10_000_000),
    field("settlement", 20, 4, 1, 10_000_000),
    field("close", 24, 4, 1, 10_000_000),
    field("listed margin", 28, 4, 0, 4_294_967_295),
];

/// The fields of a call; the ranges are those that the reader looks at.
pub const CALL_FIELDS: [Field; 8] = [
    field("call", 0, 1, 1, 11),
    field("account", 1, 1, 0, 0xFF),
    field("strategy", 2, 1, 0, 0xFF),
    field("spare", 3, 1, 0, 0),
    field("A", 4, 4, 0, 0xFFFF_FFFF),
    field("B", 8, 4, 0, 0xFFFF_FFFF),
    field("lots", 12, 4, 0, 0xFFFF_FFFF),
    field("amount", 16, 8, 0, u64::MAX),
];

/// Whether a call leaves a field unused, by the field's place.
pub fn unused(call: u8, at: usize) -> bool {
    let used: &[usize] = match call {
        1 | 2 => &[16],
        3..=6 => &[1, 4, 12, 16],
        7 => &[4, 8, 12, 16],
        8 => &[4, 12, 16],
        9 => &[4],
        10 => &[1, 2, 4, 8, 12],
        _ => &[4, 12],
    };
    at != 0 && !used.contains(&at)
}

/// Bytes before each section and behind the last; none where they touch.
#[derive(Clone, Debug, Default)]
pub struct Gaps(pub [Vec<u8>; 4]);

pub fn pack(day: &Day, gaps: &Gaps) -> Vec<u8> {
    let settings = pack_settings(&day.settings).to_vec();
    let contracts: Vec<u8> = day.contracts.iter().flat_map(pack_contract).collect();
    let calls: Vec<u8> = day.calls.iter().flat_map(pack_call).collect();

    let mut file = vec![0; HEAD];
    for (index, section) in [settings, contracts, calls].iter().enumerate() {
        file.extend_from_slice(&gaps.0[index]);
        let start = file.len() as u64;
        put(&mut file, index * 8, 4, start);
        put(&mut file, index * 8 + 4, 4, section.len() as u64);
        file.extend_from_slice(section);
    }
    file.extend_from_slice(&gaps.0[3]);
    file
}

/// Writes a number, lowest byte first.
pub fn put(bytes: &mut [u8], at: usize, width: usize, value: u64) {
    bytes[at..at + width].copy_from_slice(&value.to_le_bytes()[..width]);
}

/// Reads a number, lowest byte first.
pub fn get(bytes: &[u8], at: usize, width: usize) -> u64 {
    let mut wide = [0; 8];
    wide[..width].copy_from_slice(&bytes[at..at + width]);
    u64::from_le_bytes(wide)
}

/// Where a section stands: its start and its length.
pub fn section(bytes: &[u8], number: usize) -> (usize, usize) {
    let pair = (number - 1) * 8;
    (
        get(bytes, pair, 4) as usize,
        get(bytes, pair + 4, 4) as usize,
    )
}

fn pack_settings(settings: &Settings) -> [u8; SETTINGS] {
    let mut record = [0; SETTINGS];
    record[0] = match settings.scale {
        Base::Standard => 1,
        Base::Listed => 2,
    };
    record[1] = settings.first_raise;
    record[2] = settings.second_raise;
    record[3] = settings.permitted;
    put(&mut record, 4, 4, settings.first_number.into());
    put(&mut record, 8, 8, settings.opening_balance);
    put(&mut record, 16, 2, settings.day.into());
    record
}

fn pack_contract(contract: &Contract) -> [u8; CONTRACT] {
    let mut record = [0; CONTRACT];
    put(&mut record, 0, 4, contract.code.into());
    put(&mut record, 4, 4, contract.underlying.into());
    put(&mut record, 8, 2, contract.expiry.into());
    record[10] = match contract.right {
        Right::Call => 1,
        Right::Put => 2,
    };
    record[11] = match contract.kind {
        Kind::Stock => 1,
        Kind::Fund => 2,
    };
    put(&mut record, 12, 4, contract.unit.into());
    put(&mut record, 16, 4, contract.strike.into());
    put(&mut record, 20, 4, contract.settlement.into());
    put(&mut record, 24, 4, contract.close.into());
    put(&mut record, 28, 4, contract.listed_margin.into());
    record
}

pub fn pack_call(call: &Call) -> [u8; CALL] {
    let (account, strategy, a, b, lots, amount) = match *call {
        Call::Deposit { amount } | Call::Withdraw { amount } => (0, 0, 0, 0, 0, amount),
        Call::Order {
            account,
            contract,
            lots,
            limit,
            ..
        } => (account, 0, contract, 0, lots, limit),
        Call::LegClose {
            combination,
            leg,
            lots,
            limit,
        } => (0, 0, combination, leg, lots, limit),
        Call::Fill { order, lots, price } => (0, 0, order, 0, lots, price),
        Call::Cancel { order } => (0, 0, order, 0, 0, 0),
        Call::Combine {
            account,
            strategy,
            first,
            second,
            lots,
        } => (account, strategy, first, second, lots, 0),
        Call::Release { combination, lots } => (0, 0, combination, 0, lots, 0),
    };
    let mut record = [0; CALL];
    record[0] = call.number();
    record[1] = account;
    record[2] = strategy;
    put(&mut record, 4, 4, a.into());
    put(&mut record, 8, 4, b.into());
    put(&mut record, 12, 4, lots.into());
    put(&mut record, 16, 8, amount);
    record
}

pub fn sell_open(account: u8, contract: u32, lots: u32, limit: u64) -> Call {
    Call::Order {
        trade: Trade::SellOpen,
        account,
        contract,
        lots,
        limit,
    }
}

pub fn buy_open(account: u8, contract: u32, lots: u32, limit: u64) -> Call {
    Call::Order {
        trade: Trade::BuyOpen,
        account,
        contract,
        lots,
        limit,
    }
}

pub fn buy_close(account: u8, contract: u32, lots: u32, limit: u64) -> Call {
    Call::Order {
        trade: Trade::BuyClose,
        account,
        contract,
        lots,
        limit,
    }
}

pub fn sell_close(account: u8, contract: u32, lots: u32, limit: u64) -> Call {
    Call::Order {
        trade: Trade::SellClose,
        account,
        contract,
        lots,
        limit,
    }
}
