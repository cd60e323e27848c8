//! Settings and listings drawn by the seed.

use crate::rng::Rng;
use reference::format::{Base, Contract, Kind, Right, Settings};
use reference::margin::standard_leg;

/// What the prices of a listing look like.
#[derive(Clone, Copy, Debug, PartialEq, Eq)]
pub enum Prices {
    /// Strikes near the close, usual units.
    Ordinary,
    /// Small prices and units, so that many lots cost little.
    Cheap,
    /// Strikes far apart, where a relief falls below nought.
    Wide,
    /// Every term at an end of its range.
    Ends,
}

pub fn settings(rng: &mut Rng, first_number: u32, opening_balance: u64) -> Settings {
    let raise = |rng: &mut Rng| match rng.below(4) {
        0 | 1 => 0,
        2 => rng.pick(&[1, 4, 50, 99, 100, 100]),
        _ => rng.below(101) as u8,
    };
    Settings {
        scale: if rng.chance(60) {
            Base::Standard
        } else {
            Base::Listed
        },
        first_raise: raise(rng),
        second_raise: raise(rng),
        permitted: match rng.below(20) {
            0 => 0,
            1..=7 => rng.below(64) as u8,
            _ => 63,
        },
        first_number,
        opening_balance,
        day: rng.pick(&[1, 100, 100, 2_500, 65_535]),
    }
}

/// A listing of `count` contracts in chains of one underlying each.
pub fn listing(rng: &mut Rng, day: u16, count: usize, prices: Prices) -> Vec<Contract> {
    let mut contracts: Vec<Contract> = Vec::with_capacity(count);
    while contracts.len() < count {
        let room = count - contracts.len();
        let chain = chain(rng, day, prices, &contracts);
        contracts.extend(chain.into_iter().take(room));
    }
    rng.shuffle(&mut contracts);
    give_codes(rng, &mut contracts);
    contracts
}

/// The contracts of one new underlying: calls and puts at some strikes.
fn chain(rng: &mut Rng, day: u16, prices: Prices, before: &[Contract]) -> Vec<Contract> {
    let underlying = loop {
        let drawn = if rng.chance(10) {
            rng.pick(&[1, 999_999])
        } else {
            rng.lots(999_999)
        };
        if before.iter().all(|contract| contract.underlying != drawn) {
            break drawn;
        }
    };
    let kind = if rng.chance(50) {
        Kind::Stock
    } else {
        Kind::Fund
    };
    let close = match prices {
        Prices::Ordinary | Prices::Wide => rng.between(8_000, 400_000) as u32,
        Prices::Cheap => rng.between(50, 900) as u32,
        Prices::Ends => an_end(rng),
    };
    let unit = match prices {
        Prices::Ordinary => rng.pick(&[100, 1_000, 5_000, 10_000, 10_000]),
        Prices::Wide => rng.pick(&[1, 7, 100, 10_000]),
        Prices::Cheap => rng.pick(&[1, 1, 1, 3]),
        Prices::Ends => rng.pick(&[1, 1, 999_999, 1_000_000, 1_000_000]),
    };
    let expiry = if rng.chance(15) {
        rng.pick(&[day, 65_535])
    } else {
        rng.between(day.into(), 65_535) as u16
    };
    let listed = rng.below(6);

    let mut strikes: Vec<u32> = Vec::new();
    for _ in 0..rng.between(2, 5) {
        let strike = match prices {
            Prices::Ordinary => (close / 20).max(1) * rng.between(15, 26) as u32,
            Prices::Cheap => (close * rng.between(50, 180) as u32 / 100).max(1),
            Prices::Wide => (u64::from(close) * rng.between(10, 600) / 100) as u32,
            Prices::Ends => an_end(rng),
        };
        if !strikes.contains(&strike) {
            strikes.push(strike);
        }
    }

    let mut contracts = Vec::new();
    for strike in strikes {
        for right in [Right::Call, Right::Put] {
            if rng.chance(8) {
                continue;
            }
            let intrinsic = match right {
                Right::Call => close.saturating_sub(strike),
                Right::Put => strike.saturating_sub(close),
            };
            let settlement = match prices {
                Prices::Ends => an_end(rng),
                // Now and then a put settles above its strike.
                _ if rng.chance(8) => strike + rng.lots(strike),
                _ => intrinsic + rng.lots(close / 12 + 1),
            };
            let mut contract = Contract {
                code: 0,
                underlying,
                expiry,
                right,
                kind,
                unit,
                strike,
                settlement: settlement.clamp(1, 10_000_000),
                close,
                listed_margin: 0,
            };
            let near = (standard_leg(&contract) / 100) as u64;
            contract.listed_margin = match listed {
                0 => 0,
                1 => rng.pick(&[0, u32::MAX]),
                2 => 5_000,
                3 => rng.next() as u32,
                _ => (near * rng.between(60, 140) / 100).min(u32::MAX.into()) as u32,
            };
            contracts.push(contract);
        }
    }
    // One contract may stand apart by its expiry or its unit.
    if contracts.len() > 2 && rng.chance(35) {
        let odd = rng.index(contracts.len());
        if rng.chance(50) {
            contracts[odd].expiry = if expiry == day { 65_535 } else { day };
        } else {
            contracts[odd].unit = if unit == 1 { 2 } else { unit - 1 };
        }
    }
    contracts
}

fn an_end(rng: &mut Rng) -> u32 {
    rng.pick(&[
        1, 2, 49, 50, 51, 5_000_000, 9_999_999, 10_000_000, 10_000_000,
    ])
}

/// Rising codes, now and then from one end of the range to the other.
fn give_codes(rng: &mut Rng, contracts: &mut [Contract]) {
    let step = if rng.chance(30) { 1 } else { 1_000 };
    let mut code = if rng.chance(30) {
        9_999_999
    } else {
        rng.between(10_000_000, 99_000_000) as u32
    };
    for contract in contracts.iter_mut() {
        code += rng.lots(step);
        contract.code = code;
    }
    if let (true, Some(last)) = (rng.chance(20), contracts.last_mut()) {
        last.code = 99_999_999;
    }
}
