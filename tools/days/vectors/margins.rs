//! Days that show what a leg and a pair must hold.

use super::{listing, Vector, C42, C60, P42, SIX};
use crate::layout::{buy_open, sell_open};
use crate::scenario::{combine, fund_call, fund_put, plain, Scenario};
use reference::format::{Base, Call, Contract, Kind, Right, Settings};

pub fn all() -> Vec<Vector> {
    vec![
        ("six-strategies", six_strategies(plain(5_000_000_000))),
        (
            "six-strategies-standard-both-raises",
            six_strategies(raised(Base::Standard, 4, 50)),
        ),
        (
            "six-strategies-listed-both-raises",
            six_strategies(raised(Base::Listed, 33, 1)),
        ),
        ("margin-rounding", margin_rounding()),
        ("pair-margin-rounding", pair_margin_rounding()),
        ("raise-rounding", raise_rounding()),
        (
            "lower-range-ends",
            range_ends(lowest_settings(), 10_000_000, 1),
        ),
        (
            "upper-range-ends",
            range_ends(highest_settings(), 99_999_998, 999_999),
        ),
        ("price-ends", price_ends()),
        ("largest-margins", largest_margins()),
        ("straddle-equal-legs", straddle_equal_legs()),
        ("negative-relief", negative_relief()),
        ("listed-margins-nought", listed_margins_nought()),
    ]
}

fn raised(scale: Base, first_raise: u8, second_raise: u8) -> Settings {
    Settings {
        scale,
        first_raise,
        second_raise,
        ..plain(50_000_000_000)
    }
}

fn six_strategies(settings: Settings) -> Vec<u8> {
    let contracts = listing()
        .into_iter()
        .enumerate()
        .map(|(index, one)| Contract {
            listed_margin: 250_000 + 7_003 * index as u32,
            ..one
        })
        .collect();
    let mut s = Scenario::open(settings, contracts);
    for (strategy, first, second) in SIX {
        if strategy < 5 {
            s.own(1, first, 4, 100);
        } else {
            s.write(1, first, 4, 500);
        }
        s.write(1, second, 4, 300);
        let standing = s.combine(strategy, first, second, 4);
        let close = s.leg_close(standing, second, 2, 900);
        s.release(standing, 1);
        s.fill(close, 1, 900);
        s.cancel(close);
        s.release(standing, 1);
        s.refuse(
            18,
            Call::Release {
                combination: standing,
                lots: 2,
            },
        );
        let close = s.leg_close(standing, second, 1, 1);
        s.fill(close, 1, 1);
        s.refuse(
            16,
            Call::Release {
                combination: standing,
                lots: 1,
            },
        );
    }
    s.file()
}

/// The worked margins, each asked by a sell open that has just enough.
fn margin_rounding() -> Vec<u8> {
    let terms = |code, right, kind, [close, strike, settlement, unit]: [u32; 4]| Contract {
        right,
        kind,
        unit,
        close,
        underlying: code - 90_000_000,
        ..fund_call(code, strike, settlement)
    };
    let contracts = vec![
        terms(
            90_000_001,
            Right::Call,
            Kind::Fund,
            [40_000, 42_000, 500, 10_000],
        ),
        terms(
            90_000_002,
            Right::Put,
            Kind::Fund,
            [40_000, 38_000, 300, 10_000],
        ),
        terms(90_000_003, Right::Call, Kind::Fund, [10_000, 10_000, 50, 1]),
        terms(90_000_004, Right::Call, Kind::Fund, [10_000, 10_000, 49, 1]),
        terms(
            90_000_005,
            Right::Put,
            Kind::Stock,
            [10_000, 50_000, 45_000, 100],
        ),
    ];
    let margins = [33_000_000, 31_000_000, 1_300, 1_200, 5_000_000];
    let mut s = Scenario::open(plain(0), contracts);
    for (code, margin) in (90_000_001..).zip(margins) {
        s.deposit(margin - 1);
        s.refuse(21, sell_open(1, code, 1, 1));
        s.deposit(1);
        s.take(sell_open(1, code, 1, 1));
    }
    s.file()
}

/// Spreads of one piece whose strikes lie 49, 50 and 51 hao apart: half a
/// fen is rounded up.
fn pair_margin_rounding() -> Vec<u8> {
    let call = |code, strike| Contract {
        unit: 1,
        close: 1_000,
        ..fund_call(code, strike, 100)
    };
    let contracts = vec![
        call(90_000_001, 1_000),
        call(90_000_002, 1_049),
        call(90_000_003, 1_050),
        call(90_000_004, 1_051),
    ];
    let mut s = Scenario::open(plain(10_000), contracts);
    s.write(1, 90_000_001, 3, 100);
    for bought in [90_000_002, 90_000_003, 90_000_004] {
        s.own(1, bought, 1, 100);
        s.combine(2, bought, 90_000_001, 1);
    }
    s.file()
}

/// Listed margins of 12 to 14 fen raised by 50 and then by 2: half a fen is
/// rounded up at each raise.
fn raise_rounding() -> Vec<u8> {
    let contracts = (0..3)
        .map(|more| Contract {
            listed_margin: 12 + more,
            ..fund_call(90_000_001 + more, 42_000 + 100 * more, 1)
        })
        .collect();
    let mut s = Scenario::open(raised(Base::Listed, 50, 2), contracts);
    for contract in 90_000_001..=90_000_003 {
        s.take(sell_open(1, contract, 1, 1));
    }
    s.file()
}

fn lowest_settings() -> Settings {
    Settings {
        permitted: 0,
        day: 1,
        ..plain(0)
    }
}

fn highest_settings() -> Settings {
    let highest = raised(Base::Listed, 100, 100);
    Settings {
        day: 65_535,
        opening_balance: 10_000_000_000_000_000,
        ..highest
    }
}

/// Settings and contracts with every number at an end of its range.
fn range_ends(settings: Settings, code: u32, underlying: u32) -> Vec<u8> {
    let lowest = settings.day == 1;
    let call = Contract {
        underlying,
        expiry: settings.day,
        unit: if lowest { 1 } else { 1_000_000 },
        close: if lowest { 1 } else { 10_000_000 },
        listed_margin: if lowest { 0 } else { u32::MAX },
        ..if lowest {
            fund_call(code, 1, 1)
        } else {
            fund_call(code, 10_000_000, 10_000_000)
        }
    };
    let put = Contract {
        code: code + 1,
        right: Right::Put,
        ..call
    };
    let mut s = Scenario::open(settings, vec![call, put]);
    let price = u64::from(call.settlement);
    if lowest {
        s.refuse(21, buy_open(1, code, 1, price));
        s.deposit(1_000);
    }
    s.write(1, code, 2, price);
    s.write(1, code + 1, 2, price);
    let straddle = s.combine(5, code, code + 1, 2);
    let close = Call::LegClose {
        combination: straddle,
        leg: code,
        lots: 1,
        limit: price,
    };
    if lowest {
        s.refuse(17, close);
    } else {
        s.take(close);
    }
    s.file()
}

/// Strikes, settlements, closes and units at the ends of their ranges.
fn price_ends() -> Vec<u8> {
    let top = 10_000_000;
    let mut contracts = Vec::new();
    for (underlying, (unit, close)) in
        (1..).zip([(1, 1), (1, top), (1_000_000, 1), (1_000_000, top)])
    {
        for (strike, settlement) in [(1, top), (top, 1)] {
            for right in [Right::Call, Right::Put] {
                let code = 90_000_001 + contracts.len() as u32;
                let terms = fund_call(code, strike, settlement);
                contracts.push(Contract {
                    underlying,
                    unit,
                    close,
                    right,
                    ..terms
                });
            }
        }
    }
    let codes: Vec<u32> = contracts.iter().map(|one| one.code).collect();
    let mut s = Scenario::open(plain(10_000_000_000_000_000), contracts);
    for &code in &codes {
        s.write(1, code, 2, 1);
        s.own(1, code, 2, 3);
    }
    for four in codes.chunks(4) {
        let [low_call, low_put, high_call, high_put] = four else {
            continue;
        };
        s.combine(1, *low_call, *high_call, 1);
        s.combine(2, *high_call, *low_call, 1);
        s.combine(3, *low_put, *high_put, 1);
        s.combine(4, *high_put, *low_put, 1);
        s.refuse(18, combine(6, *high_call, *low_put, 2));
        s.combine(6, *high_call, *low_put, 1);
    }
    s.file()
}

/// The largest leg and pair margins, raised twice by 100.
fn largest_margins() -> Vec<u8> {
    let top = 10_000_000;
    let call = Contract {
        kind: Kind::Stock,
        unit: 1_000_000,
        close: top,
        ..fund_call(90_000_001, top, top)
    };
    let put = Contract {
        code: 90_000_002,
        right: Right::Put,
        ..call
    };
    let settings = Settings {
        first_raise: 100,
        second_raise: 100,
        ..plain(10_000_000_000_000_000)
    };
    let mut s = Scenario::open(settings, vec![call, put]);
    s.write(1, 90_000_001, 100, u64::from(top));
    s.write(1, 90_000_002, 100, u64::from(top));
    let straddle = s.combine(5, 90_000_001, 90_000_002, 100);
    let close = s.leg_close(straddle, 90_000_001, 50, u64::from(top));
    s.fill(close, 50, u64::from(top));
    s.release(straddle, 50);
    s.file()
}

/// Equal leg margins: the larger settlement is added, whichever leg has it.
fn straddle_equal_legs() -> Vec<u8> {
    // Leg margins of 32,000,000 each; the put settled higher.
    let dear_put = [
        fund_call(90_000_001, 8_000, 2_000),
        fund_put(90_000_002, 8_000, 2_640),
    ]
    .map(|one| Contract {
        close: 10_000,
        ..one
    });
    // Leg margins of 15,600,000 each; the call settled higher.
    let dear_call = [
        fund_call(90_000_003, 10_000, 1_000),
        fund_put(90_000_004, 10_000, 600),
    ]
    .map(|one| Contract {
        close: 8_000,
        underlying: 900_002,
        ..one
    });
    let mut s = Scenario::open(plain(200_000_000), [dear_put, dear_call].concat());
    for (call, put) in [(90_000_001, 90_000_002), (90_000_003, 90_000_004)] {
        s.write(1, call, 1, 1);
        s.write(1, put, 1, 1);
        let straddle = s.combine(5, call, put, 1);
        s.release(straddle, 1);
        let straddle = s.combine(5, call, put, 1);
        let close = s.leg_close(straddle, put, 1, 2_641);
        s.fill(close, 1, 2_641);
    }
    s.file()
}

/// A bear call spread with strikes far apart: the relief is below nought.
fn negative_relief() -> Vec<u8> {
    let mut s = Scenario::open(plain(1_000_000_000), listing());
    s.own(1, C60, 2, 1);
    s.write(1, C42, 2, 1);
    // 180,000,000 of pair margin, less 33,000,000 of the leg.
    let deduction = 147_000_000;
    s.leave(deduction - 1);
    s.refuse(21, combine(2, C60, C42, 1));
    s.deposit(1);
    let spread = s.combine(2, C60, C42, 1);
    s.refuse(21, combine(2, C60, C42, 1));
    s.release(spread, 1);
    s.deposit(deduction);
    let spread = s.combine(2, C60, C42, 2);
    let close = s.leg_close(spread, C42, 1, 18_000);
    s.fill(close, 1, 17_999);
    s.release(spread, 1);
    s.file()
}

/// The listed scale with nothing listed: only straddles ask for margin.
fn listed_margins_nought() -> Vec<u8> {
    let settings = Settings {
        scale: Base::Listed,
        ..plain(0)
    };
    let mut s = Scenario::open(settings, listing());
    s.take(sell_open(1, C42, 1_000, 1));
    s.fill(1, 1_000, 1);
    s.write(1, P42, 1_000, 1);
    s.leave(0);
    s.refuse(21, combine(5, C42, P42, 1));
    s.deposit(26_000_000);
    let straddle = s.combine(5, C42, P42, 1);
    let close = s.leg_close(straddle, C42, 1, 2_600);
    s.fill(close, 1, 2_600);
    s.file()
}
