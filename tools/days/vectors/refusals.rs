//! Each refusal at its edge: the first that is refused beside the last that
//! is taken.

use super::{
    listing, Vector, C42, C42_MARGIN, C44, C60, OTHER_EXPIRY, OTHER_UNDERLYING, OTHER_UNIT, P36,
    P38, P38_MARGIN, P42, UNLISTED,
};
use crate::layout::{buy_close, buy_open, sell_close, sell_open};
use crate::need::{with_lots, with_price};
use crate::scenario::{combine, plain, Scenario};
use reference::format::{Call, Settings};

const MOST_AMOUNT: u64 = 10_000_000_000_000_000;
const MOST_PRICE: u64 = 10_000_000;

pub fn all() -> Vec<Vector> {
    vec![
        ("refusal-10-amount", amount()),
        ("refusal-11-account", account()),
        ("refusal-12-contract", contract()),
        ("refusal-13-lots", lots()),
        ("refusal-14-price", price()),
        ("refusal-15-strategy", strategy()),
        ("refusal-16-number", number()),
        ("refusal-17-leg", leg()),
        ("refusal-18-free-lots", free_lots()),
        ("refusal-19-lot-limit", lot_limit()),
        ("refusal-20-price-limit", price_limit()),
        ("refusal-21-balance", balance()),
        ("refusal-22-no-row", no_row()),
        ("refusal-23-last-number", last_number()),
        ("refusal-24-cash-limit", cash_limit()),
        ("refusals-in-order", in_order()),
    ]
}

/// Account 1 owns lots of every kind, and a strangle and a spread stand.
fn stocked(lots: u32) -> (Scenario, u32, u32) {
    let mut s = Scenario::open(plain(MOST_AMOUNT), listing());
    for contract in [C42, P38] {
        s.write(1, contract, lots, 400);
        s.write(1, contract, lots, 400);
    }
    s.own(1, C44, lots, 200);
    s.own(1, C44, lots, 200);
    let strangle = s.combine(6, C42, P38, lots);
    let spread = s.combine(2, C44, C42, lots / 2);
    (s, strangle, spread)
}

fn leg_close(combination: u32, leg: u32, lots: u32, limit: u64) -> Call {
    Call::LegClose {
        combination,
        leg,
        lots,
        limit,
    }
}

fn fill(order: u32, lots: u32, price: u64) -> Call {
    Call::Fill { order, lots, price }
}

fn release(combination: u32, lots: u32) -> Call {
    Call::Release { combination, lots }
}

fn amount() -> Vec<u8> {
    let mut s = Scenario::open(plain(0), listing());
    for amount in [0, MOST_AMOUNT + 1, u64::MAX] {
        s.refuse(10, Call::Deposit { amount });
        s.refuse(10, Call::Withdraw { amount });
    }
    for amount in [1, MOST_AMOUNT] {
        s.deposit(amount);
        s.withdraw(amount);
    }
    s.file()
}

fn account() -> Vec<u8> {
    let mut s = Scenario::open(plain(5_000_000_000), listing());
    let on = |account| {
        [
            sell_open(account, C42, 1, 500),
            buy_open(account, C44, 1, 200),
            buy_close(account, C42, 1, 500),
            sell_close(account, C44, 1, 200),
            Call::Combine {
                account,
                strategy: 2,
                first: C44,
                second: C42,
                lots: 1,
            },
        ]
    };
    for account in [1, 8] {
        s.write(account, C42, 3, 500);
        s.own(account, C44, 3, 200);
        for call in on(account) {
            s.take(call);
        }
    }
    for account in [0, 9, 255] {
        for call in on(account) {
            s.refuse(11, call);
        }
    }
    s.file()
}

fn contract() -> Vec<u8> {
    let (mut s, strangle, _) = stocked(10);
    for code in [0, C42 - 1, UNLISTED, u32::MAX] {
        s.refuse(12, sell_open(1, code, 1, 500));
        s.refuse(12, buy_open(1, code, 1, 500));
        s.refuse(12, buy_close(1, code, 1, 500));
        s.refuse(12, sell_close(1, code, 1, 500));
        s.refuse(12, leg_close(strangle, code, 1, 500));
        s.refuse(12, combine(6, code, P38, 1));
        s.refuse(12, combine(6, C42, code, 1));
    }
    s.take(sell_open(1, C42, 1, 500));
    s.take(sell_open(1, OTHER_UNIT, 1, 500));
    s.file()
}

fn lots() -> Vec<u8> {
    let (mut s, strangle, _) = stocked(1_000);
    let order = s.take(buy_open(1, P36, 1_000, 1));
    let calls = [
        sell_open(2, C42, 0, 500),
        buy_open(2, C42, 0, 500),
        buy_close(1, P38, 0, 300),
        sell_close(1, C44, 0, 200),
        fill(order, 0, 1),
        combine(6, C42, P38, 0),
        leg_close(strangle, C42, 0, 500),
        release(strangle, 0),
    ];
    for call in calls {
        s.refuse(13, call);
        s.refuse(13, with_lots(call, 1_001));
        s.refuse(13, with_lots(call, u32::MAX));
    }
    s.take(with_lots(calls[0], 1_000));
    s.take(with_lots(calls[1], 1_000));
    s.take(with_lots(calls[2], 1_000));
    s.take(with_lots(calls[3], 1_000));
    s.take(with_lots(calls[4], 1_000));
    s.release(strangle, 1_000);
    let strangle = s.take(with_lots(calls[5], 1_000));
    let close = s.leg_close(strangle, C42, 1_000, 500);
    s.fill(close, 1, 500);
    s.fill(close, 998, 500);
    s.fill(close, 1, 500);
    s.file()
}

fn price() -> Vec<u8> {
    let (mut s, strangle, _) = stocked(10);
    let order = s.take(buy_open(1, P36, 10, MOST_PRICE));
    let calls = [
        sell_open(2, C42, 1, 0),
        buy_open(2, C42, 1, 0),
        buy_close(1, P38, 1, 0),
        sell_close(1, C44, 1, 0),
        leg_close(strangle, C42, 1, 0),
        fill(order, 1, 0),
    ];
    for call in calls {
        // The last one is 1 where only the lower four bytes are looked at.
        for limit in [0, MOST_PRICE + 1, u64::MAX, 4_294_967_297] {
            s.refuse(14, with_price(call, limit));
        }
        s.take(with_price(call, 1));
        s.take(with_price(call, MOST_PRICE));
    }
    s.file()
}

fn strategy() -> Vec<u8> {
    let mut s = Scenario::open(plain(10_000_000_000), listing());
    for contract in [
        C42,
        C44,
        C60,
        P38,
        P42,
        P36,
        OTHER_UNDERLYING,
        OTHER_EXPIRY,
        OTHER_UNIT,
    ] {
        s.write(1, contract, 5, 300);
        s.own(1, contract, 5, 300);
    }
    for strategy in [0, 7, 255] {
        s.refuse(15, combine(strategy, C42, C44, 1));
    }
    for (strategy, first, second) in [
        (1, C44, C42),
        (1, C42, C42),
        (1, P36, P38),
        (2, C42, C44),
        (2, P38, P36),
        (3, P38, P36),
        (3, P38, P38),
        (3, C42, C44),
        (4, P36, P38),
        (4, C44, C42),
        (5, C42, P38),
        (5, P42, C42),
        (5, C44, P42),
        (6, C42, P42),
        (6, P38, C42),
        (5, C42, OTHER_UNDERLYING),
        (5, C42, OTHER_EXPIRY),
        (5, C42, OTHER_UNIT),
        (6, C44, OTHER_UNDERLYING),
        (6, C44, OTHER_EXPIRY),
        (6, C44, OTHER_UNIT),
        (4, P42, OTHER_UNIT),
    ] {
        s.refuse(15, combine(strategy, first, second, 1));
    }
    for (strategy, first, second) in super::SIX {
        s.combine(strategy, first, second, 1);
    }
    s.file()
}

fn number() -> Vec<u8> {
    let settings = Settings {
        first_number: 7,
        ..plain(5_000_000_000)
    };
    let mut s = Scenario::open(settings, listing());
    s.write(1, C42, 5, 500);
    s.write(1, P38, 5, 300);
    let strangle = s.combine(6, C42, P38, 2);
    let order = s.take(sell_open(1, C42, 2, 500));
    for number in [0, 1, 6, 8, 10, u32::MAX] {
        s.refuse(16, fill(number, 1, 500));
        s.refuse(16, Call::Cancel { order: number });
        s.refuse(16, leg_close(number, C42, 1, 500));
        s.refuse(16, release(number, 1));
    }
    s.fill(order, 1, 500);
    s.cancel(order);
    s.refuse(16, Call::Cancel { order });
    s.refuse(16, fill(order, 1, 500));
    s.release(strangle, 2);
    s.refuse(16, release(strangle, 1));
    s.refuse(16, leg_close(strangle, C42, 1, 500));
    s.file()
}

/// Leg closes of strategies 2 and 5 alone are permitted.
fn leg() -> Vec<u8> {
    let settings = Settings {
        permitted: 0b01_0010,
        ..plain(10_000_000_000)
    };
    let mut s = Scenario::open(settings, listing());
    for contract in [C42, C44, P38, P36, P42] {
        s.write(1, contract, 10, 300);
        s.own(1, contract, 10, 300);
    }
    for (strategy, first, second) in super::SIX {
        let standing = s.combine(strategy, first, second, 1);
        s.refuse(17, leg_close(standing, C60, 1, 300));
        match strategy {
            2 => {
                s.refuse(17, leg_close(standing, first, 1, 300));
                s.leg_close(standing, second, 1, 300);
            }
            5 => {
                s.leg_close(standing, first, 1, 300);
                s.refuse(18, leg_close(standing, second, 1, 300));
                s.refuse(17, leg_close(standing, P38, 1, 300));
            }
            _ => {
                s.refuse(17, leg_close(standing, first, 1, 300));
                s.refuse(17, leg_close(standing, second, 1, 300));
            }
        }
    }
    s.file()
}

fn free_lots() -> Vec<u8> {
    // Written: 20 C42 of which 15 stand in pairs, 20 P38 of which 10 do.
    // Bought: 20 C44 of which 5 do.
    let (mut s, strangle, spread) = stocked(10);
    s.refuse(18, buy_close(1, C42, 6, 500));
    let close = s.take(buy_close(1, C42, 5, 500));
    s.refuse(18, buy_close(1, C42, 1, 500));
    s.refuse(18, buy_close(2, C42, 1, 500));
    s.refuse(18, sell_close(1, C44, 16, 200));
    s.take(sell_close(1, C44, 12, 200));
    s.refuse(18, combine(2, C44, C42, 1));
    s.cancel(close);
    s.refuse(18, combine(2, C44, C42, 4));
    s.take(combine(2, C44, C42, 3));
    s.refuse(18, combine(6, C42, P38, 3));
    s.take(combine(6, C42, P38, 2));
    s.refuse(18, leg_close(strangle, P38, 11, 300));
    let close = s.leg_close(strangle, P38, 9, 300);
    s.refuse(18, leg_close(strangle, C42, 2, 500));
    s.refuse(18, release(strangle, 2));
    s.release(strangle, 1);
    s.refuse(18, release(strangle, 1));
    s.refuse(18, fill(close, 10, 300));
    s.fill(close, 9, 300);
    s.refuse(18, release(spread, 6));
    s.release(spread, 5);
    s.file()
}

/// Ten thousand lots a side: owned, locked and working to open.
fn lot_limit() -> Vec<u8> {
    let mut s = Scenario::open(plain(MOST_AMOUNT), listing());
    for _ in 0..4 {
        s.write(1, C42, 1_000, 500);
        s.own(1, C42, 1_000, 500);
    }
    s.take(buy_close(1, C42, 900, 500));
    for open in [sell_open, buy_open] {
        for _ in 0..5 {
            s.take(open(1, C42, 1_000, 500));
        }
        s.take(open(1, C42, 1, 500));
        s.refuse(19, open(1, C42, 1_000, 500));
        s.take(open(1, C42, 999, 500));
        s.refuse(19, open(1, C42, 1, 500));
        // The other accounts and contracts have lots of their own.
        s.take(open(2, C42, 1_000, 500));
        s.take(open(1, C44, 1_000, 500));
    }
    // A fill moves lots from working to owned; a cancel makes room.
    s.fill(10, 1_000, 500);
    s.refuse(19, sell_open(1, C42, 1, 500));
    s.cancel(11);
    s.take(sell_open(1, C42, 1_000, 500));
    s.refuse(19, sell_open(1, C42, 1, 500));
    s.file()
}

fn price_limit() -> Vec<u8> {
    let (mut s, strangle, _) = stocked(10);
    let sales = [
        s.take(sell_open(1, C42, 3, 500)),
        s.take(sell_close(1, C44, 3, 500)),
    ];
    for order in sales {
        s.refuse(20, fill(order, 1, 499));
        s.refuse(20, fill(order, 1, 1));
        s.fill(order, 1, 500);
        s.fill(order, 1, 501);
        s.fill(order, 1, MOST_PRICE);
    }
    let purchases = [
        s.take(buy_open(1, C42, 3, 500)),
        s.take(buy_close(1, P38, 3, 500)),
        s.leg_close(strangle, C42, 3, 500),
    ];
    for order in purchases {
        s.refuse(20, fill(order, 1, 501));
        s.refuse(20, fill(order, 1, MOST_PRICE));
        s.fill(order, 1, 500);
        s.fill(order, 1, 499);
        s.fill(order, 1, 1);
    }
    s.file()
}

/// Makes a call with one hao too little, then with just enough.
fn just_enough(s: &mut Scenario, call: Call, need: u64) {
    s.leave(0);
    s.deposit(need - 1);
    s.refuse(21, call);
    s.deposit(1);
    s.take(call);
}

/// Every call that can lack balance.
fn balance() -> Vec<u8> {
    let mut s = Scenario::open(plain(1_000_000_000), listing());
    s.write(1, C42, 5, 1);
    s.write(1, P38, 5, 1);
    s.own(1, C60, 1, 1);
    s.own(1, C44, 1, 1);
    let strangle = s.combine(6, C42, P38, 2);
    s.leave(0);
    s.refuse(21, Call::Withdraw { amount: 1 });
    just_enough(&mut s, Call::Withdraw { amount: 777 }, 777);
    just_enough(&mut s, sell_open(1, C42, 2, 500), 2 * C42_MARGIN);
    just_enough(&mut s, buy_open(1, C42, 2, 500), 10_000_000);
    just_enough(&mut s, buy_close(1, C42, 2, 500), 10_000_000);
    just_enough(&mut s, combine(2, C60, C42, 1), 147_000_000);
    let close = leg_close(strangle, C42, 1, 501);
    just_enough(&mut s, close, P38_MARGIN + 5_010_000 - 36_000_000);
    just_enough(
        &mut s,
        release(strangle, 1),
        C42_MARGIN + P38_MARGIN - 36_000_000,
    );
    // A sell close takes nothing.
    s.leave(0);
    s.take(sell_close(1, C44, 1, 1));
    s.file()
}

fn no_row() -> Vec<u8> {
    let (mut s, strangle, spread) = stocked(80);
    s.write(1, C42, 40, 500);
    for _ in 0..62 {
        s.combine(2, C44, C42, 1);
    }
    s.refuse(22, combine(2, C44, C42, 1));
    for _ in 0..64 {
        s.take(buy_open(1, P36, 1, 1));
    }
    s.refuse(22, sell_open(1, C42, 1, 500));
    s.refuse(22, buy_open(1, C42, 1, 500));
    s.refuse(22, buy_close(1, P38, 1, 500));
    s.refuse(22, sell_close(1, C44, 1, 500));
    s.refuse(22, leg_close(strangle, P38, 1, 500));
    s.release(spread, 40);
    s.take(combine(6, C42, P38, 1));
    s.file()
}

fn last_number() -> Vec<u8> {
    let settings = Settings {
        first_number: u32::MAX - 3,
        ..plain(1_000_000_000)
    };
    let mut s = Scenario::open(settings, listing());
    s.write(1, C42, 6, 500);
    s.write(1, P38, 6, 300);
    s.own(1, C44, 6, 200);
    let strangle = s.combine(6, C42, P38, 2);
    assert_eq!(s.take(sell_close(1, C44, 1, 200)), u32::MAX);
    s.refuse(23, sell_open(1, C42, 1, 500));
    s.refuse(23, buy_open(1, C42, 1, 500));
    s.refuse(23, buy_close(1, C42, 1, 500));
    s.refuse(23, sell_close(1, C44, 1, 500));
    s.refuse(23, leg_close(strangle, C42, 1, 500));
    s.combine(6, C42, P38, 1);
    s.combine(2, C44, C42, 1);
    assert_eq!(s.combine(2, C44, C42, 1), u32::MAX);
    s.refuse(23, combine(2, C44, C42, 1));
    s.file()
}

/// The cash total may reach 10^17 and not pass it.
fn cash_limit() -> Vec<u8> {
    let mut s = Scenario::open(plain(MOST_AMOUNT), listing());
    s.own(1, C44, 2, 1);
    let open = s.take(sell_open(1, C42, 2, 500));
    let close = s.take(sell_close(1, C44, 2, 300));
    for _ in 0..8 {
        s.deposit(MOST_AMOUNT);
    }
    // 20,000 went out for the bought lots, and a fill brings 5,000,000: with
    // this deposit, the fill would make one hao too many.
    s.deposit(MOST_AMOUNT + 20_000 - 5_000_000 + 1);
    s.refuse(24, fill(open, 1, 500));
    s.withdraw(1);
    s.fill(open, 1, 500);
    s.refuse(24, Call::Deposit { amount: 1 });
    s.refuse(24, fill(open, 1, 500));
    s.refuse(24, fill(close, 1, 300));
    s.withdraw(2_999_999);
    s.refuse(24, fill(close, 1, 300));
    s.withdraw(1);
    s.fill(close, 1, 300);
    s.refuse(
        24,
        Call::Deposit {
            amount: MOST_AMOUNT,
        },
    );
    // A purchase is filled at the limit, and makes room again.
    s.own(1, C44, 1, 1);
    s.deposit(10_000);
    s.refuse(24, Call::Deposit { amount: 1 });
    s.file()
}

/// Calls that break many rules at once, mended one rule after the other.
fn in_order() -> Vec<u8> {
    // Three numbers are used up by the lots, then 64 orders take the rest.
    let settings = Settings {
        permitted: 32,
        first_number: u32::MAX - 66,
        ..plain(1_000_000_000)
    };
    let mut s = Scenario::open(settings, listing());
    s.write(1, C42, 4, 500);
    s.write(1, P38, 4, 300);
    s.write(1, P42, 1, 300);
    let straddle = s.combine(5, C42, P42, 1);
    let strangle = s.combine(6, C42, P38, 2);
    for _ in 0..10 {
        s.take(buy_open(1, C44, 1_000, 1));
    }
    for _ in 0..54 {
        s.take(buy_open(1, P36, 1, 1));
    }
    s.leave(0);

    s.refuse(11, buy_open(0, UNLISTED, 0, 0));
    s.refuse(12, buy_open(1, UNLISTED, 0, 0));
    s.refuse(13, buy_open(1, C44, 0, 0));
    s.refuse(14, buy_open(1, C44, 1, 0));
    s.refuse(19, buy_open(1, C44, 1, MOST_PRICE));
    s.refuse(21, buy_open(1, C42, 1, MOST_PRICE));

    s.refuse(11, buy_close(9, UNLISTED, 0, 0));
    s.refuse(12, buy_close(1, UNLISTED, 0, 0));
    s.refuse(13, buy_close(1, C42, 0, 0));
    s.refuse(14, buy_close(1, C42, 1_000, 0));
    s.refuse(18, buy_close(1, C42, 1_000, MOST_PRICE));
    s.refuse(21, buy_close(1, C42, 1, MOST_PRICE));

    s.refuse(12, leg_close(0, UNLISTED, 0, 0));
    s.refuse(13, leg_close(0, C60, 0, 0));
    s.refuse(14, leg_close(0, C60, 1_000, 0));
    s.refuse(16, leg_close(0, C60, 1_000, MOST_PRICE));
    s.refuse(17, leg_close(straddle, C42, 1_000, MOST_PRICE));
    s.refuse(17, leg_close(strangle, C60, 1_000, MOST_PRICE));
    s.refuse(18, leg_close(strangle, C42, 1_000, MOST_PRICE));
    s.refuse(21, leg_close(strangle, C42, 1, MOST_PRICE));

    s.refuse(13, fill(0, 0, 0));
    s.refuse(14, fill(0, 1_000, 0));
    s.refuse(16, fill(0, 1_000, MOST_PRICE));
    s.refuse(18, fill(u32::MAX, 1_000, MOST_PRICE));
    s.refuse(20, fill(u32::MAX, 1, MOST_PRICE));

    let combined = |account, strategy, first, second, lots| Call::Combine {
        account,
        strategy,
        first,
        second,
        lots,
    };
    s.refuse(11, combined(0, 0, UNLISTED, UNLISTED, 0));
    s.refuse(12, combined(1, 0, C42, UNLISTED, 0));
    s.refuse(13, combined(1, 0, C42, P42, 0));
    s.refuse(15, combined(1, 0, C42, P42, 1_000));
    s.refuse(15, combined(1, 6, C42, P42, 1_000));
    s.refuse(18, combined(1, 5, C42, P42, 1_000));

    s.refuse(13, release(0, 0));
    s.refuse(16, release(0, 1_000));
    s.refuse(18, release(strangle, 1_000));
    s.refuse(21, release(strangle, 1));

    // With balance the rows are what lacks, and then the numbers.
    s.deposit(500_000_000_000);
    s.refuse(22, buy_open(1, C42, 1, MOST_PRICE));
    s.refuse(22, leg_close(strangle, C42, 1, MOST_PRICE));
    s.cancel(u32::MAX);
    s.refuse(23, buy_open(1, C42, 1, MOST_PRICE));
    s.refuse(23, leg_close(strangle, C42, 1, MOST_PRICE));
    s.file()
}
