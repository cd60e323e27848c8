//! Days of sound trading that reach a deep state.

use super::{listing, Vector, C42, C44, P38, P42};
use crate::layout::{buy_close, buy_open, sell_close, sell_open, Gaps};
use crate::scenario::{fund_call, fund_put, plain, Scenario};
use reference::format::Call;

pub fn all() -> Vec<Vector> {
    vec![
        ("worked-example", worked_example()),
        ("no-calls", Scenario::open(plain(0), listing()).file()),
        ("gaps-between-sections", gaps_between_sections()),
        ("all-kinds-of-order", all_kinds_of_order()),
        ("eight-accounts", eight_accounts()),
        ("forty-combinations", forty_combinations()),
        ("leg-close-in-parts", leg_close_in_parts()),
        ("straddle-both-legs", straddle_both_legs()),
        ("leg-close-reserve-nought", leg_close_reserve_nought()),
        ("cancel-after-part-fills", cancel_after_part_fills()),
    ]
}

pub fn worked_example() -> Vec<u8> {
    let contracts = vec![fund_call(C42, 42_000, 500), fund_put(P38, 38_000, 300)];
    let mut s = Scenario::open(plain(100_000_000), contracts);
    s.take(sell_open(1, C42, 1, 500));
    s.fill(1, 1, 520);
    s.write(1, P38, 1, 300);
    let strangle = s.combine(6, C42, P38, 1);
    let close = s.leg_close(strangle, P38, 1, 400);
    s.refuse(
        18,
        Call::Release {
            combination: strangle,
            lots: 1,
        },
    );
    s.fill(close, 1, 350);
    s.file()
}

fn gaps_between_sections() -> Vec<u8> {
    let mut s = Scenario::open(plain(100_000_000), listing());
    s.write(1, C42, 1, 500);
    s.file_with(&Gaps([
        vec![1; 3],
        vec![0xFF; 17],
        vec![7; 1],
        vec![0xAA; 30],
    ]))
}

fn all_kinds_of_order() -> Vec<u8> {
    let mut s = Scenario::open(plain(1_000_000_000), listing());
    let sale = s.take(sell_open(2, C42, 3, 500));
    let purchase = s.take(buy_open(2, C42, 4, 510));
    s.fill(sale, 1, 500);
    s.fill(sale, 2, 777);
    s.fill(purchase, 3, 510);
    s.fill(purchase, 1, 1);
    let back = s.take(buy_close(2, C42, 2, 600));
    let away = s.take(sell_close(2, C42, 4, 450));
    s.fill(back, 1, 600);
    s.fill(away, 4, 450);
    s.cancel(back);
    s.refuse(16, Call::Cancel { order: back });
    s.file()
}

fn eight_accounts() -> Vec<u8> {
    let mut s = Scenario::open(plain(2_000_000_000), listing());
    for account in 1..=8 {
        s.write(account, C42, u32::from(account), 500);
        s.own(account, C44, 9 - u32::from(account), 200);
    }
    for account in 1..=8u8 {
        let lots = u32::from(account).min(9 - u32::from(account));
        let spread = Call::Combine {
            account,
            strategy: 2,
            first: C44,
            second: C42,
            lots,
        };
        s.take(spread);
        let more = Call::Combine {
            account,
            strategy: 2,
            first: C44,
            second: C42,
            lots: 1,
        };
        s.refuse(18, more);
    }
    s.file()
}

/// Forty combinations over four contracts, ended in a mixed order.
fn forty_combinations() -> Vec<u8> {
    let mut s = Scenario::open(plain(60_000_000_000), listing());
    for contract in [C42, C44, P42, P38] {
        s.write(1, contract, 200, 400);
    }
    let pairs = [(5, C42, P42), (6, C42, P38), (6, C44, P42), (6, C44, P38)];
    let standing: Vec<(u32, u32, u32, u32)> = (0..40)
        .map(|index| {
            let (strategy, first, second) = pairs[index % 4];
            let lots = 1 + index as u32 % 5;
            (
                s.combine(strategy, first, second, lots),
                first,
                second,
                lots,
            )
        })
        .collect();
    for turn in 0..40 {
        let (number, first, second, lots) = standing[turn * 17 % 40];
        match turn % 4 {
            0 => s.release(number, lots),
            1 => {
                let close = s.leg_close(number, first, lots, 700);
                s.fill(close, lots, 650);
            }
            2 => {
                let close = s.leg_close(number, second, 1, 3_000);
                if lots > 1 {
                    s.release(number, lots - 1);
                }
                s.fill(close, 1, 3_000);
            }
            _ => {
                let close = s.leg_close(number, first, lots, 450);
                s.refuse(
                    18,
                    Call::Release {
                        combination: number,
                        lots: 1,
                    },
                );
                s.cancel(close);
                s.release(number, lots);
            }
        }
    }
    s.file()
}

/// One leg closed in several fills while the rest is released.
fn leg_close_in_parts() -> Vec<u8> {
    let mut s = Scenario::open(plain(5_000_000_000), listing());
    s.write(1, C42, 20, 500);
    s.write(1, P38, 20, 300);
    let strangle = s.combine(6, C42, P38, 20);
    let close = s.leg_close(strangle, C42, 12, 900);
    s.fill(close, 3, 900);
    s.release(strangle, 5);
    s.refuse(
        18,
        Call::Release {
            combination: strangle,
            lots: 4,
        },
    );
    s.fill(close, 4, 850);
    s.release(strangle, 3);
    s.refuse(
        18,
        Call::Release {
            combination: strangle,
            lots: 1,
        },
    );
    s.fill(close, 2, 900);
    s.cancel(close);
    s.release(strangle, 1);
    let close = s.leg_close(strangle, P38, 2, 300);
    s.fill(close, 1, 300);
    s.refuse(
        18,
        Call::Fill {
            order: close,
            lots: 2,
            price: 300,
        },
    );
    s.fill(close, 1, 300);
    s.refuse(
        16,
        Call::Release {
            combination: strangle,
            lots: 1,
        },
    );
    s.file()
}

/// Leg closes of both legs of one straddle at once.
fn straddle_both_legs() -> Vec<u8> {
    let mut s = Scenario::open(plain(3_000_000_000), listing());
    s.write(1, C42, 10, 500);
    s.write(1, P42, 10, 2_600);
    let straddle = s.combine(5, C42, P42, 10);
    let call = s.leg_close(straddle, C42, 4, 1_000);
    let put = s.leg_close(straddle, P42, 5, 3_000);
    s.refuse(
        18,
        Call::LegClose {
            combination: straddle,
            leg: C42,
            lots: 2,
            limit: 1,
        },
    );
    let more = s.leg_close(straddle, C42, 1, 600);
    s.fill(call, 2, 1_000);
    s.fill(put, 1, 2_999);
    s.fill(more, 1, 600);
    s.fill(put, 4, 3_000);
    s.fill(call, 2, 999);
    s.refuse(
        16,
        Call::LegClose {
            combination: straddle,
            leg: C42,
            lots: 1,
            limit: 1,
        },
    );
    s.file()
}

/// Where the pair margin covers the rest, a leg close takes no reserve.
fn leg_close_reserve_nought() -> Vec<u8> {
    let mut s = Scenario::open(plain(1_000_000_000), listing());
    s.own(1, C44, 2, 200);
    s.write(1, C42, 2, 500);
    let spread = s.combine(2, C44, C42, 2);
    s.leave(0);
    // A pair margin of 20,000,000 covers a limit of 2,000 exactly.
    s.refuse(
        21,
        Call::LegClose {
            combination: spread,
            leg: C42,
            lots: 1,
            limit: 2_001,
        },
    );
    let close = s.leg_close(spread, C42, 1, 2_000);
    let other = s.leg_close(spread, C42, 1, 1_999);
    s.fill(close, 1, 2_000);
    s.fill(other, 1, 1);
    s.file()
}

fn cancel_after_part_fills() -> Vec<u8> {
    let mut s = Scenario::open(plain(3_000_000_000), listing());
    let sale = s.take(sell_open(1, C42, 10, 500));
    s.fill(sale, 7, 500);
    s.cancel(sale);
    let purchase = s.take(buy_open(1, C44, 10, 200));
    s.fill(purchase, 7, 150);
    s.cancel(purchase);
    let back = s.take(buy_close(1, C42, 3, 800));
    s.fill(back, 1, 800);
    s.cancel(back);
    let away = s.take(sell_close(1, C44, 3, 100));
    s.fill(away, 1, 100);
    s.cancel(away);
    let spread = s.combine(2, C44, C42, 6);
    let close = s.leg_close(spread, C42, 6, 2_500);
    s.fill(close, 2, 2_400);
    s.cancel(close);
    s.release(spread, 4);
    s.file()
}
