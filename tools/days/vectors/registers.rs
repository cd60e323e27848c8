//! Days that fill the registers and give the last numbers.

use super::{listing, Vector, C42, C42_MARGIN, C44, P36, P38};
use crate::layout::{buy_close, buy_open, sell_close, sell_open};
use crate::scenario::{combine, plain, Scenario};
use reference::format::{Call, Settings};

pub fn all() -> Vec<Vector> {
    vec![
        ("combination-register-full", combination_register_full()),
        ("order-register-full", order_register_full()),
        ("last-number", last_number()),
        (
            "full-register-and-last-number",
            full_register_and_last_number(),
        ),
        ("one-number-alone", one_number_alone()),
    ]
}

fn combination_register_full() -> Vec<u8> {
    let mut s = Scenario::open(plain(10_000_000_000), listing());
    s.write(1, C42, 66, 500);
    s.write(1, P38, 66, 300);
    for _ in 0..64 {
        s.combine(6, C42, P38, 1);
    }
    s.refuse(22, combine(6, C42, P38, 1));
    s.release(31, 1);
    s.combine(6, C42, P38, 2);
    s.refuse(22, combine(6, C42, P38, 1));
    s.release(65, 1);
    s.refuse(22, combine(6, C42, P38, 1));
    s.release(65, 1);
    s.refuse(
        16,
        Call::Release {
            combination: 65,
            lots: 1,
        },
    );
    s.combine(6, C42, P38, 1);
    s.file()
}

/// Sixty-four orders of every kind, then one more of every kind.
fn order_register_full() -> Vec<u8> {
    let mut s = Scenario::open(plain(10_000_000_000), listing());
    s.write(1, C42, 60, 500);
    s.write(1, P38, 60, 300);
    s.own(1, P36, 60, 100);
    let strangle = s.combine(6, C42, P38, 30);
    let kinds = [
        sell_open(2, C44, 1, 200),
        buy_open(2, C44, 1, 100),
        buy_close(1, C42, 1, 400),
        sell_close(1, P36, 1, 100),
        Call::LegClose {
            combination: strangle,
            leg: P38,
            lots: 1,
            limit: 350,
        },
    ];
    for index in 0..64 {
        s.take(kinds[index % 5]);
    }
    for kind in kinds {
        s.refuse(22, kind);
    }
    s.cancel(20);
    s.take(kinds[4]);
    s.refuse(22, kinds[0]);
    s.fill(64, 1, 200);
    s.take(kinds[1]);
    s.refuse(22, kinds[3]);
    s.file()
}

/// The last number of both series is given, and none after it.
fn last_number() -> Vec<u8> {
    let settings = Settings {
        first_number: u32::MAX - 4,
        ..plain(10_000_000_000)
    };
    let mut s = Scenario::open(settings, listing());
    s.write(1, C42, 20, 500);
    s.write(1, P38, 20, 300);
    s.own(1, P36, 20, 100);
    for _ in 0..4 {
        let strangle = s.combine(6, C42, P38, 1);
        s.release(strangle, 1);
    }
    let strangle = s.combine(6, C42, P38, 5);
    let close = s.leg_close(strangle, C42, 2, 500);
    s.take(sell_close(1, P36, 1, 1));
    s.refuse(23, sell_open(1, C42, 1, 500));
    s.refuse(23, buy_open(1, C42, 1, 500));
    s.refuse(23, buy_close(1, C42, 1, 500));
    s.refuse(23, sell_close(1, P36, 1, 1));
    s.refuse(
        23,
        Call::LegClose {
            combination: strangle,
            leg: P38,
            lots: 1,
            limit: 300,
        },
    );
    s.refuse(23, combine(6, C42, P38, 1));
    s.fill(close, 2, 500);
    s.refuse(23, combine(6, C42, P38, 1));
    s.release(strangle, 3);
    s.refuse(
        16,
        Call::Release {
            combination: u32::MAX,
            lots: 1,
        },
    );
    s.cancel(u32::MAX);
    s.refuse(16, Call::Cancel { order: u32::MAX });
    s.refuse(23, sell_open(1, C42, 1, 500));
    s.file()
}

/// No row is free and no number is left: 22 is told, and 23 once a row is.
fn full_register_and_last_number() -> Vec<u8> {
    let settings = Settings {
        first_number: u32::MAX - 63,
        ..plain(10_000_000)
    };
    let mut s = Scenario::open(settings, listing());
    for _ in 0..64 {
        s.take(buy_open(1, C42, 1, 1));
    }
    s.refuse(22, buy_open(1, C42, 1, 1));
    s.cancel(u32::MAX - 30);
    s.refuse(23, buy_open(1, C42, 1, 1));
    s.refuse(21, sell_open(1, C42, 1, 1));
    s.file()
}

fn one_number_alone() -> Vec<u8> {
    let settings = Settings {
        first_number: u32::MAX,
        ..plain(C42_MARGIN)
    };
    let mut s = Scenario::open(settings, listing());
    s.take(sell_open(1, C42, 1, 500));
    s.refuse(21, sell_open(1, C42, 1, 500));
    s.fill(u32::MAX, 1, 10_000_000);
    s.refuse(23, sell_open(1, C42, 1, 500));
    s.file()
}
