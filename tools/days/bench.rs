//! The days that the bench measures. All have the same settings and listing.

use crate::desk::{Desk, Habits};
use crate::layout::{self, buy_open, pack, sell_open, Gaps};
use crate::listing::{listing, Prices};
use crate::rng::Rng;
use crate::scenario::plain;
use reference::book::Book;
use reference::format::{Call, Contract, Day, Settings};

const CONTRACTS: usize = 16;
const ROUNDS: usize = 600;

fn opening() -> (Settings, Vec<Contract>) {
    let contracts = listing(&mut Rng::new(2), 100, CONTRACTS, Prices::Ordinary);
    (plain(2_000_000_000_000), contracts)
}

/// The longest day that fits: all eleven calls, most of them taken.
pub fn largest() -> Vec<u8> {
    let (settings, contracts) = opening();
    let head = layout::HEAD + layout::SETTINGS + CONTRACTS * layout::CONTRACT;
    let calls = (layout::LARGEST - head) / layout::CALL;
    let habits = Habits {
        near_miss: 3,
        edge: 0,
        most_standing: 24,
        ..Habits::ordinary()
    };
    let mut desk = Desk::new(Rng::new(1), settings, contracts, calls, habits);
    desk.trade(calls);
    pack(&desk.day, &Gaps::default())
}

/// The same settings and contracts without a call.
pub fn empty() -> Vec<u8> {
    let (settings, contracts) = opening();
    pack(
        &Day {
            settings,
            contracts,
            calls: Vec::new(),
        },
        &Gaps::default(),
    )
}

/// A day that enters `orders` working orders, at most 63, and then works on
/// one more again and again: enters it, fills it twice, cancels it.
pub fn standing(orders: usize) -> Vec<u8> {
    let (settings, contracts) = opening();
    let mut book = Book::open(&settings, contracts.clone());
    let codes: Vec<u32> = contracts.iter().map(|contract| contract.code).collect();
    let mut day = Day {
        settings,
        contracts,
        calls: Vec::new(),
    };
    let mut put = |call: Call| {
        day.calls.push(call);
        book.take(&call).expect("each call of this day is taken")
    };
    for index in 0..orders {
        put(buy_open(
            1 + index as u8 % 8,
            codes[index % CONTRACTS],
            1,
            1,
        ));
    }
    for _ in 0..ROUNDS {
        let order = put(sell_open(1, codes[0], 3, 1));
        put(Call::Fill {
            order,
            lots: 1,
            price: 1,
        });
        put(Call::Fill {
            order,
            lots: 1,
            price: 1,
        });
        put(Call::Cancel { order });
    }
    pack(&day, &Gaps::default())
}
