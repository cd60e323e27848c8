//! Near misses: calls that are wrong in one field.

use super::Desk;
use crate::need::{self, with_lots, with_price};
use reference::book::{MOST_AMOUNT, MOST_CASH};
use reference::format::{Call, Contract};
use reference::margin::Strategy;

impl Desk {
    /// The call with one field just out of what would be taken.
    pub(super) fn spoil(&mut self, call: Call) -> Call {
        let mut spoilt = call;
        match &mut spoilt {
            Call::Deposit { amount } => *amount = self.bad_amount(self.book_room()),
            Call::Withdraw { amount } => {
                let balance = self.book.balance() as u64;
                *amount = self.bad_amount(balance);
            }
            Call::Order {
                account, contract, ..
            } => match self.rng.below(6) {
                0 => *account = self.rng.pick(&[0, 9, 255]),
                1 => *contract = self.unlisted(),
                2 => return self.with_bad_lots(call),
                3 => return self.with_bad_price(call),
                _ => return self.with_last_lots(call),
            },
            Call::LegClose {
                combination, leg, ..
            } => match self.rng.below(8) {
                0 => *combination = self.no_such_combination(),
                1 => *leg = self.unlisted(),
                2 => *leg = self.any_code(),
                3 => *leg = self.first_leg(*combination),
                4 => return self.with_bad_lots(call),
                5 => return self.with_bad_price(call),
                _ => return self.with_last_lots(call),
            },
            Call::Fill { order, .. } => match self.rng.below(7) {
                0 => *order = self.no_such_order(),
                1 => return self.with_bad_lots(call),
                2 => return self.with_bad_price(call),
                3 | 4 => return self.past_limit(call),
                _ => return self.with_last_lots(call),
            },
            Call::Cancel { order } => *order = self.no_such_order(),
            Call::Combine {
                account,
                strategy,
                first,
                second,
                ..
            } => match self.rng.below(13) {
                0 => *account = self.rng.pick(&[0, 9, 255]),
                1 => *first = self.unlisted(),
                2 => *second = self.unlisted(),
                3 => *strategy = self.rng.pick(&[0, 7, 255]),
                4 => *strategy = self.rng.lots(6) as u8,
                5 => std::mem::swap(first, second),
                6 => {
                    let other = self.any_code();
                    *if self.rng.chance(50) { first } else { second } = other;
                }
                7 => *second = self.kin_of(*first),
                8 | 9 => *second = self.nearly_fitting(*strategy, *first),
                10 => return self.with_bad_lots(call),
                _ => return self.with_last_lots(call),
            },
            Call::Release { combination, .. } => match self.rng.below(4) {
                0 => *combination = self.no_such_combination(),
                1 => return self.with_bad_lots(call),
                _ => return self.with_last_lots(call),
            },
        }
        spoilt
    }

    fn book_room(&self) -> u64 {
        (MOST_CASH - self.book.cash()) as u64
    }

    fn bad_amount(&mut self, most: u64) -> u64 {
        self.rng
            .pick(&[0, MOST_AMOUNT, MOST_AMOUNT + 1, u64::MAX, most, most + 1])
    }

    fn with_bad_lots(&mut self, call: Call) -> Call {
        with_lots(call, self.rng.pick(&[0, 1_000, 1_001, u32::MAX]))
    }

    fn with_bad_price(&mut self, call: Call) -> Call {
        let wrapped = 4_294_967_296 + 100;
        with_price(
            call,
            self.rng
                .pick(&[0, 1, 10_000_000, 10_000_001, wrapped, u64::MAX]),
        )
    }

    /// Exactly the lots that are there, or one more.
    fn with_last_lots(&mut self, call: Call) -> Call {
        let room = need::lots_room(&self.book, &call).unwrap_or(0);
        with_lots(call, room + self.rng.below(2) as u32)
    }

    /// A fill at its limit, or one hao to either side.
    fn past_limit(&mut self, call: Call) -> Call {
        let Call::Fill { order, .. } = call else {
            return call;
        };
        let limit = need::order(&self.book, order).map_or(1, |order| order.limit as u64);
        with_price(call, self.rng.pick(&[limit, limit + 1, limit - 1]))
    }

    fn unlisted(&mut self) -> u32 {
        let near = self.any_code();
        let drawn = self.rng.pick(&[0, 9_999_999, near - 1, near + 1, u32::MAX]);
        if need::place_of(&self.book, drawn).is_some() {
            0
        } else {
            drawn
        }
    }

    fn any_code(&mut self) -> u32 {
        let place = self.rng.index(self.day.contracts.len());
        self.code(place)
    }

    /// A contract of the same underlying, whether it fits or not.
    fn kin_of(&mut self, code: u32) -> u32 {
        let contracts = &self.day.contracts;
        let underlying = contracts
            .iter()
            .find(|one| one.code == code)
            .map(|one| one.underlying);
        let kin: Vec<u32> = contracts
            .iter()
            .filter(|one| Some(one.underlying) == underlying)
            .map(|one| one.code)
            .collect();
        self.rng.try_pick(&kin).unwrap_or(code)
    }

    /// A second contract that is wrong by its underlying, expiry or unit alone.
    fn nearly_fitting(&mut self, strategy: u8, first: u32) -> u32 {
        let contracts = &self.day.contracts;
        let (Some(strategy), Some(one)) = (
            Strategy::numbered(strategy),
            contracts.iter().find(|one| one.code == first),
        ) else {
            return first;
        };
        let nearly: Vec<u32> = contracts
            .iter()
            .filter(|two| !strategy.fits(one, two))
            .filter(|two| {
                strategy.fits(
                    one,
                    &Contract {
                        underlying: one.underlying,
                        ..**two
                    },
                ) || strategy.fits(
                    one,
                    &Contract {
                        expiry: one.expiry,
                        ..**two
                    },
                ) || strategy.fits(
                    one,
                    &Contract {
                        unit: one.unit,
                        ..**two
                    },
                )
            })
            .map(|two| two.code)
            .collect();
        self.rng.try_pick(&nearly).unwrap_or(first)
    }

    fn first_leg(&mut self, combination: u32) -> u32 {
        need::combination(&self.book, combination).map_or(0, |standing| self.code(standing.first))
    }

    pub(super) fn no_such_order(&mut self) -> u32 {
        let next = self.book.orders().next().unwrap_or(u32::MAX);
        self.rng.pick(&[
            0,
            next,
            next.saturating_sub(1),
            self.day.settings.first_number,
            u32::MAX,
        ])
    }

    fn no_such_combination(&mut self) -> u32 {
        let next = self.book.combinations().next().unwrap_or(u32::MAX);
        self.rng.pick(&[
            0,
            next,
            next.saturating_sub(1),
            self.day.settings.first_number,
            u32::MAX,
        ])
    }
}
