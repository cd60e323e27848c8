//! Calls that should be taken as the book stands.

use super::{Desk, TRADES};
use crate::need::{self, opens, side_of, with_lots};
use reference::book::{Combination, Order, Side, ACCOUNTS};
use reference::format::{Call, Trade};
use reference::margin::Strategy;

impl Desk {
    pub(super) fn account(&mut self) -> u8 {
        self.rng.between(1, self.habits.accounts.into()) as u8
    }

    pub(super) fn contract(&mut self) -> usize {
        if self.rng.chance(75) {
            self.rng.pick(&self.hot)
        } else {
            self.rng.index(self.day.contracts.len())
        }
    }

    pub fn code(&self, contract: usize) -> u32 {
        self.day.contracts[contract].code
    }

    pub(super) fn limit_of(&mut self, contract: usize) -> u64 {
        let settlement = u64::from(self.day.contracts[contract].settlement);
        if self.rng.chance(self.habits.wild_limits) {
            let any = self.rng.between(1, 10_000_000);
            return self.rng.pick(&[1, 10_000_000, any]);
        }
        match self.rng.below(4) {
            0 => settlement,
            1 => (settlement / 2).max(1),
            _ => (settlement * self.rng.between(50, 150) / 100).clamp(1, 10_000_000),
        }
    }

    /// Lots up to `most` and to the desk's usual size.
    fn some_lots(&mut self, most: u32) -> u32 {
        let usual = most.min(self.habits.most_lots);
        if self.rng.chance(25) {
            most.min(1_000)
        } else {
            self.rng.lots(usual)
        }
    }

    /// A call of the wanted kind that should be taken, balance aside.
    pub fn sketch(&mut self, wanted: u8) -> Option<Call> {
        match wanted {
            1 => Some(Call::Deposit {
                amount: self.rng.between(1, self.purse),
            }),
            2 => {
                let most = self.book.balance().min(self.purse.into()) as u64;
                (most > 0).then(|| Call::Withdraw {
                    amount: self.rng.between(1, most),
                })
            }
            3..=6 => self.sketch_order(TRADES[wanted as usize - 3]),
            7 => self.sketch_leg_close(),
            8 => self.sketch_fill(),
            9 => self.some_order().map(|(order, _)| Call::Cancel { order }),
            10 => self.sketch_combine(),
            _ => self.sketch_release(),
        }
    }

    fn sketch_order(&mut self, trade: Trade) -> Option<Call> {
        let (account, contract) = if opens(trade) {
            (self.account(), self.contract())
        } else {
            let held = self.free_positions(side_of(trade));
            self.rng.try_pick(&held)?
        };
        let call = Call::Order {
            trade,
            account,
            contract: self.code(contract),
            lots: 0,
            limit: self.limit_of(contract),
        };
        let room = need::lots_room(&self.book, &call)?;
        Some(with_lots(call, self.some_lots(room).max(1)))
    }

    fn sketch_leg_close(&mut self) -> Option<Call> {
        let (combination, standing) = self.some_combination(1)?;
        let both = standing.strategy.writes_first() && self.rng.chance(50);
        let leg = if both {
            standing.first
        } else {
            standing.second
        };
        Some(Call::LegClose {
            combination,
            leg: self.code(leg),
            lots: self.some_lots(standing.not_engaged()),
            limit: self.limit_of(leg),
        })
    }

    fn sketch_fill(&mut self) -> Option<Call> {
        let (number, order) = self.some_order()?;
        let lots = if self.rng.chance(50) {
            order.lots
        } else {
            self.rng.lots(order.lots)
        };
        Some(Call::Fill {
            order: number,
            lots,
            price: self.price_within(&order),
        })
    }

    /// A price at which the order may be filled.
    pub fn price_within(&mut self, order: &Order) -> u64 {
        let limit = order.limit as u64;
        match (self.rng.chance(50), order.sells()) {
            (true, _) => limit,
            (false, true) => (limit + self.rng.below(limit / 5 + 2)).min(10_000_000),
            (false, false) => self.rng.between(limit - limit / 5, limit).max(1),
        }
    }

    fn sketch_combine(&mut self) -> Option<Call> {
        let account = self.account();
        let place = usize::from(account) - 1;
        let mut candidates = Vec::new();
        for strategy in Strategy::ALL {
            let first_side = if strategy.writes_first() {
                Side::Written
            } else {
                Side::Bought
            };
            for &(first, second) in &self.pairs[strategy as usize] {
                let room = self.book.lots(place, first, first_side).free();
                let room = room.min(self.book.lots(place, second, Side::Written).free());
                if room > 0 {
                    candidates.push((strategy, first, second, room));
                }
            }
        }
        let (strategy, first, second, room) = self.rng.try_pick(&candidates)?;
        Some(Call::Combine {
            account,
            strategy: strategy.number(),
            first: self.code(first),
            second: self.code(second),
            lots: self.some_lots(room),
        })
    }

    fn sketch_release(&mut self) -> Option<Call> {
        let (combination, standing) = self.some_combination(1)?;
        Some(Call::Release {
            combination,
            lots: self.some_lots(standing.not_engaged()),
        })
    }

    fn some_order(&mut self) -> Option<(u32, Order)> {
        let standing: Vec<_> = self
            .book
            .orders()
            .iter()
            .map(|(n, order)| (n, *order))
            .collect();
        self.rng.try_pick(&standing)
    }

    /// A standing combination with that many lots not engaged.
    pub(super) fn some_combination(&mut self, lots: u32) -> Option<(u32, Combination)> {
        let standing: Vec<_> = self
            .book
            .combinations()
            .iter()
            .filter(|(_, standing)| standing.not_engaged() >= lots)
            .map(|(number, standing)| (number, *standing))
            .collect();
        self.rng.try_pick(&standing)
    }

    /// Accounts and contracts with free lots on a side.
    fn free_positions(&self, side: Side) -> Vec<(u8, usize)> {
        (0..ACCOUNTS)
            .flat_map(|account| (0..self.day.contracts.len()).map(move |c| (account, c)))
            .filter(|&(account, contract)| self.book.lots(account, contract, side).free() > 0)
            .map(|(account, contract)| (account as u8 + 1, contract))
            .collect()
    }
}
