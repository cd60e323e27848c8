//! Runs of calls that bring the book into a deep state.

use super::Desk;
use crate::layout::{buy_open, sell_open};
use crate::need::{self, with_lots, with_price};
use reference::book::{Order, Side, Task, MOST_CASH};
use reference::format::{Call, Trade};
use reference::margin::{Hao, Strategy};
use reference::register::ROWS;

impl Desk {
    /// A leg close filled in parts, with releases between the fills.
    pub fn leg_close_story(&mut self) {
        let Some((combination, standing)) = self.some_combination(4) else {
            return;
        };
        let straddle = standing.strategy.writes_first();
        let leg = if straddle && self.rng.chance(50) {
            standing.first
        } else {
            standing.second
        };
        let lots = self
            .rng
            .between(3, u64::from(standing.not_engaged().min(1_000))) as u32;
        let limit = self.limit_of(leg);
        let call = Call::LegClose {
            combination,
            leg: self.code(leg),
            lots,
            limit,
        };
        let Some(order) = self.put_funded(call) else {
            return;
        };

        let beside = if straddle && self.rng.chance(70) {
            let (other, _) = standing.other_leg(leg);
            let limit = self.limit_of(other);
            let lots = standing.not_engaged() - lots;
            let lots = if lots > 1 {
                self.rng.lots(lots - 1)
            } else {
                lots
            };
            let leg = self.code(other);
            self.put_funded(Call::LegClose {
                combination,
                leg,
                lots,
                limit,
            })
        } else {
            None
        };
        for _ in 0..self.rng.between(2, 4) {
            self.fill_part(order);
            if self.rng.chance(60) {
                self.put_funded(Call::Release {
                    combination,
                    lots: 1,
                });
            }
            if let (Some(beside), true) = (beside, self.rng.chance(50)) {
                self.fill_part(beside);
            }
        }
        for order in [Some(order), beside].into_iter().flatten() {
            if self.rng.chance(40) {
                self.put(Call::Cancel { order });
            } else if self.rng.chance(70) {
                let rest = need::order(&self.book, order).copied();
                if let Some(rest) = rest {
                    let price = self.price_within(&rest);
                    self.put(Call::Fill {
                        order,
                        lots: rest.lots,
                        price,
                    });
                }
            }
        }
    }

    fn fill_part(&mut self, number: u32) {
        if let Some(order) = need::order(&self.book, number).copied() {
            let lots = if order.lots > 1 {
                self.rng.lots((order.lots - 1).min(3))
            } else {
                1
            };
            let price = self.price_within(&order);
            self.put(Call::Fill {
                order: number,
                lots,
                price,
            });
        }
    }

    /// One order of each kind that is sound but for rows and numbers.
    pub fn try_each_entry(&mut self) {
        for wanted in 3..=7 {
            if let Some(call) = self.sketch(wanted) {
                let small = with_lots(call, 1);
                if self.habits.funded {
                    self.put_funded(small)
                } else {
                    self.put(small)
                };
            }
        }
    }

    /// Enters orders of one lot until no row is free.
    pub fn fill_order_rows(&mut self) {
        for _ in 0..400 {
            if self.full() || self.book.orders().len() == ROWS {
                return;
            }
            let wanted = self.rng.pick(&[3, 4, 4, 5, 6, 7]);
            if let Some(call) = self.sketch(wanted) {
                let low = if wanted == 4 {
                    with_price(call, 1)
                } else {
                    call
                };
                self.put_funded(with_lots(low, 1));
            }
        }
    }

    /// Makes combinations of one lot until no row is free.
    pub fn fill_combination_rows(&mut self) {
        let possible: Vec<usize> = (0..6).filter(|&at| !self.pairs[at].is_empty()).collect();
        let account = self.account();
        let Some(at) = self.rng.try_pick(&possible) else {
            return;
        };
        let strategy = Strategy::ALL[at];
        let (first, second) = self.rng.pick(&self.pairs[at]);
        if self
            .combine_pair(account, strategy, first, second, 80)
            .is_none()
        {
            return;
        }
        let last = self
            .book
            .combinations()
            .iter()
            .map(|(number, _)| number)
            .max();
        if let Some(combination) = last {
            self.put_funded(Call::Release {
                combination,
                lots: 79,
            });
        }
        for _ in 0..72 {
            self.combine_pair(account, strategy, first, second, 1);
            if self.book.combinations().len() == ROWS {
                self.combine_pair(account, strategy, first, second, 1);
                return;
            }
        }
    }

    /// Gives order numbers until no more than `left` are left.
    pub fn burn_order_numbers(&mut self, left: u32) {
        for _ in 0..400 {
            let Some(next) = self.book.orders().next() else {
                return;
            };
            if self.full() || u32::MAX - next < left {
                return;
            }
            let Some(call) = self.sketch(4) else { return };
            match self.put_funded(with_lots(with_price(call, 1), 1)) {
                Some(order) => self.put(Call::Cancel { order }),
                None => return,
            };
        }
    }

    /// Opens on one side of one contract up to the most lots, and past it.
    pub fn reach_lot_limit(&mut self, side: Side) {
        let account = self.account();
        let contract = self.contract();
        let code = self.code(contract);
        let place = usize::from(account) - 1;
        for _ in 0..30 {
            let there = self.book.lots(place, contract, side);
            let room = 10_000 - there.owned - there.opening;
            let lots = if room > 1_000 {
                self.rng.between(600, 1_000) as u32
            } else {
                room
            };
            let call = |lots| match side {
                Side::Written => sell_open(account, code, lots, 1),
                Side::Bought => buy_open(account, code, lots, 1),
            };
            if room < 1_000 {
                self.put_funded(call(room + 1));
            }
            if room == 0 {
                break;
            }
            let Some(order) = self.put_funded(call(lots)) else {
                return;
            };
            if self.rng.chance(60) {
                let part = if self.rng.chance(50) {
                    lots
                } else {
                    self.rng.lots(lots)
                };
                self.put(Call::Fill {
                    order,
                    lots: part,
                    price: 1,
                });
            }
        }
    }

    /// Fills a sale with the cash total just under and just past its end.
    pub fn reach_cash_limit(&mut self) {
        let selling: Vec<(u32, Order)> = self
            .book
            .orders()
            .iter()
            .filter(|(_, order)| order.sells())
            .map(|(number, order)| (number, *order))
            .collect();
        let closing: Vec<(u32, Order)> = selling
            .iter()
            .filter(|(_, order)| order.task == Task::Trade(Trade::SellClose))
            .copied()
            .collect();
        let from = if self.rng.chance(50) && !closing.is_empty() {
            &closing
        } else {
            &selling
        };
        let Some((number, order)) = self.rng.try_pick(from) else {
            return;
        };
        let unit = Hao::from(self.day.contracts[order.contract].unit);
        let premium = Hao::from(order.lots) * order.limit * unit;
        let fill = Call::Fill {
            order: number,
            lots: order.lots,
            price: order.limit as u64,
        };
        let past = Hao::from(self.rng.below(2) as u32);
        let wanted = MOST_CASH - premium + past;
        self.bring_balance_to(self.book.balance() + wanted - self.book.cash());
        self.put(fill);
        if past == 1 {
            self.put(Call::Withdraw { amount: 1 });
            self.put(fill);
        }
        self.put(Call::Deposit { amount: 1 });
    }
}
