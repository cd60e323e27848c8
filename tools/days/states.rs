//! The deep states of a day, by name, and the watch that counts them.

mod calls;
mod day;
mod names;

pub use day::watch_day;
pub use names::STATES;

use crate::need;
use calls::{watch_deposit, watch_leg_close, watch_order, watch_pair, watch_unfit};
use reference::book::{Book, Combination, Order, Refusal, Side, Task, MOST_CASH};
use reference::format::{Call, Trade};
use reference::margin::Hao;
use reference::register::ROWS;
use std::collections::{BTreeMap, BTreeSet};

/// What is known of an order or a combination beside the book.
#[derive(Default)]
struct Story {
    fills: u32,
    /// The combination of a leg close.
    combination: Option<u32>,
    released_since_fill: bool,
    cancelled: bool,
}

/// Counts the states of one day as its calls go by.
#[derive(Default)]
pub struct Watch {
    orders: BTreeMap<u32, Story>,
    combinations_given: BTreeSet<u32>,
    /// Legs closed of a combination.
    legs_filled: BTreeMap<u32, BTreeSet<usize>>,
    leg_close_cancelled: BTreeSet<u32>,
}

/// What stood before a call.
pub struct Before {
    pub balance: Hao,
    pub cash: Hao,
    pub deduction: Option<Hao>,
    pub room: Option<u32>,
    pub order: Option<Order>,
    pub combination: Option<Combination>,
}

impl Before {
    pub fn look(book: &Book, call: &Call) -> Before {
        let order = match *call {
            Call::Fill { order, .. } | Call::Cancel { order } => need::order(book, order).copied(),
            _ => None,
        };
        let named = match (call, order.map(|order| order.task)) {
            (Call::LegClose { combination, .. } | Call::Release { combination, .. }, _) => {
                Some(*combination)
            }
            (_, Some(Task::LegClose { combination })) => Some(combination),
            _ => None,
        };
        Before {
            balance: book.balance(),
            cash: book.cash(),
            deduction: need::deduction(book, call),
            room: need::lots_room(book, call),
            order,
            combination: named.and_then(|number| need::combination(book, number).copied()),
        }
    }
}

pub type Count<'a> = &'a mut dyn FnMut(&'static str);

fn count_if(count: Count, holds: bool, name: &'static str) {
    if holds {
        count(name);
    }
}

impl Watch {
    /// Looks at a call that was just answered.
    pub fn call(
        &mut self,
        book: &Book,
        call: &Call,
        answer: Result<u32, Refusal>,
        before: &Before,
        count: Count,
    ) {
        let spent = book.balance() == 0 && before.balance > 0;
        count_if(count, spent, "balance: brought to 0");
        match *call {
            Call::Deposit { amount } => watch_deposit(amount, answer, before, count),
            Call::Withdraw { .. } => {}
            Call::Order {
                trade,
                account,
                contract,
                lots,
                ..
            } => {
                self.entered(book, None, answer, count);
                watch_order(
                    book,
                    trade,
                    (account, contract, lots),
                    answer,
                    before,
                    count,
                );
            }
            Call::LegClose {
                combination, leg, ..
            } => {
                self.entered(book, Some(combination), answer, count);
                watch_leg_close(book, (combination, leg), answer, before, count);
            }
            Call::Fill { order, lots, price } => {
                self.filled(book, (order, lots, price), answer, before, count);
            }
            Call::Cancel { order } => self.cancelled(order, answer, before, count),
            Call::Combine { .. } => self.combined(book, call, answer, before, count),
            Call::Release { combination, lots } => {
                self.released((combination, lots), answer, before, count);
            }
        }
        if answer == Err(Refusal::Number) {
            self.not_standing(book, call, count);
        }
    }

    fn entered(
        &mut self,
        book: &Book,
        combination: Option<u32>,
        answer: Result<u32, Refusal>,
        count: Count,
    ) {
        match answer {
            Ok(number) => {
                self.orders.insert(
                    number,
                    Story {
                        combination,
                        ..Story::default()
                    },
                );
                let full = book.orders().len() == ROWS;
                count_if(count, full, "orders: 64th row taken");
                let skipped = number - book.orders().iter().map(|(n, _)| n).min().unwrap_or(0);
                let again = full && skipped as usize >= ROWS;
                count_if(
                    count,
                    again,
                    "orders: a freed row taken again when full before",
                );
                count_if(count, number == u32::MAX, "orders: last number given");
            }
            Err(Refusal::NoRow) => {
                let last = book.orders().next().is_none();
                count_if(count, last, "orders: 22 where the last number is given too");
            }
            Err(_) => {}
        }
    }

    fn filled(
        &mut self,
        book: &Book,
        (number, lots, price): (u32, u32, u64),
        answer: Result<u32, Refusal>,
        before: &Before,
        count: Count,
    ) {
        let Some(order) = before.order else {
            let cancelled = self
                .orders
                .get(&number)
                .is_some_and(|story| story.cancelled);
            let missed = cancelled && answer == Err(Refusal::Number);
            return count_if(count, missed, "fill: order cancelled before");
        };
        let price = Hao::from(price);
        let unit = Hao::from(book.listing()[order.contract].unit);
        let premium = Hao::from(lots) * price * unit;
        match answer {
            Ok(_) => {
                count(match order.task {
                    Task::Trade(Trade::SellOpen) => "fill: sell-open",
                    Task::Trade(Trade::BuyOpen) => "fill: buy-open",
                    Task::Trade(Trade::BuyClose) => "fill: buy-close",
                    Task::Trade(Trade::SellClose) => "fill: sell-close",
                    Task::LegClose { .. } => "fill: leg-close",
                });
                count_if(count, lots < order.lots, "fill: part of an order");
                match (order.sells(), price == order.limit) {
                    (true, true) => count("fill: sale at its limit"),
                    (true, false) => count("fill: sale over its limit"),
                    (false, true) => count("fill: purchase at its limit"),
                    (false, false) => count("fill: purchase under its limit"),
                }
                let at_limit = book.cash() == MOST_CASH;
                count_if(count, at_limit, "cash: exactly 10^17 by a fill");
                let bought = before.cash == MOST_CASH && !order.sells();
                count_if(count, bought, "cash: purchase filled at 10^17");
                self.filled_part(book, number, &order, before, count);
            }
            Err(Refusal::PriceLimit) => {
                let one = (price - order.limit).abs() == 1;
                let leg = matches!(order.task, Task::LegClose { .. });
                count_if(
                    count,
                    one && order.sells(),
                    "20: a sale one under its limit",
                );
                count_if(
                    count,
                    one && !order.sells(),
                    "20: a purchase one over its limit",
                );
                count_if(count, one && leg, "20: a leg close one over its limit");
            }
            Err(Refusal::CashLimit) => {
                let opens = order.task == Task::Trade(Trade::SellOpen);
                let one = before.cash + premium == MOST_CASH + 1;
                count(if opens {
                    "24: fill of a sell-open"
                } else {
                    "24: fill of a sell-close"
                });
                count_if(
                    count,
                    one && opens,
                    "24: fill of a sell-open, one hao too many",
                );
                count_if(
                    count,
                    one && !opens,
                    "24: fill of a sell-close, one hao too many",
                );
            }
            Err(_) => {}
        }
    }

    fn filled_part(
        &mut self,
        book: &Book,
        number: u32,
        order: &Order,
        before: &Before,
        count: Count,
    ) {
        let story = self.orders.entry(number).or_default();
        story.fills += 1;
        let released = std::mem::take(&mut story.released_since_fill);
        let fills = story.fills;
        let (Task::LegClose { combination }, Some(standing)) = (order.task, before.combination)
        else {
            return;
        };
        count_if(count, fills == 3, "leg-close: filled in 3 or more parts");
        count_if(
            count,
            fills > 1 && released,
            "leg-close: release between two fills",
        );
        let legs = self.legs_filled.entry(combination).or_default();
        let both = legs.insert(order.contract) && legs.len() == 2;
        count_if(count, both, "leg-close: both legs of one straddle filled");
        let ended = need::combination(book, combination).is_none();
        count_if(
            count,
            ended && standing.lots > 0,
            "leg-close: fill ends its combination",
        );
    }

    fn cancelled(
        &mut self,
        number: u32,
        answer: Result<u32, Refusal>,
        before: &Before,
        count: Count,
    ) {
        let (Ok(_), Some(order)) = (answer, before.order) else {
            return;
        };
        let story = self.orders.entry(number).or_default();
        story.cancelled = true;
        if let Task::LegClose { combination } = order.task {
            self.leg_close_cancelled.insert(combination);
        }
        count(match (story.fills, order.task) {
            (0, _) => "cancel: untouched order",
            (_, Task::Trade(Trade::SellOpen)) => "cancel: partly filled sell-open",
            (_, Task::Trade(Trade::BuyOpen)) => "cancel: partly filled buy-open",
            (_, Task::Trade(Trade::BuyClose)) => "cancel: partly filled buy-close",
            (_, Task::Trade(Trade::SellClose)) => "cancel: partly filled sell-close",
            (_, Task::LegClose { .. }) => "cancel: partly filled leg-close",
        });
    }

    fn combined(
        &mut self,
        book: &Book,
        call: &Call,
        answer: Result<u32, Refusal>,
        before: &Before,
        count: Count,
    ) {
        match answer {
            Ok(number) => {
                self.combinations_given.insert(number);
                let full = book.combinations().len() == ROWS;
                count_if(count, full, "combinations: 64th row taken");
                count_if(count, number == u32::MAX, "combinations: last number given");
                if let Some(made) = need::combination(book, number) {
                    watch_pair(book, made, count);
                }
            }
            Err(Refusal::NoRow) => {
                let last = book.combinations().next().is_none();
                count_if(
                    count,
                    last,
                    "combinations: 22 where the last number is given too",
                );
            }
            Err(Refusal::Strategy) => watch_unfit(book, call, count),
            Err(Refusal::FreeLots) => {
                let (Some(new), Some(_)) = (need::combined(book, call), before.room) else {
                    return;
                };
                let first = book.lots(new.account, new.first, new.first_side()).free() < new.lots;
                let second = book.lots(new.account, new.second, Side::Written).free() < new.lots;
                count_if(count, first && !second, "18: combine, first leg alone");
                count_if(count, second && !first, "18: combine, second leg alone");
            }
            Err(_) => {}
        }
    }

    fn released(
        &mut self,
        (number, lots): (u32, u32),
        answer: Result<u32, Refusal>,
        before: &Before,
        count: Count,
    ) {
        let Some(standing) = before.combination else {
            return;
        };
        match answer {
            Ok(_) => {
                let ends = standing.lots == lots;
                count_if(count, ends, "release: ends its combination");
                count_if(count, !ends, "release: part of a combination");
                let after_cancel = self.leg_close_cancelled.contains(&number);
                count_if(count, after_cancel, "leg-close: cancelled, then released");
                let beside = |story: &&mut Story| story.combination == Some(number);
                for story in self.orders.values_mut().filter(beside) {
                    story.released_since_fill = true;
                }
            }
            Err(Refusal::FreeLots) => {
                count_if(count, lots <= standing.lots, "18: release, lots engaged");
            }
            Err(_) => {}
        }
    }

    fn not_standing(&self, book: &Book, call: &Call, count: Count) {
        let (number, next, stood) = match *call {
            Call::Fill { order, .. } | Call::Cancel { order } => (
                order,
                book.orders().next(),
                self.orders.contains_key(&order),
            ),
            Call::LegClose { combination, .. } | Call::Release { combination, .. } => {
                let stood = self.combinations_given.contains(&combination);
                (combination, book.combinations().next(), stood)
            }
            _ => return,
        };
        count_if(count, number == 0, "16: number 0");
        count_if(count, Some(number) == next, "16: number not yet given");
        count_if(count, stood, "16: number that stood before");
    }
}
