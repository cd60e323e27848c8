//! The eleven calls.

use super::{
    Book, Combination, Order, Refusal, Side, Task, ACCOUNTS, MOST_AMOUNT, MOST_CASH,
    MOST_LOTS_OF_A_CALL, MOST_LOTS_OF_A_SIDE, MOST_PRICE,
};
use crate::format::{Call, Trade};
use crate::margin::{Hao, Strategy};

type Answer = Result<u32, Refusal>;

impl Book {
    /// Takes a call and answers the number given, 0 where none is.
    pub fn take(&mut self, call: &Call) -> Answer {
        match *call {
            Call::Deposit { amount } => self.deposit(amount),
            Call::Withdraw { amount } => self.withdraw(amount),
            Call::Order {
                trade,
                account,
                contract,
                lots,
                limit,
            } => self.order_on_contract(trade, account, contract, lots, limit),
            Call::LegClose {
                combination,
                leg,
                lots,
                limit,
            } => self.leg_close(combination, leg, lots, limit),
            Call::Fill { order, lots, price } => self.fill(order, lots, price),
            Call::Cancel { order } => self.cancel(order),
            Call::Combine {
                account,
                strategy,
                first,
                second,
                lots,
            } => self.combine(account, strategy, first, second, lots),
            Call::Release { combination, lots } => self.release(combination, lots),
        }
    }

    fn deposit(&mut self, amount: u64) -> Answer {
        let amount = checked_amount(amount)?;
        ensure(self.cash + amount <= MOST_CASH, Refusal::CashLimit)?;
        self.balance += amount;
        self.cash += amount;
        Ok(0)
    }

    fn withdraw(&mut self, amount: u64) -> Answer {
        let amount = checked_amount(amount)?;
        ensure(self.balance >= amount, Refusal::Balance)?;
        self.balance -= amount;
        self.cash -= amount;
        Ok(0)
    }

    fn order_on_contract(
        &mut self,
        trade: Trade,
        account: u8,
        contract: u32,
        lots: u32,
        limit: u64,
    ) -> Answer {
        let account = checked_account(account)?;
        let contract = self.place_of(contract)?;
        checked_lots(lots)?;
        let limit = checked_price(limit)?;

        let (side, opens) = match trade {
            Trade::SellOpen => (Side::Written, true),
            Trade::BuyOpen => (Side::Bought, true),
            Trade::BuyClose => (Side::Written, false),
            Trade::SellClose => (Side::Bought, false),
        };
        let there = self.lots(account, contract, side);
        if opens {
            let after = there.owned + there.opening + lots;
            ensure(after <= MOST_LOTS_OF_A_SIDE, Refusal::LotLimit)?;
        } else {
            ensure(lots <= there.free(), Refusal::FreeLots)?;
        }
        let reserve = match trade {
            Trade::SellOpen => self.leg_margins[contract],
            Trade::BuyOpen | Trade::BuyClose => limit * self.unit(contract),
            Trade::SellClose => 0,
        };
        let task = Task::Trade(trade);
        let given = self.enter(Order {
            account,
            task,
            contract,
            lots,
            limit,
            reserve,
        })?;

        let there = self.lots_mut(account, contract, side);
        if opens {
            there.opening += lots;
        } else {
            there.locked += lots;
        }
        Ok(given)
    }

    fn leg_close(&mut self, combination: u32, leg: u32, lots: u32, limit: u64) -> Answer {
        let leg = self.place_of(leg)?;
        checked_lots(lots)?;
        let limit = checked_price(limit)?;
        let at = self.combinations.find(combination)?;
        let standing = *self.combinations.at(at);
        let permitted = standing.strategy.permitted_by(self.permitted);
        ensure(permitted && standing.writes(leg), Refusal::Leg)?;
        ensure(lots <= standing.not_engaged(), Refusal::FreeLots)?;

        let other_margin = match standing.other_leg(leg) {
            (other, Side::Written) => self.leg_margins[other],
            (_, Side::Bought) => 0,
        };
        let reserve = (other_margin + limit * self.unit(leg) - standing.pair_margin).max(0);
        let task = Task::LegClose { combination };
        let account = standing.account;
        let given = self.enter(Order {
            account,
            task,
            contract: leg,
            lots,
            limit,
            reserve,
        })?;
        self.combinations.at_mut(at).engaged += lots;
        Ok(given)
    }

    /// Takes an order's reserve and gives the order a row and a number.
    fn enter(&mut self, order: Order) -> Answer {
        let reserve = Hao::from(order.lots) * order.reserve;
        ensure(self.balance >= reserve, Refusal::Balance)?;
        let given = self.orders.add(order)?;
        self.balance -= reserve;
        Ok(given)
    }

    fn fill(&mut self, number: u32, lots: u32, price: u64) -> Answer {
        checked_lots(lots)?;
        let price = checked_price(price)?;
        let at = self.orders.find(number)?;
        let order = *self.orders.at(at);
        ensure(lots <= order.lots, Refusal::FreeLots)?;
        let within = if order.sells() {
            price >= order.limit
        } else {
            price <= order.limit
        };
        ensure(within, Refusal::PriceLimit)?;
        let filled = Hao::from(lots);
        let premium = filled * price * self.unit(order.contract);
        if order.sells() {
            ensure(self.cash + premium <= MOST_CASH, Refusal::CashLimit)?;
        }

        self.balance += filled * order.reserve;
        let received = if order.sells() { premium } else { -premium };
        self.balance += received;
        self.cash += received;
        match order.task {
            Task::Trade(trade) => self.fill_trade(trade, &order, lots),
            Task::LegClose { combination } => self.fill_leg_close(combination, &order, lots)?,
        }
        if order.lots == lots {
            self.orders.remove(at);
        } else {
            self.orders.at_mut(at).lots -= lots;
        }
        Ok(0)
    }

    fn fill_trade(&mut self, trade: Trade, order: &Order, lots: u32) {
        let margin = Hao::from(lots) * self.leg_margins[order.contract];
        match trade {
            Trade::SellOpen => self.balance -= margin,
            Trade::BuyClose => self.balance += margin,
            Trade::BuyOpen | Trade::SellClose => {}
        }
        let side = match trade {
            Trade::SellOpen | Trade::BuyClose => Side::Written,
            Trade::BuyOpen | Trade::SellClose => Side::Bought,
        };
        let there = self.lots_mut(order.account, order.contract, side);
        match trade {
            Trade::SellOpen | Trade::BuyOpen => {
                there.opening -= lots;
                there.owned += lots;
            }
            Trade::BuyClose | Trade::SellClose => {
                there.locked -= lots;
                there.owned -= lots;
            }
        }
    }

    fn fill_leg_close(&mut self, number: u32, order: &Order, lots: u32) -> Result<(), Refusal> {
        let at = self.combinations.find(number)?;
        let standing = *self.combinations.at(at);
        let (other, side) = standing.other_leg(order.contract);

        let closed = self.lots_mut(order.account, order.contract, Side::Written);
        closed.locked -= lots;
        closed.owned -= lots;
        self.lots_mut(order.account, other, side).locked -= lots;

        self.balance += Hao::from(lots) * standing.pair_margin;
        if side == Side::Written {
            self.balance -= Hao::from(lots) * self.leg_margins[other];
        }
        self.combinations.at_mut(at).engaged -= lots;
        self.shrink(at, lots);
        Ok(())
    }

    fn cancel(&mut self, number: u32) -> Answer {
        let at = self.orders.find(number)?;
        let order = *self.orders.at(at);
        self.orders.remove(at);
        self.balance += Hao::from(order.lots) * order.reserve;
        let Order {
            account,
            contract,
            lots,
            ..
        } = order;
        match order.task {
            Task::Trade(Trade::SellOpen) => {
                self.lots_mut(account, contract, Side::Written).opening -= lots;
            }
            Task::Trade(Trade::BuyOpen) => {
                self.lots_mut(account, contract, Side::Bought).opening -= lots;
            }
            Task::Trade(Trade::BuyClose) => {
                self.lots_mut(account, contract, Side::Written).locked -= lots;
            }
            Task::Trade(Trade::SellClose) => {
                self.lots_mut(account, contract, Side::Bought).locked -= lots;
            }
            Task::LegClose { combination } => {
                let at = self.combinations.find(combination)?;
                self.combinations.at_mut(at).engaged -= lots;
            }
        }
        Ok(0)
    }

    fn combine(&mut self, account: u8, strategy: u8, first: u32, second: u32, lots: u32) -> Answer {
        let account = checked_account(account)?;
        let first = self.place_of(first)?;
        let second = self.place_of(second)?;
        checked_lots(lots)?;
        let legs = (&self.listing[first], &self.listing[second]);
        let strategy = Strategy::numbered(strategy)
            .filter(|strategy| strategy.fits(legs.0, legs.1))
            .ok_or(Refusal::Strategy)?;
        let pair_margin = self.scale.pair(strategy, legs.0, legs.1);
        let new = Combination {
            account,
            strategy,
            first,
            second,
            lots,
            engaged: 0,
            pair_margin,
        };
        let free_first = self.lots(account, first, new.first_side()).free();
        let free_second = self.lots(account, second, Side::Written).free();
        ensure(lots <= free_first && lots <= free_second, Refusal::FreeLots)?;

        let gain = Hao::from(lots) * self.relief(&new);
        ensure(self.balance + gain.min(0) >= 0, Refusal::Balance)?;
        let given = self.combinations.add(new)?;
        self.balance += gain;
        self.lots_mut(account, first, new.first_side()).locked += lots;
        self.lots_mut(account, second, Side::Written).locked += lots;
        Ok(given)
    }

    fn release(&mut self, number: u32, lots: u32) -> Answer {
        checked_lots(lots)?;
        let at = self.combinations.find(number)?;
        let standing = *self.combinations.at(at);
        ensure(lots <= standing.not_engaged(), Refusal::FreeLots)?;
        let gain = -Hao::from(lots) * self.relief(&standing);
        ensure(self.balance + gain.min(0) >= 0, Refusal::Balance)?;

        self.balance += gain;
        let Combination {
            account,
            first,
            second,
            ..
        } = standing;
        self.lots_mut(account, first, standing.first_side()).locked -= lots;
        self.lots_mut(account, second, Side::Written).locked -= lots;
        self.shrink(at, lots);
        Ok(0)
    }

    /// Takes lots off a combination and removes it where none are left.
    fn shrink(&mut self, at: usize, lots: u32) {
        let standing = self.combinations.at_mut(at);
        standing.lots -= lots;
        if standing.lots == 0 {
            self.combinations.remove(at);
        }
    }
}

fn ensure(holds: bool, refusal: Refusal) -> Result<(), Refusal> {
    if holds {
        Ok(())
    } else {
        Err(refusal)
    }
}

fn checked_amount(amount: u64) -> Result<Hao, Refusal> {
    ensure((1..=MOST_AMOUNT).contains(&amount), Refusal::Amount)?;
    Ok(Hao::from(amount))
}

fn checked_account(account: u8) -> Result<usize, Refusal> {
    let account = usize::from(account);
    ensure((1..=ACCOUNTS).contains(&account), Refusal::Account)?;
    Ok(account - 1)
}

fn checked_lots(lots: u32) -> Result<(), Refusal> {
    ensure((1..=MOST_LOTS_OF_A_CALL).contains(&lots), Refusal::Lots)
}

fn checked_price(price: u64) -> Result<Hao, Refusal> {
    ensure((1..=MOST_PRICE).contains(&price), Refusal::Price)?;
    Ok(Hao::from(price))
}
