//! A small builder for days written by hand. Each call says beforehand
//! whether it is taken, so that a scenario checks itself.

use crate::layout::{buy_open, pack, sell_open, Gaps};
use reference::book::Book;
use reference::format::{Base, Call, Contract, Day, Kind, Right, Settings};

pub struct Scenario {
    pub book: Book,
    day: Day,
}

/// Day 100, the standard scale without raises, every leg close permitted.
pub fn plain(opening_balance: u64) -> Settings {
    Settings {
        scale: Base::Standard,
        first_raise: 0,
        second_raise: 0,
        permitted: 63,
        first_number: 1,
        opening_balance,
        day: 100,
    }
}

/// A fund call of 10,000 pieces on underlying 900001, which closed at 40,000.
pub fn fund_call(code: u32, strike: u32, settlement: u32) -> Contract {
    Contract {
        code,
        underlying: 900_001,
        expiry: 140,
        right: Right::Call,
        kind: Kind::Fund,
        unit: 10_000,
        strike,
        settlement,
        close: 40_000,
        listed_margin: 0,
    }
}

/// The put beside it.
pub fn fund_put(code: u32, strike: u32, settlement: u32) -> Contract {
    Contract {
        right: Right::Put,
        ..fund_call(code, strike, settlement)
    }
}

impl Scenario {
    pub fn open(settings: Settings, contracts: Vec<Contract>) -> Scenario {
        let book = Book::open(&settings, contracts.clone());
        Scenario {
            book,
            day: Day {
                settings,
                contracts,
                calls: Vec::new(),
            },
        }
    }

    /// Makes a call that is taken, and answers the number given.
    pub fn take(&mut self, call: Call) -> u32 {
        self.day.calls.push(call);
        match self.book.take(&call) {
            Ok(number) => number,
            Err(refusal) => panic!("call {} {call:?}: {refusal:?}", self.day.calls.len()),
        }
    }

    /// Makes a call that is refused with a number.
    pub fn refuse(&mut self, number: u8, call: Call) {
        self.day.calls.push(call);
        let answer = self.book.take(&call).map_err(|refusal| refusal as u8);
        assert_eq!(
            answer,
            Err(number),
            "call {} {call:?}",
            self.day.calls.len()
        );
    }

    /// Opens written lots and has them filled at the limit.
    pub fn write(&mut self, account: u8, contract: u32, lots: u32, price: u64) {
        let order = self.take(sell_open(account, contract, lots, price));
        self.fill(order, lots, price);
    }

    /// Opens bought lots and has them filled at the limit.
    pub fn own(&mut self, account: u8, contract: u32, lots: u32, price: u64) {
        let order = self.take(buy_open(account, contract, lots, price));
        self.fill(order, lots, price);
    }

    pub fn fill(&mut self, order: u32, lots: u32, price: u64) {
        self.take(Call::Fill { order, lots, price });
    }

    pub fn cancel(&mut self, order: u32) {
        self.take(Call::Cancel { order });
    }

    pub fn deposit(&mut self, amount: u64) {
        self.take(Call::Deposit { amount });
    }

    pub fn withdraw(&mut self, amount: u64) {
        self.take(Call::Withdraw { amount });
    }

    /// Withdraws until the balance is `left`.
    pub fn leave(&mut self, left: u64) {
        let over = self.book.balance() as u64 - left;
        if over > 0 {
            self.withdraw(over);
        }
    }

    pub fn combine(&mut self, strategy: u8, first: u32, second: u32, lots: u32) -> u32 {
        self.take(combine(strategy, first, second, lots))
    }

    pub fn leg_close(&mut self, combination: u32, leg: u32, lots: u32, limit: u64) -> u32 {
        self.take(Call::LegClose {
            combination,
            leg,
            lots,
            limit,
        })
    }

    pub fn release(&mut self, combination: u32, lots: u32) {
        self.take(Call::Release { combination, lots });
    }

    /// The file, with sections that touch.
    pub fn file(&self) -> Vec<u8> {
        self.file_with(&Gaps::default())
    }

    pub fn file_with(&self, gaps: &Gaps) -> Vec<u8> {
        pack(&self.day, gaps)
    }
}

/// A combine in account 1.
pub fn combine(strategy: u8, first: u32, second: u32, lots: u32) -> Call {
    Call::Combine {
        account: 1,
        strategy,
        first,
        second,
        lots,
    }
}
