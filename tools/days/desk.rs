//! A desk that makes the calls of a day while it watches the book, so that
//! the day reaches deep states.

mod feats;
mod sketch;
mod spoil;

use crate::layout::{buy_open, sell_open};
use crate::need;
use crate::rng::Rng;
use reference::book::{Book, Side, MOST_AMOUNT, MOST_CASH};
use reference::format::{Call, Contract, Day, Settings, Trade};
use reference::margin::{Hao, Strategy};

pub const TRADES: [Trade; 4] = [
    Trade::SellOpen,
    Trade::BuyOpen,
    Trade::BuyClose,
    Trade::SellClose,
];

/// How a desk trades.
#[derive(Clone, Debug)]
pub struct Habits {
    /// Accounts in use, from 1.
    pub accounts: u8,
    pub most_lots: u32,
    /// How often each of the eleven calls is made.
    pub weights: [u32; 11],
    /// Percent of calls that are spoilt in one field.
    pub near_miss: u64,
    /// Percent of calls made with the balance just enough or just short.
    pub edge: u64,
    /// Whether what lacks is deposited first.
    pub funded: bool,
    /// Working orders and combinations that the desk lets stand.
    pub most_standing: usize,
    /// Percent of limits anywhere in the range.
    pub wild_limits: u64,
}

impl Habits {
    pub fn ordinary() -> Habits {
        Habits {
            accounts: 3,
            most_lots: 20,
            weights: [2, 2, 9, 9, 4, 4, 7, 22, 6, 9, 6],
            near_miss: 16,
            edge: 4,
            funded: true,
            most_standing: 40,
            wild_limits: 3,
        }
    }
}

pub struct Desk {
    pub rng: Rng,
    pub book: Book,
    pub day: Day,
    pub most_calls: usize,
    pub habits: Habits,
    /// Fitted pairs of the listing, by strategy.
    pairs: [Vec<(usize, usize)>; 6],
    /// Contracts that are traded most.
    hot: Vec<usize>,
    /// The size of an ordinary amount.
    purse: u64,
}

impl Desk {
    pub fn new(
        mut rng: Rng,
        settings: Settings,
        contracts: Vec<Contract>,
        most_calls: usize,
        habits: Habits,
    ) -> Desk {
        let fitting = |strategy: Strategy| {
            let places = 0..contracts.len();
            places
                .clone()
                .flat_map(|first| places.clone().map(move |second| (first, second)))
                .filter(|&(first, second)| strategy.fits(&contracts[first], &contracts[second]))
                .collect()
        };
        let pairs = Strategy::ALL.map(fitting);
        let hot = (0..6).map(|_| rng.index(contracts.len())).collect();
        let book = Book::open(&settings, contracts.clone());
        let purse = settings.opening_balance.clamp(10_000, MOST_AMOUNT);
        let day = Day {
            settings,
            contracts,
            calls: Vec::new(),
        };
        Desk {
            rng,
            book,
            day,
            most_calls,
            habits,
            pairs,
            hot,
            purse,
        }
    }

    pub fn full(&self) -> bool {
        self.day.calls.len() >= self.most_calls
    }

    /// Makes a call; the number given, 0 where none is, or none if refused.
    pub fn put(&mut self, call: Call) -> Option<u32> {
        if self.full() {
            return None;
        }
        self.day.calls.push(call);
        self.book.take(&call).ok()
    }

    /// Deposits what the call lacks, then makes it.
    pub fn put_funded(&mut self, call: Call) -> Option<u32> {
        if let Some(need) = need::deduction(&self.book, &call) {
            if need > self.book.balance() {
                let more = Hao::from(self.rng.below(self.purse / 4 + 1));
                self.bring_balance_to(need + more);
            }
        }
        self.put(call)
    }

    /// Deposits or withdraws until the balance is the one wanted.
    pub fn bring_balance_to(&mut self, wanted: Hao) {
        for _ in 0..12 {
            let balance = self.book.balance();
            let step = (wanted - balance).abs().min(MOST_AMOUNT.into()) as u64;
            let taken = match wanted.cmp(&balance) {
                std::cmp::Ordering::Equal => return,
                std::cmp::Ordering::Less => self.put(Call::Withdraw { amount: step }),
                std::cmp::Ordering::Greater => {
                    let room = (MOST_CASH - self.book.cash()).min(step.into()) as u64;
                    if room == 0 {
                        return;
                    }
                    self.put(Call::Deposit { amount: room })
                }
            };
            if taken.is_none() {
                return;
            }
        }
    }

    /// Makes calls by the desk's habits until the day has `until` calls.
    pub fn trade(&mut self, until: usize) {
        while !self.full() && self.day.calls.len() < until {
            self.step();
        }
    }

    fn step(&mut self) {
        let crowded = self.book.orders().len() > self.habits.most_standing;
        let wanted = match self.rng.weighted(&self.habits.weights) as u8 + 1 {
            3..=7 if crowded => self.rng.pick(&[8, 8, 9]),
            10 if self.book.combinations().len() > self.habits.most_standing => 11,
            wanted => wanted,
        };
        let Some(call) = self.sketch(wanted) else {
            return self.prepare(wanted);
        };
        if self.rng.chance(self.habits.near_miss) {
            let spoilt = self.spoil(call);
            self.put(spoilt);
        } else if self.rng.chance(self.habits.edge) {
            self.at_the_edge(call);
        } else if self.habits.funded {
            self.put_funded(call);
        } else {
            self.put(call);
        }
    }

    /// Where nothing stands that the wanted call could name.
    fn prepare(&mut self, wanted: u8) {
        if self.rng.chance(5) {
            let number = self.no_such_order();
            self.put(Call::Cancel { order: number });
            return;
        }
        match wanted {
            7 | 10 | 11 => {
                let lots = self.rng.lots(self.habits.most_lots);
                self.grow_combination(lots);
            }
            _ => {
                let account = self.account();
                let contract = self.contract();
                let side = if self.rng.chance(50) {
                    Side::Written
                } else {
                    Side::Bought
                };
                let lots = self.rng.lots(self.habits.most_lots);
                self.acquire(account, contract, side, lots);
            }
        }
    }

    /// Opens lots on a side and has them filled at once.
    pub fn acquire(&mut self, account: u8, contract: usize, side: Side, lots: u32) -> bool {
        let code = self.code(contract);
        let price = match side {
            Side::Written => u64::from(self.day.contracts[contract].settlement),
            Side::Bought => self
                .rng
                .between(1, self.day.contracts[contract].settlement.into()),
        };
        let call = match side {
            Side::Written => sell_open(account, code, lots, price),
            Side::Bought => buy_open(account, code, lots, price),
        };
        let entered = if self.habits.funded {
            self.put_funded(call)
        } else {
            self.put(call)
        };
        let Some(order) = entered else { return false };
        self.put(Call::Fill { order, lots, price }).is_some()
    }

    /// Opens what a combination lacks and combines it.
    pub fn grow_combination(&mut self, lots: u32) -> Option<u32> {
        let possible: Vec<usize> = (0..6).filter(|&at| !self.pairs[at].is_empty()).collect();
        let strategy = Strategy::ALL[self.rng.try_pick(&possible)?];
        let (first, second) = self.rng.pick(&self.pairs[strategy as usize]);
        let account = self.account();
        self.combine_pair(account, strategy, first, second, lots)
    }

    pub fn combine_pair(
        &mut self,
        account: u8,
        strategy: Strategy,
        first: usize,
        second: usize,
        lots: u32,
    ) -> Option<u32> {
        let first_side = if strategy.writes_first() {
            Side::Written
        } else {
            Side::Bought
        };
        for (contract, side) in [(first, first_side), (second, Side::Written)] {
            let free = self
                .book
                .lots(usize::from(account) - 1, contract, side)
                .free();
            if free < lots && !self.acquire(account, contract, side, lots - free) {
                return None;
            }
        }
        let call = Call::Combine {
            account,
            strategy: strategy.number(),
            first: self.code(first),
            second: self.code(second),
            lots,
        };
        if self.rng.chance(self.habits.edge) {
            return self.at_the_edge(call);
        }
        if self.habits.funded {
            self.put_funded(call)
        } else {
            self.put(call)
        }
    }

    /// Makes the call with the balance just enough, or first one hao short.
    pub fn at_the_edge(&mut self, call: Call) -> Option<u32> {
        let Some(need) = need::deduction(&self.book, &call).filter(|&need| need > 0) else {
            return self.put(call);
        };
        let before = self.book.balance();
        if self.rng.chance(50) {
            self.bring_balance_to(need - 1);
            if self.put(call).is_none() {
                self.put(Call::Deposit { amount: 1 });
            }
        } else {
            self.bring_balance_to(need);
        }
        let answer = self.put(call);
        if self.rng.chance(80) {
            self.bring_balance_to(before);
        }
        answer
    }
}
