//! The book: one balance, eight accounts, and the eleven calls.

mod calls;

use crate::format::{Contract, Settings, Trade};
use crate::margin::{Hao, Scale, Strategy};
use crate::register::Register;

pub const ACCOUNTS: usize = 8;
pub const MOST_LOTS_OF_A_CALL: u32 = 1_000;
pub const MOST_LOTS_OF_A_SIDE: u32 = 10_000;
pub const MOST_PRICE: u64 = 10_000_000;
pub const MOST_AMOUNT: u64 = 10_000_000_000_000_000;
pub const MOST_CASH: Hao = 100_000_000_000_000_000;

/// Why a call is not taken. The checks run in the order of these numbers.
#[derive(Clone, Copy, Debug, PartialEq, Eq)]
#[repr(u8)]
pub enum Refusal {
    Amount = 10,
    Account = 11,
    Contract = 12,
    Lots = 13,
    Price = 14,
    Strategy = 15,
    Number = 16,
    Leg = 17,
    FreeLots = 18,
    LotLimit = 19,
    PriceLimit = 20,
    Balance = 21,
    NoRow = 22,
    LastNumber = 23,
    CashLimit = 24,
}

/// The two sides of an account's contract.
#[derive(Clone, Copy, Debug, PartialEq, Eq)]
pub enum Side {
    Bought,
    Written,
}

/// The lots of one side.
#[derive(Clone, Copy, Debug, Default, PartialEq, Eq)]
pub struct Lots {
    pub owned: u32,
    pub locked: u32,
    /// Lots of working orders that would open here.
    pub opening: u32,
}

impl Lots {
    pub fn free(&self) -> u32 {
        self.owned - self.locked
    }
}

/// What a working order does when it is filled.
#[derive(Clone, Copy, Debug, PartialEq, Eq)]
pub enum Task {
    Trade(Trade),
    LegClose { combination: u32 },
}

/// A working order. Accounts and contracts are kept as places from 0.
#[derive(Clone, Copy, Debug)]
pub struct Order {
    pub account: usize,
    pub task: Task,
    /// The contract that is traded; of a leg close, the named leg.
    pub contract: usize,
    pub lots: u32,
    pub limit: Hao,
    /// The reserve of one lot.
    pub reserve: Hao,
}

impl Order {
    pub fn sells(&self) -> bool {
        matches!(self.task, Task::Trade(Trade::SellOpen | Trade::SellClose))
    }
}

#[derive(Clone, Copy, Debug)]
pub struct Combination {
    pub account: usize,
    pub strategy: Strategy,
    pub first: usize,
    pub second: usize,
    pub lots: u32,
    /// Lots engaged by working leg closes.
    pub engaged: u32,
    /// The pair margin of one lot.
    pub pair_margin: Hao,
}

impl Combination {
    pub fn not_engaged(&self) -> u32 {
        self.lots - self.engaged
    }

    pub fn first_side(&self) -> Side {
        if self.strategy.writes_first() {
            Side::Written
        } else {
            Side::Bought
        }
    }

    pub fn writes(&self, contract: usize) -> bool {
        contract == self.second || (contract == self.first && self.strategy.writes_first())
    }

    /// The leg beside a written one, and its side.
    pub fn other_leg(&self, leg: usize) -> (usize, Side) {
        if leg == self.second {
            (self.first, self.first_side())
        } else {
            (self.second, Side::Written)
        }
    }
}

pub struct Book {
    scale: Scale,
    permitted: u8,
    listing: Vec<Contract>,
    /// The leg margin of each contract.
    leg_margins: Vec<Hao>,
    /// By account, then by contract: bought and written.
    positions: Vec<[Lots; 2]>,
    orders: Register<Order>,
    combinations: Register<Combination>,
    balance: Hao,
    cash: Hao,
}

impl Book {
    pub fn open(settings: &Settings, listing: Vec<Contract>) -> Book {
        let scale = Scale::of(settings);
        Book {
            scale,
            permitted: settings.permitted,
            leg_margins: listing.iter().map(|contract| scale.leg(contract)).collect(),
            positions: vec![[Lots::default(); 2]; ACCOUNTS * listing.len()],
            listing,
            orders: Register::starting_at(settings.first_number),
            combinations: Register::starting_at(settings.first_number),
            balance: Hao::from(settings.opening_balance),
            cash: Hao::from(settings.opening_balance),
        }
    }

    /// The legs' sum of one lot, less the pair margin.
    pub fn relief(&self, combination: &Combination) -> Hao {
        self.legs_sum(combination) - combination.pair_margin
    }

    /// The leg margins of the written legs of one lot.
    fn legs_sum(&self, combination: &Combination) -> Hao {
        let second = self.leg_margins[combination.second];
        match combination.first_side() {
            Side::Bought => second,
            Side::Written => second + self.leg_margins[combination.first],
        }
    }

    fn place_of(&self, code: u32) -> Result<usize, Refusal> {
        self.listing
            .binary_search_by_key(&code, |contract| contract.code)
            .map_err(|_| Refusal::Contract)
    }

    fn unit(&self, contract: usize) -> Hao {
        Hao::from(self.listing[contract].unit)
    }

    fn lots_mut(&mut self, account: usize, contract: usize, side: Side) -> &mut Lots {
        &mut self.positions[account * self.listing.len() + contract][side as usize]
    }
}

/// Questions, which change nothing.
impl Book {
    pub fn balance(&self) -> Hao {
        self.balance
    }

    pub fn cash(&self) -> Hao {
        self.cash
    }

    /// The leg margin of the written lots outside combinations and the pair
    /// margin of the combinations' lots.
    pub fn held(&self) -> Hao {
        let written: Hao = self
            .positions
            .chunks(self.listing.len())
            .flat_map(|account| account.iter().zip(&self.leg_margins))
            .map(|(lots, margin)| Hao::from(lots[Side::Written as usize].owned) * margin)
            .sum();
        let relieved: Hao = self
            .combinations
            .iter()
            .map(|(_, standing)| Hao::from(standing.lots) * self.relief(standing))
            .sum();
        written - relieved
    }

    pub fn reserves(&self) -> Hao {
        self.orders
            .iter()
            .map(|(_, order)| Hao::from(order.lots) * order.reserve)
            .sum()
    }

    pub fn scale(&self) -> &Scale {
        &self.scale
    }

    pub fn listing(&self) -> &[Contract] {
        &self.listing
    }

    pub fn leg_margin(&self, contract: usize) -> Hao {
        self.leg_margins[contract]
    }

    pub fn lots(&self, account: usize, contract: usize, side: Side) -> Lots {
        self.positions[account * self.listing.len() + contract][side as usize]
    }

    pub fn orders(&self) -> &Register<Order> {
        &self.orders
    }

    pub fn combinations(&self) -> &Register<Combination> {
        &self.combinations
    }

    pub fn permitted(&self) -> u8 {
        self.permitted
    }
}

#[cfg(test)]
mod tests {
    use super::*;
    use crate::format::{Base, Call, Kind, Right};

    /// A fund call at 42,000 and a fund put at 38,000, as in the rules.
    fn book(balance: u64) -> Book {
        let settings = Settings {
            scale: Base::Standard,
            first_raise: 0,
            second_raise: 0,
            permitted: 63,
            first_number: 1,
            opening_balance: balance,
            day: 100,
        };
        let call = Contract {
            code: 90_000_001,
            underlying: 900_001,
            expiry: 140,
            right: Right::Call,
            kind: Kind::Fund,
            unit: 10_000,
            strike: 42_000,
            settlement: 500,
            close: 40_000,
            listed_margin: 0,
        };
        let put = Contract {
            code: 90_000_002,
            right: Right::Put,
            strike: 38_000,
            settlement: 300,
            ..call
        };
        Book::open(&settings, vec![call, put])
    }

    fn sell_open(contract: u32, lots: u32, limit: u64) -> Call {
        Call::Order {
            trade: Trade::SellOpen,
            account: 1,
            contract,
            lots,
            limit,
        }
    }

    fn write(book: &mut Book, contract: u32, lots: u32) {
        let order = book.take(&sell_open(contract, lots, 1)).expect("entered");
        assert_eq!(
            book.take(&Call::Fill {
                order,
                lots,
                price: 1
            }),
            Ok(0)
        );
    }

    #[test]
    fn balance_exactly_enough_and_one_hao_short() {
        assert_eq!(book(33_000_000).take(&sell_open(90_000_001, 1, 500)), Ok(1));
        assert_eq!(
            book(32_999_999).take(&sell_open(90_000_001, 1, 500)),
            Err(Refusal::Balance)
        );
    }

    #[test]
    fn balance_margin_and_reserves_add_up_to_the_cash_total() {
        let mut book = book(1_000_000_000);
        write(&mut book, 90_000_001, 5);
        write(&mut book, 90_000_002, 4);
        let combine = Call::Combine {
            account: 1,
            strategy: 6,
            first: 90_000_001,
            second: 90_000_002,
            lots: 4,
        };
        assert_eq!(book.take(&combine), Ok(1));
        assert_eq!(book.held(), 33_000_000 + 4 * 36_000_000);
        let close = Call::LegClose {
            combination: 1,
            leg: 90_000_001,
            lots: 3,
            limit: 900,
        };
        assert_eq!(book.take(&close), Ok(3));
        assert_eq!(book.reserves(), 3 * (31_000_000 + 9_000_000 - 36_000_000));
        for _ in 0..3 {
            assert_eq!(
                book.take(&Call::Fill {
                    order: 3,
                    lots: 1,
                    price: 900
                }),
                Ok(0)
            );
            assert_eq!(book.balance() + book.held() + book.reserves(), book.cash());
        }
        assert_eq!(
            book.take(&Call::Release {
                combination: 1,
                lots: 1
            }),
            Ok(0)
        );
        assert!(book.combinations().is_empty() && book.orders().is_empty());
        assert_eq!(book.held(), 2 * 33_000_000 + 4 * 31_000_000);
    }

    #[test]
    fn ten_thousand_lots_of_a_side() {
        let mut book = book(MOST_AMOUNT);
        for _ in 0..10 {
            book.take(&sell_open(90_000_002, 1_000, 1))
                .expect("entered");
        }
        assert_eq!(
            book.take(&sell_open(90_000_002, 1, 1)),
            Err(Refusal::LotLimit)
        );
        assert_eq!(book.take(&Call::Cancel { order: 7 }), Ok(0));
        assert_eq!(book.take(&sell_open(90_000_002, 1_000, 1)), Ok(11));
    }
}
