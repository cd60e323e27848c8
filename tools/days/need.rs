//! What a call needs of the book: the balance that it takes and the lots
//! that it finds. Both are worked out from the rules beside the book's own
//! checks, so that the two can be held against each other.

use reference::book::{Book, Combination, Order, Side, ACCOUNTS, MOST_LOTS_OF_A_SIDE};
use reference::format::{Call, Contract, Trade};
use reference::margin::{Hao, Strategy};

/// The side of the account's contract that a trade works on.
pub fn side_of(trade: Trade) -> Side {
    match trade {
        Trade::SellOpen | Trade::BuyClose => Side::Written,
        Trade::BuyOpen | Trade::SellClose => Side::Bought,
    }
}

pub fn opens(trade: Trade) -> bool {
    matches!(trade, Trade::SellOpen | Trade::BuyOpen)
}

pub fn place_of(book: &Book, code: u32) -> Option<usize> {
    book.listing()
        .iter()
        .position(|contract| contract.code == code)
}

pub fn order(book: &Book, number: u32) -> Option<&Order> {
    book.orders()
        .iter()
        .find(|entry| entry.0 == number)
        .map(|entry| entry.1)
}

pub fn combination(book: &Book, number: u32) -> Option<&Combination> {
    book.combinations()
        .iter()
        .find(|entry| entry.0 == number)
        .map(|entry| entry.1)
}

fn place_of_account(account: u8) -> Option<usize> {
    let account = usize::from(account);
    (1..=ACCOUNTS).contains(&account).then(|| account - 1)
}

/// The combination that a combine would make, free lots aside.
pub fn combined(book: &Book, call: &Call) -> Option<Combination> {
    let Call::Combine {
        account,
        strategy,
        first,
        second,
        lots,
    } = *call
    else {
        return None;
    };
    let account = place_of_account(account)?;
    let (first, second) = (place_of(book, first)?, place_of(book, second)?);
    let legs: (&Contract, &Contract) = (&book.listing()[first], &book.listing()[second]);
    let strategy = Strategy::numbered(strategy).filter(|strategy| strategy.fits(legs.0, legs.1))?;
    let pair_margin = book.scale().pair(strategy, legs.0, legs.1);
    Some(Combination {
        account,
        strategy,
        first,
        second,
        lots,
        engaged: 0,
        pair_margin,
    })
}

/// The reserve of a lot of an order, where the call's names are known.
fn reserve_of_a_lot(book: &Book, call: &Call) -> Option<Hao> {
    match *call {
        Call::Order {
            trade,
            contract,
            limit,
            ..
        } => {
            let contract = place_of(book, contract)?;
            let unit = Hao::from(book.listing()[contract].unit);
            Some(match trade {
                Trade::SellOpen => book.leg_margin(contract),
                Trade::BuyOpen | Trade::BuyClose => Hao::from(limit) * unit,
                Trade::SellClose => 0,
            })
        }
        Call::LegClose {
            combination: number,
            leg,
            limit,
            ..
        } => {
            let standing = combination(book, number)?;
            let leg = place_of(book, leg).filter(|&leg| standing.writes(leg))?;
            let unit = Hao::from(book.listing()[leg].unit);
            let other = match (standing.strategy.writes_first(), leg == standing.second) {
                (false, _) => 0,
                (true, true) => book.leg_margin(standing.first),
                (true, false) => book.leg_margin(standing.second),
            };
            Some((other + Hao::from(limit) * unit - standing.pair_margin).max(0))
        }
        _ => None,
    }
}

/// What the call would take from the balance, 0 where it would take nothing.
pub fn deduction(book: &Book, call: &Call) -> Option<Hao> {
    match *call {
        Call::Withdraw { amount } => Some(amount.into()),
        Call::Order { lots, .. } | Call::LegClose { lots, .. } => {
            Some(Hao::from(lots) * reserve_of_a_lot(book, call)?)
        }
        Call::Combine { lots, .. } => {
            let relief = book.relief(&combined(book, call)?);
            Some((-Hao::from(lots) * relief).max(0))
        }
        Call::Release {
            combination: number,
            lots,
        } => {
            let relief = book.relief(combination(book, number)?);
            Some((Hao::from(lots) * relief).max(0))
        }
        Call::Deposit { .. } | Call::Fill { .. } | Call::Cancel { .. } => None,
    }
}

/// The most lots for which the call would be taken, as far as lots count.
pub fn lots_room(book: &Book, call: &Call) -> Option<u32> {
    match *call {
        Call::Order {
            trade,
            account,
            contract,
            ..
        } => {
            let contract = place_of(book, contract)?;
            let there = book.lots(place_of_account(account)?, contract, side_of(trade));
            Some(if opens(trade) {
                MOST_LOTS_OF_A_SIDE - there.owned - there.opening
            } else {
                there.free()
            })
        }
        Call::LegClose {
            combination: number,
            ..
        }
        | Call::Release {
            combination: number,
            ..
        } => Some(combination(book, number)?.not_engaged()),
        Call::Fill { order: number, .. } => Some(order(book, number)?.lots),
        Call::Combine { .. } => {
            let new = combined(book, call)?;
            let first = book.lots(new.account, new.first, new.first_side()).free();
            Some(first.min(book.lots(new.account, new.second, Side::Written).free()))
        }
        Call::Deposit { .. } | Call::Withdraw { .. } | Call::Cancel { .. } => None,
    }
}

/// The call with other lots.
pub fn with_lots(call: Call, new: u32) -> Call {
    let mut call = call;
    match &mut call {
        Call::Order { lots, .. }
        | Call::LegClose { lots, .. }
        | Call::Fill { lots, .. }
        | Call::Combine { lots, .. }
        | Call::Release { lots, .. } => *lots = new,
        Call::Deposit { .. } | Call::Withdraw { .. } | Call::Cancel { .. } => {}
    }
    call
}

/// The call with another limit or price.
pub fn with_price(call: Call, new: u64) -> Call {
    let mut call = call;
    match &mut call {
        Call::Order { limit, .. } | Call::LegClose { limit, .. } => *limit = new,
        Call::Fill { price, .. } => *price = new,
        _ => {}
    }
    call
}
