//! The states that a single call meets.

use super::{count_if, Before, Count};
use crate::need;
use reference::book::{Book, Combination, Refusal, Task, MOST_CASH};
use reference::format::{Call, Contract, Right, Trade};
use reference::margin::{Hao, Strategy};

pub fn watch_deposit(amount: u64, answer: Result<u32, Refusal>, before: &Before, count: Count) {
    let after = before.cash + Hao::from(amount);
    let at_limit = answer.is_ok() && after == MOST_CASH;
    count_if(count, at_limit, "cash: exactly 10^17 by deposit");
    let over = answer == Err(Refusal::CashLimit) && after == MOST_CASH + 1;
    count_if(count, over, "24: deposit one hao too many");
}

pub fn watch_order(
    book: &Book,
    trade: Trade,
    (account, contract, lots): (u8, u32, u32),
    answer: Result<u32, Refusal>,
    before: &Before,
    count: Count,
) {
    let Some(contract) = need::place_of(book, contract) else {
        return;
    };
    let Some(account) = usize::from(account)
        .checked_sub(1)
        .filter(|&place| place < 8)
    else {
        return;
    };
    let there = book.lots(account, contract, need::side_of(trade));
    match answer {
        Err(Refusal::LotLimit) => {
            let sells = trade == Trade::SellOpen;
            count(match (there.opening > 0, sells) {
                (true, true) => "19: with working orders, sell-open",
                (true, false) => "19: with working orders, buy-open",
                (false, true) => "19: all lots owned, sell-open",
                (false, false) => "19: all lots owned, buy-open",
            });
            count_if(count, there.locked > 0, "19: with locked lots");
        }
        Err(Refusal::FreeLots) if lots <= there.owned => {
            let by_close: u32 = book
                .orders()
                .iter()
                .filter(|(_, order)| {
                    order.account == account
                        && order.contract == contract
                        && order.task == Task::Trade(trade)
                })
                .map(|(_, order)| order.lots)
                .sum();
            count_if(count, by_close > 0, "18: close of lots locked by a close");
            let in_pairs = there.locked > by_close;
            count_if(count, in_pairs, "18: close of lots locked in a combination");
        }
        Ok(_) if before.balance >= 0 => {
            let side = need::side_of(trade);
            let shared = (0..8)
                .filter(|&other| other != account)
                .any(|other| book.lots(other, contract, side).owned > 0 && there.owned > 0);
            count_if(count, shared, "lots: one contract held in several accounts");
        }
        _ => {}
    }
}

pub fn watch_leg_close(
    book: &Book,
    (number, leg): (u32, u32),
    answer: Result<u32, Refusal>,
    before: &Before,
    count: Count,
) {
    let (Some(standing), Some(leg)) = (before.combination, need::place_of(book, leg)) else {
        return;
    };
    match answer {
        Ok(given) => {
            let beside = |same_leg: bool| {
                book.orders().iter().any(|(other, order)| {
                    other != given
                        && order.task
                            == Task::LegClose {
                                combination: number,
                            }
                        && (order.contract == leg) == same_leg
                })
            };
            count_if(count, beside(true), "leg-close: two orders on one leg");
            let both = beside(false);
            count_if(
                count,
                both,
                "leg-close: both legs of one straddle worked at once",
            );
        }
        Err(Refusal::Leg) => {
            let permitted = standing.strategy.permitted_by(book.permitted());
            let foreign = leg != standing.first && leg != standing.second;
            count_if(count, !permitted, "17: not permitted");
            count_if(
                count,
                permitted && foreign,
                "17: a contract beside the combination",
            );
            count_if(
                count,
                permitted && leg == standing.first,
                "17: the bought leg",
            );
        }
        Err(Refusal::FreeLots) => {
            let engaged = standing.engaged > 0;
            count_if(count, engaged, "18: leg-close, lots engaged");
        }
        Err(_) => {}
    }
}

/// How the two legs of a new combination stand to each other.
pub fn watch_pair(book: &Book, made: &Combination, count: Count) {
    let (first, second) = (&book.listing()[made.first], &book.listing()[made.second]);
    if made.strategy.writes_first() {
        let (one, two) = (book.leg_margin(made.first), book.leg_margin(made.second));
        let (lower, higher) = if one < two {
            (first, second)
        } else {
            (second, first)
        };
        if one == two {
            let differ = first.settlement != second.settlement;
            count_if(
                count,
                differ,
                "straddle rule: equal leg margins, settlements differ",
            );
        } else if lower.settlement > higher.settlement {
            count("straddle rule: the lower leg has the higher settlement");
        } else if lower.settlement < higher.settlement {
            count("straddle rule: the lower leg has the lower settlement");
        }
    } else {
        let width = Hao::from(first.strike.abs_diff(second.strike)) * Hao::from(first.unit);
        let asks = matches!(
            made.strategy,
            Strategy::BearCallSpread | Strategy::BullPutSpread
        );
        count_if(
            count,
            asks && width % 100 == 50,
            "pair margin: half a fen rounded up",
        );
    }
}

/// Why the legs of a refused combine do not fit.
pub fn watch_unfit(book: &Book, call: &Call, count: Count) {
    let Call::Combine {
        strategy,
        first,
        second,
        ..
    } = *call
    else {
        return;
    };
    let (Some(one), Some(two)) = (need::place_of(book, first), need::place_of(book, second)) else {
        return;
    };
    let (one, two) = (&book.listing()[one], &book.listing()[two]);
    let Some(named) = Strategy::numbered(strategy) else {
        count_if(count, strategy == 0, "15: strategy 0");
        return count_if(count, strategy == 7, "15: strategy 7");
    };
    count_if(count, first == second, "15: a contract with itself");
    let fits = |one: &Contract, two: &Contract| named.fits(one, two);
    let other_underlying = fits(
        one,
        &Contract {
            underlying: one.underlying,
            ..*two
        },
    );
    count_if(count, other_underlying, "15: another underlying");
    let other_expiry = fits(
        one,
        &Contract {
            expiry: one.expiry,
            ..*two
        },
    );
    count_if(count, other_expiry, "15: another expiry");
    count_if(
        count,
        fits(
            one,
            &Contract {
                unit: one.unit,
                ..*two
            },
        ),
        "15: another unit",
    );
    let wrong_right = [Right::Call, Right::Put].iter().any(|&right| {
        fits(one, &Contract { right, ..*two }) || fits(&Contract { right, ..*one }, two)
    });
    count_if(count, wrong_right, "15: wrong right");
    let equal = one.strike == two.strike && named != Strategy::ShortStraddle;
    let off_by_strike = |strike: u32| fits(one, &Contract { strike, ..*two });
    let nearly = [one.strike - 1, one.strike, one.strike + 1]
        .into_iter()
        .any(off_by_strike);
    count_if(count, nearly && !equal, "15: wrong order of strikes");
    count_if(
        count,
        nearly && equal,
        "15: strikes equal in a spread or strangle",
    );
}
