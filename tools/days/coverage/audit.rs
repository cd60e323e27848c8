//! What must hold between the book's parts.

use crate::states::Before;
use reference::book::{Book, Refusal, Side, Task};
use reference::format::Trade;
use std::collections::BTreeMap;

/// What must hold between the book's parts after every call.
pub fn audit(book: &Book, before: &Before, answer: Result<u32, Refusal>) -> Result<(), String> {
    let odd = |holds: bool, what: &str| if holds { Ok(()) } else { Err(what.to_string()) };
    odd(
        book.balance() + book.held() + book.reserves() == book.cash(),
        "balance, margin held and reserves are not the cash total",
    )?;
    odd(book.balance() >= 0, "the balance is below nought")?;
    if let Some(need) = before.deduction {
        let lacks = need > before.balance;
        odd(!(answer.is_ok() && lacks), "taken without the balance")?;
        odd(
            answer != Err(Refusal::Balance) || lacks,
            "refused 21 with the balance",
        )?;
    }
    if answer.is_err() {
        let kept = book.balance() == before.balance && book.cash() == before.cash;
        odd(kept, "a refused call moved money")?;
    }

    let count = book.listing().len();
    let mut claims = vec![[(0, 0); 2]; 8 * count];
    let mut engaged: BTreeMap<u32, u32> = BTreeMap::new();
    for (_, order) in book.orders().iter() {
        let row = &mut claims[order.account * count + order.contract];
        match order.task {
            Task::Trade(Trade::SellOpen) => row[Side::Written as usize].1 += order.lots,
            Task::Trade(Trade::BuyOpen) => row[Side::Bought as usize].1 += order.lots,
            Task::Trade(Trade::BuyClose) => row[Side::Written as usize].0 += order.lots,
            Task::Trade(Trade::SellClose) => row[Side::Bought as usize].0 += order.lots,
            Task::LegClose { combination } => {
                *engaged.entry(combination).or_default() += order.lots;
            }
        }
    }
    for (number, standing) in book.combinations().iter() {
        let first = standing.account * count + standing.first;
        claims[first][standing.first_side() as usize].0 += standing.lots;
        let second = standing.account * count + standing.second;
        claims[second][Side::Written as usize].0 += standing.lots;
        let claimed = engaged.remove(&number).unwrap_or(0);
        odd(
            claimed == standing.engaged,
            "engaged lots are not those of the leg closes",
        )?;
        odd(
            standing.engaged <= standing.lots && standing.lots > 0,
            "a combination's lots",
        )?;
    }
    odd(engaged.is_empty(), "a leg close of no combination")?;
    for (place, claimed) in claims.iter().enumerate() {
        for side in [Side::Bought, Side::Written] {
            let lots = book.lots(place / count, place % count, side);
            let (locked, opening) = claimed[side as usize];
            odd(
                lots.locked == locked && lots.opening == opening,
                "claimed lots",
            )?;
            odd(lots.locked <= lots.owned, "more locked than owned")?;
            odd(lots.owned + lots.opening <= 10_000, "over 10,000 lots")?;
        }
    }
    Ok(())
}
