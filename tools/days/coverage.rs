//! Plays many days through the reference and tells what was met.

mod audit;
mod faults;
mod table;

use crate::need;
use crate::profiles::{make, DayFile};
use crate::states::{watch_day, Before, Watch};
use audit::audit;
use faults::fault_cell;
use reference::book::{Book, Refusal, MOST_AMOUNT, MOST_PRICE};
use reference::format::{self, Call, Fault};
use std::collections::BTreeMap;

/// The calls that can meet each refusal, as in the rules.
const REFUSALS: [(u8, &[u8]); 15] = [
    (10, &[1, 2]),
    (11, &[3, 4, 5, 6, 10]),
    (12, &[3, 4, 5, 6, 7, 10]),
    (13, &[3, 4, 5, 6, 7, 8, 10, 11]),
    (14, &[3, 4, 5, 6, 7, 8]),
    (15, &[10]),
    (16, &[7, 8, 9, 11]),
    (17, &[7]),
    (18, &[5, 6, 7, 8, 10, 11]),
    (19, &[3, 4]),
    (20, &[8]),
    (21, &[2, 3, 4, 5, 7, 10, 11]),
    (22, &[3, 4, 5, 6, 7, 10]),
    (23, &[3, 4, 5, 6, 7, 10]),
    (24, &[1, 8]),
];

/// The exact edges, and the calls that have them.
const EDGES: [(&str, &[u8]); 18] = [
    ("balance exactly enough", &[2, 3, 4, 5, 7, 10, 11]),
    ("balance one hao short", &[2, 3, 4, 5, 7, 10, 11]),
    ("exactly the lots there", &[3, 4, 5, 6, 7, 8, 10, 11]),
    ("one lot too many", &[3, 4, 5, 6, 7, 8, 10, 11]),
    ("amount 10^16 taken", &[1, 2]),
    ("amount 10^16 + 1", &[1, 2]),
    ("amount 0", &[1, 2]),
    ("1 lot taken", &[3, 4, 5, 6, 7, 8, 10, 11]),
    ("1,000 lots taken", &[3, 4, 5, 6, 7, 8, 10, 11]),
    ("0 lots", &[3, 4, 5, 6, 7, 8, 10, 11]),
    ("1,001 lots", &[3, 4, 5, 6, 7, 8, 10, 11]),
    ("price 1 taken", &[3, 4, 5, 6, 7, 8]),
    ("price 10,000,000 taken", &[3, 4, 5, 6, 7, 8]),
    ("price 0", &[3, 4, 5, 6, 7, 8]),
    ("price 10,000,001", &[3, 4, 5, 6, 7, 8]),
    ("account 8 taken", &[3, 4, 5, 6, 10]),
    ("account 0", &[3, 4, 5, 6, 10]),
    ("account 9", &[3, 4, 5, 6, 10]),
];

/// What is counted for each strategy, and whether strategies 1 and 4, whose
/// pair margin is nought, can meet it.
const BY_STRATEGY: [(&str, bool); 17] = [
    ("combine taken", true),
    ("combine, relief above 0", true),
    ("combine, relief 0", true),
    ("combine, relief below 0", false),
    ("combine refused 18", true),
    ("combine refused 21", false),
    ("release taken", true),
    ("release, relief below 0", false),
    ("release refused 18", true),
    ("release refused 21", true),
    ("leg-close taken", true),
    ("leg-close, reserve 0", false),
    ("leg-close, reserve above 0", true),
    ("leg-close refused 17", true),
    ("leg-close refused 21", true),
    ("leg-close filled", true),
    ("leg-close cancelled", true),
];

/// Cells that the tables leave out, and why none can be met.
const IMPOSSIBLE: &[(&str, &str)] = &[
    (
        "sell-close refused 21",
        "its reserve is 0, and the balance is never below nought",
    ),
    (
        "fill refused 21",
        "what comes back first covers what is taken; not a fill's check",
    ),
    (
        "fill of a buy or a leg close refused 24",
        "a purchase lowers the cash total",
    ),
    (
        "combine refused 21, or a relief below 0, of strategies 1 and 4",
        "their pair margin is 0, so the relief is a leg margin",
    ),
    (
        "leg-close with a reserve of 0, of strategies 1 and 4",
        "nothing is taken off limit x U, which is at least 1",
    ),
    (
        "a margin raised to the cap of 10^12 fen",
        "the largest margins are 12.1 x 10^12 hao for a leg and 22.1 x 10^12 for a pair; two \
         raises of 100 make at most 88.4 x 10^12 hao, under the cap of 10^14",
    ),
    (
        "fault 4, listed margin",
        "every value of 4 bytes is in range",
    ),
    (
        "fault 4 over the range of first number, day, expiry",
        "the range ends where the width of the field does",
    ),
    (
        "fault 4 under the range of raises, permitted, opening balance",
        "the range starts at 0",
    ),
    (
        "fault 4 of a call's field behind its number",
        "every value of a named field passes",
    ),
    (
        "fault 1 passed over for another, or 2 for 3 to 7, or 3 for 4 to 7",
        "size is checked first, then pairs, then lengths",
    ),
];

#[derive(Default)]
struct Tally {
    days: u64,
    calls: u64,
    faulty: u64,
    outcomes: BTreeMap<(u8, u8), u64>,
    edges: BTreeMap<(&'static str, u8), u64>,
    strategies: BTreeMap<(&'static str, u8), u64>,
    states: BTreeMap<&'static str, u64>,
    faults: BTreeMap<String, u64>,
    two_faults: BTreeMap<(u8, u8), u64>,
    profiles: BTreeMap<String, (u64, u64)>,
}

/// The coverage report of `days` days from a seed on.
pub fn coverage(seed: u64, days: u64) -> String {
    let mut tally = Tally::default();
    for seed in seed..seed + days {
        tally.day(seed, &make(seed));
    }
    tally.print()
}

impl Tally {
    fn day(&mut self, seed: u64, file: &DayFile) {
        self.days += 1;
        let entry = self
            .profiles
            .entry(format!("{:?}", file.profile))
            .or_default();
        entry.0 += 1;
        let day = match format::read(&file.bytes) {
            Ok(day) => day,
            Err(fault) => return self.fault(file, &fault),
        };
        entry.1 += day.calls.len() as u64;
        self.calls += day.calls.len() as u64;
        let states = &mut self.states;
        watch_day(&day, &file.bytes, &mut |name| {
            *states.entry(name).or_default() += 1
        });
        let mut book = Book::open(&day.settings, day.contracts.clone());
        let mut watch = Watch::default();
        for (index, call) in day.calls.iter().enumerate() {
            let before = Before::look(&book, call);
            let answer = book.take(call);
            if let Err(odd) = audit(&book, &before, answer) {
                panic!("seed {seed}, call {}: {odd}", index + 1);
            }
            *self
                .outcomes
                .entry((call.number(), answer.err().map_or(0, |r| r as u8)))
                .or_default() += 1;
            self.edge(call, answer, &before);
            self.strategy(&book, call, answer, &before);
            let states = &mut self.states;
            let mut count = |name| *states.entry(name).or_default() += 1;
            watch.call(&book, call, answer, &before, &mut count);
        }
    }

    fn edge(&mut self, call: &Call, answer: Result<u32, Refusal>, before: &Before) {
        let taken = answer.is_ok();
        let mut count = |met: bool, name| {
            if met {
                *self.edges.entry((name, call.number())).or_default() += 1;
            }
        };
        if let Some(need) = before.deduction.filter(|&need| need > 0) {
            count(taken && need == before.balance, "balance exactly enough");
            let short = answer == Err(Refusal::Balance) && need == before.balance + 1;
            count(short, "balance one hao short");
        }
        let (lots, price, account, amount) = match *call {
            Call::Deposit { amount } | Call::Withdraw { amount } => {
                (None, None, None, Some(amount))
            }
            Call::Order {
                account,
                lots,
                limit,
                ..
            } => (Some(lots), Some(limit), Some(account), None),
            Call::LegClose { lots, limit, .. } => (Some(lots), Some(limit), None, None),
            Call::Fill { lots, price, .. } => (Some(lots), Some(price), None, None),
            Call::Cancel { .. } => (None, None, None, None),
            Call::Combine { account, lots, .. } => (Some(lots), None, Some(account), None),
            Call::Release { lots, .. } => (Some(lots), None, None, None),
        };
        if let Some(lots) = lots {
            count(taken && before.room == Some(lots), "exactly the lots there");
            let refused = matches!(answer, Err(Refusal::FreeLots | Refusal::LotLimit));
            count(
                refused && before.room == lots.checked_sub(1),
                "one lot too many",
            );
            count(taken && lots == 1, "1 lot taken");
            count(taken && lots == 1_000, "1,000 lots taken");
            let refused = answer == Err(Refusal::Lots);
            count(refused && lots == 0, "0 lots");
            count(refused && lots == 1_001, "1,001 lots");
        }
        if let Some(price) = price {
            let refused = answer == Err(Refusal::Price);
            count(taken && price == 1, "price 1 taken");
            count(taken && price == MOST_PRICE, "price 10,000,000 taken");
            count(refused && price == 0, "price 0");
            count(refused && price == MOST_PRICE + 1, "price 10,000,001");
        }
        if let Some(account) = account {
            let refused = answer == Err(Refusal::Account);
            count(taken && account == 8, "account 8 taken");
            count(refused && account == 0, "account 0");
            count(refused && account == 9, "account 9");
        }
        if let Some(amount) = amount {
            count(taken && amount == MOST_AMOUNT, "amount 10^16 taken");
            let refused = answer == Err(Refusal::Amount);
            count(refused && amount == MOST_AMOUNT + 1, "amount 10^16 + 1");
            count(refused && amount == 0, "amount 0");
        }
    }

    fn strategy(
        &mut self,
        book: &Book,
        call: &Call,
        answer: Result<u32, Refusal>,
        before: &Before,
    ) {
        let standing = match before.combination {
            Some(standing) => Some(standing),
            None => need::combined(book, call),
        };
        let Some(standing) = standing else { return };
        let relief = book.relief(&standing);
        let mut count = |met: bool, name| {
            if met {
                *self
                    .strategies
                    .entry((name, standing.strategy.number()))
                    .or_default() += 1;
            }
        };
        let taken = answer.is_ok();
        match call {
            Call::Combine { .. } => {
                count(taken, "combine taken");
                count(taken && relief > 0, "combine, relief above 0");
                count(taken && relief == 0, "combine, relief 0");
                count(taken && relief < 0, "combine, relief below 0");
                count(answer == Err(Refusal::FreeLots), "combine refused 18");
                count(answer == Err(Refusal::Balance), "combine refused 21");
            }
            Call::Release { .. } => {
                count(taken, "release taken");
                count(taken && relief < 0, "release, relief below 0");
                count(answer == Err(Refusal::FreeLots), "release refused 18");
                count(answer == Err(Refusal::Balance), "release refused 21");
            }
            Call::LegClose { .. } => {
                count(taken, "leg-close taken");
                count(taken && before.deduction == Some(0), "leg-close, reserve 0");
                count(
                    taken && before.deduction > Some(0),
                    "leg-close, reserve above 0",
                );
                count(answer == Err(Refusal::Leg), "leg-close refused 17");
                count(answer == Err(Refusal::Balance), "leg-close refused 21");
            }
            Call::Fill { .. } => count(taken, "leg-close filled"),
            Call::Cancel { .. } => count(taken, "leg-close cancelled"),
            _ => {}
        }
    }

    fn fault(&mut self, file: &DayFile, fault: &Fault) {
        self.faulty += 1;
        let cell = fault_cell(&file.bytes, fault);
        *self.faults.entry(cell).or_default() += 1;
        if let [told, other] = file.alone[..] {
            if told == *fault {
                *self
                    .two_faults
                    .entry((told.number, other.number))
                    .or_default() += 1;
            }
        }
    }
}
