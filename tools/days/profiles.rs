//! A whole day file from a seed. The seed chooses a profile of day first.

use crate::desk::{Desk, Habits};
use crate::flaws::{mutate, mutate_calls, Flaw};
use crate::layout::{self, pack, Gaps};
use crate::listing::{listing, settings, Prices};
use crate::rng::Rng;
use reference::book::{Side, MOST_AMOUNT};
use reference::format::{self, Call, Day, Fault};
use reference::register::ROWS;

#[derive(Clone, Copy, Debug, PartialEq, Eq)]
pub enum Profile {
    Ordinary,
    TinyBalance,
    Rich,
    FullRegisters,
    LastNumbers,
    CashLimit,
    LotLimit,
    Combinations,
    PriceEnds,
    LongestDay,
    OneFault,
    TwoFaults,
    Mutated,
}

impl Profile {
    pub const ALL: [Profile; 13] = [
        Profile::Ordinary,
        Profile::TinyBalance,
        Profile::Rich,
        Profile::FullRegisters,
        Profile::LastNumbers,
        Profile::CashLimit,
        Profile::LotLimit,
        Profile::Combinations,
        Profile::PriceEnds,
        Profile::LongestDay,
        Profile::OneFault,
        Profile::TwoFaults,
        Profile::Mutated,
    ];
}

/// A day file, and the faults that its flaws would have one by one.
pub struct DayFile {
    pub profile: Profile,
    pub bytes: Vec<u8>,
    pub alone: Vec<Fault>,
}

/// The day file of a seed.
pub fn make(seed: u64) -> DayFile {
    let count = Profile::ALL.len() as u64;
    let profile = Profile::ALL[(seed % count) as usize];
    let turn = (seed / count) as usize;
    let mut rng = Rng::new(seed);
    let (bytes, alone) = match profile {
        Profile::OneFault => one_fault(&mut rng, turn),
        Profile::TwoFaults => two_faults(&mut rng, turn),
        Profile::Mutated => {
            let mut bytes = small_file(&mut rng);
            if rng.chance(50) {
                mutate(&mut bytes, &mut rng);
            } else {
                mutate_calls(&mut bytes, &mut rng);
            }
            (bytes, Vec::new())
        }
        Profile::LongestDay => (longest(rng), Vec::new()),
        _ => {
            let day = day(profile, Rng::new(rng.next()));
            let gaps = gaps(&mut rng);
            (pack(&day, &gaps), Vec::new())
        }
    };
    DayFile {
        profile,
        bytes,
        alone,
    }
}

/// No gaps, or gaps of some bytes that are not looked at.
fn gaps(rng: &mut Rng) -> Gaps {
    let mut gaps = Gaps::default();
    if rng.chance(50) {
        for gap in &mut gaps.0 {
            let length = rng.below(3) * rng.below(20);
            gap.extend((0..length).map(|_| rng.next() as u8));
        }
    }
    gaps
}

fn day(profile: Profile, mut rng: Rng) -> Day {
    let habits = Habits::ordinary();
    let few = rng.chance(15);
    let calls = if few {
        rng.below(12)
    } else {
        rng.between(60, 320)
    } as usize;
    let first_number = match profile {
        Profile::LastNumbers if rng.chance(5) => u32::MAX,
        Profile::LastNumbers => u32::MAX - rng.between(0, 110) as u32,
        Profile::FullRegisters if rng.chance(30) => u32::MAX - rng.between(60, 110) as u32,
        _ => rng.pick(&[1, 1, 7, 1_000_000]),
    };
    let (prices, count, balance, calls, habits) = match profile {
        Profile::Ordinary => {
            let count = rng.between(1, 64) as usize;
            (
                Prices::Ordinary,
                count,
                rng.between(0, 20_000_000_000),
                calls,
                habits,
            )
        }
        Profile::TinyBalance => {
            let prices = rng.pick(&[Prices::Ordinary, Prices::Cheap, Prices::Wide]);
            let habits = Habits {
                funded: rng.chance(50),
                edge: 25,
                most_lots: 6,
                ..habits
            };
            (
                prices,
                8,
                rng.pick(&[0, 1, 99, 50_000, 40_000_000]),
                calls,
                habits,
            )
        }
        Profile::Rich => {
            let habits = Habits {
                accounts: 8,
                most_lots: 300,
                wild_limits: 25,
                ..habits
            };
            (
                rng.pick(&[Prices::Ordinary, Prices::Wide]),
                24,
                MOST_AMOUNT,
                calls,
                habits,
            )
        }
        Profile::FullRegisters => {
            let habits = Habits {
                most_standing: 63,
                edge: 2,
                ..habits
            };
            (Prices::Cheap, 10, 50_000_000, 420, habits)
        }
        Profile::LastNumbers => {
            let habits = Habits {
                accounts: 2,
                ..habits
            };
            (Prices::Cheap, 8, 50_000_000, 360, habits)
        }
        Profile::CashLimit => {
            let habits = Habits {
                most_lots: 1_000,
                accounts: 2,
                ..habits
            };
            (
                rng.pick(&[Prices::Ordinary, Prices::Ends]),
                8,
                MOST_AMOUNT,
                200,
                habits,
            )
        }
        Profile::LotLimit => {
            let habits = Habits {
                accounts: 1,
                most_lots: 1_000,
                ..habits
            };
            (Prices::Cheap, 6, 1_000_000_000, 200, habits)
        }
        Profile::Combinations => {
            let weights = [1, 1, 4, 4, 2, 2, 18, 26, 6, 18, 12];
            let prices = rng.pick(&[Prices::Ordinary, Prices::Wide, Prices::Wide, Prices::Cheap]);
            let habits = Habits {
                weights,
                edge: 8,
                most_standing: 50,
                ..habits
            };
            (prices, 16, 5_000_000_000, calls + 80, habits)
        }
        _ => {
            let habits = Habits {
                edge: 6,
                wild_limits: 30,
                accounts: 8,
                ..habits
            };
            (
                Prices::Ends,
                20,
                rng.pick(&[1_000_000, MOST_AMOUNT, MOST_AMOUNT]),
                calls,
                habits,
            )
        }
    };
    let mut settings = settings(&mut rng, first_number, balance);
    if matches!(profile, Profile::FullRegisters | Profile::LastNumbers) {
        settings.permitted = 63;
    }
    let contracts = listing(&mut rng, settings.day, count, prices);
    let mut desk = Desk::new(rng, settings, contracts, calls, habits);
    match profile {
        Profile::FullRegisters => full_registers(&mut desk),
        Profile::LastNumbers => last_numbers(&mut desk),
        Profile::CashLimit => cash_limit(&mut desk),
        Profile::LotLimit => {
            desk.reach_lot_limit(Side::Written);
            desk.reach_lot_limit(Side::Bought);
        }
        Profile::Combinations | Profile::PriceEnds => combinations(&mut desk),
        _ => {}
    }
    desk.trade(calls);
    desk.day
}

fn stock_up(desk: &mut Desk) {
    for _ in 0..4 {
        let lots = desk.rng.between(6, 20) as u32;
        desk.grow_combination(lots);
        let contract = desk.rng.index(desk.day.contracts.len());
        desk.acquire(1, contract, Side::Written, 30);
        desk.acquire(1, contract, Side::Bought, 30);
    }
}

fn full_registers(desk: &mut Desk) {
    stock_up(desk);
    if desk.rng.chance(50) {
        desk.fill_combination_rows();
    }
    for _ in 0..3 {
        desk.fill_order_rows();
        desk.try_each_entry();
        desk.try_each_entry();
        let more = desk.day.calls.len() + 12;
        desk.trade(more);
    }
}

fn last_numbers(desk: &mut Desk) {
    stock_up(desk);
    desk.grow_combination(150);
    if let Some((combination, _)) = desk.book.combinations().iter().last() {
        desk.put_funded(Call::Release {
            combination,
            lots: 149,
        });
    }
    let left = desk.rng.pick(&[0, 0, 4, 64]);
    desk.burn_order_numbers(left);
    if left == 64 {
        desk.fill_order_rows();
        desk.try_each_entry();
        let first = desk.book.orders().iter().map(|(number, _)| number).next();
        if let Some(order) = first {
            desk.put(Call::Cancel { order });
        }
    }
    desk.try_each_entry();
    desk.try_each_entry();
    burn_combination_numbers(desk);
}

/// Makes combinations of one lot and releases them at once until no number
/// is left, or lets them stand where the numbers left would fill the rows.
fn burn_combination_numbers(desk: &mut Desk) {
    let stand = desk.rng.chance(40);
    for _ in 0..130 {
        let next = desk.book.combinations().next();
        let free_rows = ROWS - desk.book.combinations().len();
        let last_rows = next.is_none_or(|next| ((u32::MAX - next) as usize) < free_rows);
        let numbers_left = next.is_some();
        let Some(Call::Combine {
            account,
            strategy,
            first,
            second,
            ..
        }) = desk.sketch(10)
        else {
            break;
        };
        let call = Call::Combine {
            account,
            strategy,
            first,
            second,
            lots: 1,
        };
        match desk.put_funded(call) {
            Some(_) if stand && last_rows => {}
            Some(combination) => {
                desk.put_funded(Call::Release {
                    combination,
                    lots: 1,
                });
            }
            None if numbers_left => {}
            None => break,
        }
    }
    // A full register answers first, the last number once a row is free.
    if let Some(call) = desk.sketch(11) {
        desk.put_funded(call);
    }
    if let Some(call) = desk.sketch(10) {
        desk.put_funded(call);
    }
}

fn cash_limit(desk: &mut Desk) {
    for _ in 0..3 {
        let contract = desk.rng.index(desk.day.contracts.len());
        desk.acquire(1, contract, Side::Bought, 40);
    }
    for _ in 0..6 {
        for wanted in [3, 6] {
            if let Some(call) = desk.sketch(wanted) {
                desk.put_funded(call);
            }
        }
    }
    for _ in 0..8 {
        desk.reach_cash_limit();
        if let Some(call) = desk.sketch(6) {
            desk.put(call);
        }
    }
}

fn combinations(desk: &mut Desk) {
    for _ in 0..8 {
        let lots = desk.rng.between(5, 20) as u32;
        desk.grow_combination(lots);
        if desk.rng.chance(70) {
            desk.leg_close_story();
        }
        let more = desk.day.calls.len() + desk.rng.index(8);
        desk.trade(more);
    }
}

/// A day with as many calls as a file holds, in a file of full size.
fn longest(mut rng: Rng) -> Vec<u8> {
    let count = rng.pick(&[1, 12, 40, 64]);
    let balance = rng.between(0, 50_000_000_000);
    let settings = settings(&mut rng, 1, balance);
    let prices = rng.pick(&[Prices::Ordinary, Prices::Wide, Prices::Cheap]);
    let contracts = listing(&mut rng, settings.day, count, prices);
    let head = layout::HEAD + layout::SETTINGS + count * layout::CONTRACT;
    let calls = (layout::LARGEST - head) / layout::CALL;
    let mut desk = Desk::new(rng, settings, contracts, calls, Habits::ordinary());
    desk.trade(calls);
    let mut gaps = Gaps::default();
    let rest = layout::LARGEST - head - calls * layout::CALL;
    gaps.0[desk.rng.index(4)] = vec![0xEE; rest];
    pack(&desk.day, &gaps)
}

/// A sound file of some contracts and a few calls.
fn small_file(rng: &mut Rng) -> Vec<u8> {
    let count = rng.between(6, 12) as usize;
    let mut settings = settings(rng, 1, 1_000_000_000);
    settings.day = settings.day.max(2);
    // Contracts of one underlying must be there, for one to clash.
    let contracts = loop {
        let drawn = listing(rng, settings.day, count, Prices::Ordinary);
        if drawn
            .windows(2)
            .any(|two| two[0].underlying == two[1].underlying)
        {
            break drawn;
        }
    };
    let calls = rng.between(3, 20) as usize;
    let mut desk = Desk::new(
        Rng::new(rng.next()),
        settings,
        contracts,
        calls,
        Habits::ordinary(),
    );
    desk.trade(calls);
    pack(&desk.day, &gaps(rng))
}

/// Puts a flaw in, with draws that depend on its own seed alone.
fn flawed(base: &[u8], flaws: &[(Flaw, u64)]) -> Vec<u8> {
    let mut bytes = base.to_vec();
    for (flaw, seed) in flaws {
        flaw.apply(&mut bytes, &mut Rng::new(*seed));
    }
    bytes
}

fn one_fault(rng: &mut Rng, turn: usize) -> (Vec<u8>, Vec<Fault>) {
    let all = Flaw::all();
    let base = small_file(rng);
    let bytes = flawed(&base, &[(all[turn % all.len()], rng.next())]);
    (bytes, Vec::new())
}

/// Which fault can be told while which other is there too.
pub fn both_possible(told: u8, other: u8) -> bool {
    match told {
        1 => other >= 2,
        2 => other >= 2,
        3 => other >= 3,
        _ => other >= 4,
    }
}

fn two_faults(rng: &mut Rng, turn: usize) -> (Vec<u8>, Vec<Fault>) {
    let cells: Vec<(u8, u8)> = (1..=7)
        .flat_map(|told| (1..=7).map(move |other| (told, other)))
        .filter(|&(told, other)| both_possible(told, other))
        .collect();
    let wanted = cells[turn % cells.len()];
    let all = Flaw::all();
    let drawn = |rng: &mut Rng, number: u8| {
        let of_number: Vec<Flaw> = all
            .iter()
            .copied()
            .filter(|flaw| flaw.fault() == number)
            .collect();
        (rng.pick(&of_number), rng.next())
    };
    let base = small_file(rng);
    let mut last = base.clone();
    for _ in 0..300 {
        let mut two = [drawn(rng, wanted.0), drawn(rng, wanted.1)];
        let alone = two.map(|flaw| format::read(&flawed(&base, &[flaw])).err());
        two.sort_by_key(|(flaw, _)| flaw.rank());
        last = flawed(&base, &two);
        if let [Some(first), Some(second)] = alone {
            let told = format::read(&last).err();
            if told == Some(first) && first != second && second.number == wanted.1 {
                return (last, vec![first, second]);
            }
        }
    }
    (last, Vec::new())
}
