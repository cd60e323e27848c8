//! The states of a day's settings, contracts and layout.

use super::{count_if, Count};
use crate::layout;
use reference::format::{Base, Contract, Day, Kind, Right};
use reference::margin::{standard_leg, Hao};

/// The states of a day as a whole.
pub fn watch_day(day: &Day, bytes: &[u8], count: Count) {
    let settings = &day.settings;
    count_if(count, day.calls.is_empty(), "day: no calls");
    count_if(count, day.contracts.len() == 1, "day: one contract");
    count_if(count, day.contracts.len() == 64, "day: 64 contracts");
    count_if(count, bytes.len() == 60_000, "day: file of 60,000 bytes");
    let mut gaps = Vec::new();
    let mut end = layout::HEAD;
    for number in 1..=3 {
        let (start, length) = layout::section(bytes, number);
        gaps.push(start - end);
        end = start + length;
    }
    gaps.push(bytes.len() - end);
    count_if(
        count,
        gaps.iter().all(|&gap| gap == 0),
        "day: sections touch",
    );
    count_if(
        count,
        gaps.iter().all(|&gap| gap > 0),
        "day: a gap before each section and behind",
    );
    let raised = (settings.first_raise > 0, settings.second_raise > 0);
    count(match (settings.scale, raised) {
        (Base::Standard, (false, false)) => "day: standard scale, no raise",
        (Base::Standard, (true, false)) => "day: standard scale, first raise alone",
        (Base::Standard, (false, true)) => "day: standard scale, second raise alone",
        (Base::Standard, (true, true)) => "day: standard scale, both raises",
        (Base::Listed, (false, false)) => "day: listed scale, no raise",
        (Base::Listed, (true, false)) => "day: listed scale, first raise alone",
        (Base::Listed, (false, true)) => "day: listed scale, second raise alone",
        (Base::Listed, (true, true)) => "day: listed scale, both raises",
    });
    let full_raises = settings.first_raise == 100 && settings.second_raise == 100;
    count_if(count, full_raises, "day: a raise of 100 on one of 100");
    count(match settings.permitted {
        0 => "day: permitted none",
        63 => "day: permitted all",
        _ => "day: permitted some",
    });
    let expires = day
        .contracts
        .iter()
        .any(|contract| contract.expiry == settings.day);
    count_if(count, expires, "day: expiry on the day");
    count_if(
        count,
        settings.first_number == u32::MAX,
        "day: first number 4,294,967,295",
    );
    count_if(
        count,
        day.contracts[0].code == 10_000_000,
        "contract: first code 10,000,000",
    );
    let last = day.contracts[day.contracts.len() - 1].code;
    count_if(count, last == 99_999_999, "contract: last code 99,999,999");
    for contract in &day.contracts {
        watch_contract(contract, count);
    }
}

fn watch_contract(contract: &Contract, count: Count) {
    for (met, name) in [
        (contract.unit == 1, "contract: unit 1"),
        (contract.unit == 1_000_000, "contract: unit 1,000,000"),
        (contract.strike == 1, "contract: strike 1"),
        (contract.strike == 10_000_000, "contract: strike 10,000,000"),
        (contract.settlement == 1, "contract: settlement 1"),
        (
            contract.settlement == 10_000_000,
            "contract: settlement 10,000,000",
        ),
        (contract.close == 1, "contract: close 1"),
        (contract.close == 10_000_000, "contract: close 10,000,000"),
        (contract.listed_margin == 0, "contract: listed margin 0"),
        (
            contract.listed_margin == u32::MAX,
            "contract: listed margin 4,294,967,295",
        ),
    ] {
        count_if(count, met, name);
    }
    let [close, strike] = [contract.close, contract.strike].map(Hao::from);
    let (a, b) = match (contract.kind, contract.right) {
        (Kind::Fund, _) => (12, 7),
        (_, Right::Call) => (21, 10),
        (_, Right::Put) => (19, 10),
    };
    let (out, floor) = match contract.right {
        Right::Call => ((strike - close).max(0), b * close),
        Right::Put => ((close - strike).max(0), b * strike),
    };
    let above = a * close - 100 * out > floor;
    let per_unit = 100 * Hao::from(contract.settlement) + (a * close - 100 * out).max(floor);
    let held_at_strike = contract.right == Right::Put && per_unit > 100 * strike;
    match contract.right {
        _ if held_at_strike => count("margin: put held at its strike"),
        Right::Call if !above => count("margin: call at the floor"),
        Right::Put if !above => count("margin: put at the floor"),
        Right::Call if out > 0 => count("margin: call, out of the money, above the floor"),
        Right::Put if out > 0 => count("margin: put, out of the money, above the floor"),
        _ => {}
    }
    let whole = per_unit * Hao::from(contract.unit);
    let half = whole % 10_000 == 5_000 && standard_leg(contract) > whole / 100;
    count_if(
        count,
        half && !held_at_strike,
        "margin: half a fen rounded up",
    );
}
