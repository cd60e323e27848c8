//! Faults by number, section and field.

use crate::layout::{self, get, section, unused, Field};
use reference::format::{Fault, CALL_NAMES};

/// A fault's number, section and field, and on which side it lies.
pub fn fault_cell(bytes: &[u8], fault: &Fault) -> String {
    let in_record = |width: usize, fields: &'static [Field]| {
        let (start, _) = section(bytes, fault.section.into());
        let record = start + (fault.record - 1) * width;
        let at = fault.place - record;
        let field = fields.iter().find(|field| field.at == at);
        (record, *field.expect("a fault of a record lies at a field"))
    };
    match (fault.number, fault.section) {
        (1, _) if bytes.len() < layout::HEAD => "1 file too short".to_string(),
        (1, _) => "1 file too long".to_string(),
        (2, number) => {
            let (start, length) = section(bytes, number.into());
            let cause = if start < layout::HEAD {
                "before 24"
            } else if start + length > u32::MAX as usize {
                "past 2^32"
            } else if start + length > bytes.len() {
                "past the file"
            } else {
                "before the end of the one before"
            };
            format!("2 pair {number} {cause}")
        }
        (3, number) => {
            let (_, length) = section(bytes, number.into());
            let cause = match (number, length) {
                (1, 0..=19) => "under 20",
                (1, _) => "over 20",
                (2, 0) => "none",
                (2, length) if length % 32 == 0 => "over 64 records",
                (_, _) => "not whole records",
            };
            format!("3 length {number} {cause}")
        }
        (4, number) => {
            let (record, field) = match number {
                1 => in_record(layout::SETTINGS, &layout::SETTINGS_FIELDS),
                2 => in_record(layout::CONTRACT, &layout::CONTRACT_FIELDS),
                _ => in_record(layout::CALL, &layout::CALL_FIELDS),
            };
            let over = get(bytes, record + field.at, field.bytes) > field.high;
            let side = if over { "over" } else { "under" };
            format!("4 section {number} {} {side}", field.name)
        }
        (5, _) => {
            let (record, _) = in_record(layout::CONTRACT, &layout::CONTRACT_FIELDS);
            let equal = get(bytes, record, 4) == get(bytes, record - layout::CONTRACT, 4);
            format!("5 code {}", if equal { "equal" } else { "below" })
        }
        (6, _) => {
            let (record, _) = in_record(layout::CONTRACT, &layout::CONTRACT_FIELDS);
            let (start, _) = section(bytes, 2);
            let earlier = (start..record)
                .step_by(layout::CONTRACT)
                .find(|&earlier| get(bytes, earlier + 4, 4) == get(bytes, record + 4, 4))
                .expect("an earlier contract has the underlying");
            let kind = bytes[earlier + 11] != bytes[record + 11];
            let close = get(bytes, earlier + 24, 4) != get(bytes, record + 24, 4);
            match (kind, close) {
                (true, true) => "6 another kind and close".to_string(),
                (true, false) => "6 another kind".to_string(),
                _ => "6 another close".to_string(),
            }
        }
        (7, 1) => "7 settings spare".to_string(),
        _ => {
            let (record, field) = in_record(layout::CALL, &layout::CALL_FIELDS);
            unused_cell(bytes[record], &field)
        }
    }
}

fn unused_cell(call: u8, field: &Field) -> String {
    format!("7 {} {}", CALL_NAMES[usize::from(call) - 1], field.name)
}

/// Every cell of a fault that a file can have.
pub fn fault_cells() -> Vec<String> {
    let mut cells = vec![
        "1 file too short".to_string(),
        "1 file too long".to_string(),
    ];
    for number in 1..=3 {
        cells.push(format!("2 pair {number} before 24"));
        if number > 1 {
            cells.push(format!("2 pair {number} before the end of the one before"));
        }
        cells.push(format!("2 pair {number} past the file"));
        cells.push(format!("2 pair {number} past 2^32"));
    }
    for cause in [
        "1 under 20",
        "1 over 20",
        "2 none",
        "2 not whole records",
        "2 over 64 records",
        "3 not whole records",
    ] {
        cells.push(format!("3 length {cause}"));
    }
    for (number, fields) in [
        (1, &layout::SETTINGS_FIELDS[..7]),
        (2, &layout::CONTRACT_FIELDS[..]),
        (3, &layout::CALL_FIELDS[..1]),
    ] {
        for field in fields {
            if field.low > 0 {
                cells.push(format!("4 section {number} {} under", field.name));
            }
            if field.high < field.widest() {
                cells.push(format!("4 section {number} {} over", field.name));
            }
        }
    }
    cells.extend(
        [
            "5 code equal",
            "5 code below",
            "6 another kind",
            "6 another close",
        ]
        .map(String::from),
    );
    cells.push("7 settings spare".to_string());
    for call in 1..=11 {
        for field in layout::CALL_FIELDS {
            if unused(call, field.at) {
                cells.push(unused_cell(call, &field));
            }
        }
    }
    cells
}
