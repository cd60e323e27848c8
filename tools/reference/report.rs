//! The report of a day.

use crate::book::Book;
use crate::format;
use crate::margin::Hao;

/// The whole report, or the one line of a fault.
pub fn report(bytes: &[u8]) -> Vec<u8> {
    let day = match format::read(bytes) {
        Ok(day) => day,
        Err(fault) => return format!("{fault}\n").into_bytes(),
    };
    // A line of a call is seldom longer than this.
    let mut out = Vec::with_capacity(128 + 48 * day.calls.len());
    let mut book = Book::open(&day.settings, day.contracts);

    text(&mut out, "day ");
    number(&mut out, Hao::from(day.settings.day));
    text(&mut out, " contracts ");
    number(&mut out, book.listing().len() as Hao);
    text(&mut out, " balance ");
    number(&mut out, book.balance());
    out.push(b'\n');

    for (index, call) in day.calls.iter().enumerate() {
        let answer = book.take(call);
        number(&mut out, index as Hao + 1);
        out.push(b' ');
        text(&mut out, call.name());
        match answer {
            Ok(given) => {
                text(&mut out, " taken ");
                number(&mut out, Hao::from(given));
            }
            Err(refusal) => {
                text(&mut out, " refused ");
                number(&mut out, Hao::from(refusal as u8));
            }
        }
        out.push(b' ');
        number(&mut out, book.balance());
        out.push(b'\n');
    }

    text(&mut out, "end");
    for total in [book.balance(), book.held(), book.reserves(), book.cash()] {
        out.push(b' ');
        number(&mut out, total);
    }
    out.push(b'\n');
    out
}

fn text(out: &mut Vec<u8>, text: &str) {
    out.extend_from_slice(text.as_bytes());
}

/// A number in decimal. None of a report is below nought or past 64 bits.
fn number(out: &mut Vec<u8>, value: Hao) {
    let mut rest = u64::try_from(value).expect("a number of a report fits 64 bits");
    let mut digits = [0; 20];
    let mut at = digits.len();
    loop {
        at -= 1;
        digits[at] = b'0' + (rest % 10) as u8;
        rest /= 10;
        if rest == 0 {
            break;
        }
    }
    out.extend_from_slice(&digits[at..]);
}

#[cfg(test)]
mod tests {
    use super::*;

    #[test]
    fn the_example_day() {
        let file = include_bytes!("../../crates/daybook/stdin");
        let expected = include_str!("../../crates/daybook/stdout");
        assert_eq!(
            String::from_utf8(report(file)).expect("plain text"),
            expected
        );
    }

    #[test]
    fn a_faulty_file_has_one_line() {
        assert_eq!(report(&[]), b"fault 1 section 0 record 0 place 0\n");
    }
}
