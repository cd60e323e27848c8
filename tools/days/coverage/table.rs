//! The printed tables.

use super::faults::fault_cells;
use super::{Tally, BY_STRATEGY, EDGES, IMPOSSIBLE, REFUSALS};
use crate::profiles::both_possible;
use crate::states::STATES;
use reference::format::CALL_NAMES;
use reference::margin::Strategy;
use std::fmt::Write;

/// A count, or a word where a cell that can be met was not.
fn cell(count: Option<&u64>) -> String {
    count.map_or("MISSING".to_string(), u64::to_string)
}

impl Tally {
    pub fn print(&self) -> String {
        let mut out = String::new();
        let missing = self.print_all(&mut out);
        match missing {
            Ok(0) => out.push_str("\nNo cell is missing.\n"),
            Ok(count) => out.push_str(&format!("\n{count} cells are MISSING.\n")),
            Err(error) => out.push_str(&error.to_string()),
        }
        out
    }

    fn print_all(&self, out: &mut String) -> Result<usize, std::fmt::Error> {
        writeln!(
            out,
            "{} days, {} of them faulty, {} calls",
            self.days, self.faulty, self.calls
        )?;
        writeln!(out, "\nprofiles: days and calls")?;
        for (name, (days, calls)) in &self.profiles {
            writeln!(out, "  {name:16} {days:6} {calls:9}")?;
        }

        writeln!(out, "\ncalls and their answers")?;
        write!(out, "  {:11}", "")?;
        for heading in std::iter::once("taken".to_string()).chain((10..=24).map(|n| n.to_string()))
        {
            write!(out, "{heading:>8}")?;
        }
        writeln!(out)?;
        for call in 1..=11 {
            write!(out, "  {:11}", CALL_NAMES[usize::from(call) - 1])?;
            write!(out, "{:>8}", cell(self.outcomes.get(&(call, 0))))?;
            for (refusal, calls) in REFUSALS {
                let count = self.outcomes.get(&(call, refusal));
                let shown = if calls.contains(&call) {
                    cell(count)
                } else {
                    count.map_or(".".to_string(), |count| format!("{count}!"))
                };
                write!(out, "{shown:>8}")?;
            }
            writeln!(out)?;
        }

        writeln!(out, "\nexact edges")?;
        write!(out, "  {:24}", "")?;
        for name in CALL_NAMES {
            write!(out, "{name:>11}")?;
        }
        writeln!(out)?;
        for (edge, calls) in EDGES {
            write!(out, "  {edge:24}")?;
            for call in 1..=11 {
                let count = self.edges.get(&(edge, call));
                let shown = if calls.contains(&call) {
                    cell(count)
                } else {
                    ".".to_string()
                };
                write!(out, "{shown:>11}")?;
            }
            writeln!(out)?;
        }

        writeln!(out, "\nstrategies")?;
        write!(out, "  {:28}", "")?;
        for strategy in Strategy::ALL {
            write!(out, "{:>9}", strategy.number())?;
        }
        writeln!(out)?;
        for (name, always) in BY_STRATEGY {
            write!(out, "  {name:28}")?;
            for strategy in Strategy::ALL {
                let none = matches!(strategy, Strategy::BullCallSpread | Strategy::BearPutSpread);
                let count = self.strategies.get(&(name, strategy.number()));
                let shown = if always || !none {
                    cell(count)
                } else {
                    ".".to_string()
                };
                write!(out, "{shown:>9}")?;
            }
            writeln!(out)?;
        }

        writeln!(out, "\nfaults")?;
        for name in fault_cells() {
            writeln!(out, "  {name:44} {:>8}", cell(self.faults.get(&name)))?;
        }

        writeln!(out, "\ntwo faults: the one told (down), the other (across)")?;
        write!(out, "  ")?;
        for other in 2..=7 {
            write!(out, "{other:>9}")?;
        }
        writeln!(out)?;
        for told in 1..=7 {
            write!(out, "  {told}")?;
            for other in 2..=7 {
                let count = self.two_faults.get(&(told, other));
                let shown = if both_possible(told, other) {
                    cell(count)
                } else {
                    ".".to_string()
                };
                write!(out, "{shown:>9}")?;
            }
            writeln!(out)?;
        }

        writeln!(out, "\ndeep states")?;
        for name in STATES {
            writeln!(out, "  {name:54} {:>8}", cell(self.states.get(name)))?;
        }

        writeln!(out, "\nimpossible")?;
        for (name, reason) in IMPOSSIBLE {
            writeln!(out, "  {name}: {reason}")?;
        }
        Ok(out.matches("MISSING").count())
    }
}
