//! An independent reference of the margin book, written from the rules alone.
//! It shares no line with the crates that it is held against.

pub mod book;
pub mod format;
pub mod margin;
pub mod register;
pub mod report;
