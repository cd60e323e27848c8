//! Numbered entries: 64 of them, under numbers that rise and are given once.

use crate::book::Refusal;

pub const ROWS: usize = 64;

/// Entries stand in the order of their numbers, which is the order of entry.
pub struct Register<T> {
    entries: Vec<(u32, T)>,
    /// The next number, or none where the last one was given.
    next: Option<u32>,
}

impl<T> Register<T> {
    pub fn starting_at(first_number: u32) -> Register<T> {
        Register {
            entries: Vec::with_capacity(ROWS),
            next: Some(first_number),
        }
    }

    /// Where the entry under a number stands.
    pub fn find(&self, number: u32) -> Result<usize, Refusal> {
        self.entries
            .binary_search_by_key(&number, |entry| entry.0)
            .map_err(|_| Refusal::Number)
    }

    pub fn at(&self, index: usize) -> &T {
        &self.entries[index].1
    }

    pub fn at_mut(&mut self, index: usize) -> &mut T {
        &mut self.entries[index].1
    }

    pub fn add(&mut self, entry: T) -> Result<u32, Refusal> {
        if self.entries.len() == ROWS {
            return Err(Refusal::NoRow);
        }
        let number = self.next.ok_or(Refusal::LastNumber)?;
        self.next = number.checked_add(1);
        self.entries.push((number, entry));
        Ok(number)
    }

    pub fn remove(&mut self, index: usize) {
        self.entries.remove(index);
    }

    pub fn next(&self) -> Option<u32> {
        self.next
    }

    pub fn iter(&self) -> impl Iterator<Item = (u32, &T)> {
        self.entries.iter().map(|(number, entry)| (*number, entry))
    }

    pub fn len(&self) -> usize {
        self.entries.len()
    }

    pub fn is_empty(&self) -> bool {
        self.entries.is_empty()
    }
}

#[cfg(test)]
mod tests {
    use super::*;

    #[test]
    fn a_full_register_refuses_before_the_last_number_does() {
        let mut register = Register::starting_at(u32::MAX - 63);
        for _ in 0..ROWS {
            register.add(()).expect("room");
        }
        assert_eq!(register.next(), None);
        assert_eq!(register.add(()), Err(Refusal::NoRow));
        let last = register.find(u32::MAX).expect("the last number stands");
        register.remove(last);
        assert_eq!(register.add(()), Err(Refusal::LastNumber));
        assert_eq!(register.find(u32::MAX), Err(Refusal::Number));
        assert_eq!(register.find(0), Err(Refusal::Number));
    }
}
