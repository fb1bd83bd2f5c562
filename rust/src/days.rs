//! Loan days: those of an instrument on the shelf, those of a team, and which hold which.

use crate::bits;
use crate::plan::MOST_INSTRUMENTS;

/// Days counted from the pool's first, day 0: from is included, to is not.
#[derive(Clone, Copy, Debug, PartialEq, Eq)]
pub struct Days {
    pub from: u16,
    pub to: u16,
}

/// The days where the plan names none.
impl Default for Days {
    fn default() -> Self {
        Days {
            from: 0,
            to: u16::MAX,
        }
    }
}

impl Days {
    /// The days that two operands name, low bytes first, or 17 if from is not below to.
    pub fn read([a, b, c, d]: [u8; 4]) -> Result<Self, u8> {
        let (from, to) = (u16::from_le_bytes([a, b]), u16::from_le_bytes([c, d]));
        if from < to {
            Ok(Days { from, to })
        } else {
            Err(17)
        }
    }

    /// Whether these days lie within others; equal ends are within.
    pub fn within(self, others: Days) -> bool {
        others.from <= self.from && self.to <= others.to
    }
}

/// The shelf days of each instrument that has a SHELF.
#[derive(Clone, Debug, PartialEq, Eq)]
pub struct Shelf([Option<Days>; MOST_INSTRUMENTS]);

impl Default for Shelf {
    fn default() -> Self {
        Shelf([None; MOST_INSTRUMENTS])
    }
}

impl Shelf {
    /// SHELF: names the shelf days of an instrument below `count`, once.
    pub fn name(&mut self, count: usize, item: u8, operands: [u8; 4]) -> Result<(), u8> {
        let place = usize::from(item);
        if place >= count {
            return Err(5);
        }
        let days = Days::read(operands)?;
        if self.0[place].is_some() {
            return Err(6);
        }
        self.0[place] = Some(days);
        Ok(())
    }

    /// The shelf days of an instrument, named or not.
    pub fn days_of(&self, item: usize) -> Days {
        self.0[item].unwrap_or_default()
    }

    /// The instruments below `count` whose shelf days hold these days.
    pub fn usable(&self, count: usize, days: Days) -> u64 {
        let held = |item: &usize| days.within(self.days_of(*item));
        let items = (0..count).filter(held).map(bits::one);
        items.fold(0, |sum, item| sum | item)
    }
}
