//! Refusals: a number and a place.

/// Why an operation stopped, and where.
#[derive(Clone, Copy, Debug, PartialEq, Eq)]
pub struct Refusal {
    pub number: u8,
    pub place: usize,
}

impl Refusal {
    /// A refusal with this number at this place.
    pub fn new(number: u8, place: usize) -> Self {
        Refusal { number, place }
    }

    /// The refusal as one number, the form the C functions answer.
    pub fn code(self) -> u64 {
        65_536 * u64::from(self.number) + self.place as u64
    }
}
