//! The refusal that both jobs give: its number, its place and, for a value of a day list, its field.

use std::fmt;

/// The numbers of the check and of the writer, in the order of their stages.
pub const CHECK_NUMBERS: &[u32] = &[
    1, 2, 3, 4, 51, 52, 53, 54, 55, 56, 57, 58, 59, 6, 7, 8, 9, 10, 11,
];
pub const WRITE_NUMBERS: &[u32] = &[21, 22, 23, 24, 25, 51, 52, 53, 54, 55, 56, 57, 58, 27, 28];

#[derive(Clone, Copy, Debug, PartialEq, Eq)]
pub struct Refusal {
    pub number: u32,
    pub place: usize,
    pub field: Option<usize>,
}

impl fmt::Display for Refusal {
    fn fmt(&self, out: &mut fmt::Formatter) -> fmt::Result {
        write!(out, "NO {} {}", self.number, self.place)?;
        match self.field {
            Some(field) => write!(out, " {field}"),
            None => Ok(()),
        }
    }
}

/// Refuses with a number and a place.
pub fn refuse<T>(number: u32, place: usize) -> Result<T, Refusal> {
    Err(Refusal {
        number,
        place,
        field: None,
    })
}

/// Refuses a value of a day list, with the line and the field where it stands, both from 1.
pub fn refuse_value<T>(number: u32, line: usize, field: usize) -> Result<T, Refusal> {
    Err(Refusal {
        number,
        place: line,
        field: Some(field),
    })
}
