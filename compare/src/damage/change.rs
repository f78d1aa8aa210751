//! A damage, and what it is done to.

use crate::draft::{Draft, Laid};
use crate::random::Random;

/// The most constraints of a file.
pub const MOST_RECORDS: usize = 64;

pub type On<T> = Box<dyn Fn(&mut T, &mut Random) + Send + Sync>;

/// What a damage is done to: the description, whose counts and distances then fit; the fields of the trailer; or the bytes.
pub enum Change {
    Draft(On<Draft>),
    Laid(On<Laid>),
    Bytes(On<Vec<u8>>),
}

/// A change after which this refusal applies.
pub struct Damage {
    pub refusal: u8,
    pub change: Change,
    /// Whether it can be done to a problem. At the limit of a count some cannot: one more would be another refusal, or there is no such bit.
    pub fits: fn(&Draft) -> bool,
}

impl Damage {
    /// Only where the problem is such.
    pub fn where_it(self, fits: fn(&Draft) -> bool) -> Damage {
        Damage { fits, ..self }
    }
}

pub fn on_draft(refusal: u8, change: impl Fn(&mut Draft, &mut Random) + Send + Sync + 'static) -> Damage {
    Damage { refusal, change: Change::Draft(Box::new(change)), fits: |_| true }
}

pub fn on_laid(refusal: u8, change: impl Fn(&mut Laid, &mut Random) + Send + Sync + 'static) -> Damage {
    Damage { refusal, change: Change::Laid(Box::new(change)), fits: |_| true }
}

pub fn on_bytes(refusal: u8, change: impl Fn(&mut Vec<u8>, &mut Random) + Send + Sync + 'static) -> Damage {
    Damage { refusal, change: Change::Bytes(Box::new(change)), fits: |_| true }
}
