//! The kinds of texts, and how often each comes up.

use crate::random::Random;

#[derive(Clone, Copy, PartialEq, Debug)]
pub enum Kind {
    Small,
    Long,
    Deep,
    Wide,
    States,
    Symbols,
    Rooms,
    Broken,
    TooLong,
    Twice,
    Changed,
    Noise,
    Byte,
}

impl Kind {
    /// In the order above.
    pub const ALL: [Kind; 13] = [
        Kind::Small,
        Kind::Long,
        Kind::Deep,
        Kind::Wide,
        Kind::States,
        Kind::Symbols,
        Kind::Rooms,
        Kind::Broken,
        Kind::TooLong,
        Kind::Twice,
        Kind::Changed,
        Kind::Noise,
        Kind::Byte,
    ];

    pub fn name(self) -> &'static str {
        match self {
            Kind::Small => "small",
            Kind::Long => "long",
            Kind::Deep => "deep",
            Kind::Wide => "wide",
            Kind::States => "many states",
            Kind::Symbols => "odd numbers of symbols",
            Kind::Rooms => "odd buffers",
            Kind::Broken => "broken",
            Kind::TooLong => "too long",
            Kind::Twice => "two faults",
            Kind::Changed => "bytes changed",
            Kind::Noise => "random bytes",
            Kind::Byte => "one byte",
        }
    }

    /// In how many of 100 texts it is picked.
    fn share(self) -> usize {
        match self {
            Kind::Small => 22,
            Kind::Long => 9,
            Kind::Deep => 5,
            Kind::Wide => 5,
            Kind::States => 14,
            Kind::Symbols => 11,
            Kind::Rooms => 9,
            Kind::Broken => 10,
            Kind::TooLong => 3,
            Kind::Twice => 6,
            Kind::Changed => 3,
            Kind::Noise => 3,
            Kind::Byte => 0,
        }
    }

    /// The kind of the text with this index. The first ones have each byte that there is by itself.
    pub fn of(index: u64, random: &mut Random) -> Kind {
        if index <= u8::MAX.into() {
            return Kind::Byte;
        }
        random.by_share(&Kind::ALL, Kind::share)
    }
}

#[cfg(test)]
mod tests {
    use super::*;

    #[test]
    fn kinds_are_in_order() {
        for (at, kind) in Kind::ALL.into_iter().enumerate() {
            assert_eq!(kind as usize, at);
        }
    }

    #[test]
    fn shares_are_of_a_hundred() {
        assert_eq!(Kind::ALL.map(Kind::share).iter().sum::<usize>(), 100);
    }
}
