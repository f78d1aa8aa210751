//! The kinds of cases, and how often each comes up.

use crate::random::Random;

/// One case in so many is a tree of about as many nodes as the program's budget, and one in twice as many a search that spends that budget. Two in so many are
/// smaller known trees whatever is picked, so that also a short run has a deep one and a bushy one.
pub const COSTLY_EVERY: u64 = 5000;

#[derive(Clone, Copy, PartialEq, Debug)]
pub enum Kind {
    Small,
    Suffix,
    Large,
    Limits,
    Many,
    Templates,
    Hard,
    Late,
    Chain,
    Tree,
    Gaps,
    Pairs,
    Damaged,
    TwiceDamaged,
    DamagedLimits,
    Changed,
    Noise,
    Oversized,
    Endless,
    Full,
}

impl Kind {
    /// In the order above.
    pub const ALL: [Kind; 20] = [
        Kind::Small,
        Kind::Suffix,
        Kind::Large,
        Kind::Limits,
        Kind::Many,
        Kind::Templates,
        Kind::Hard,
        Kind::Late,
        Kind::Chain,
        Kind::Tree,
        Kind::Gaps,
        Kind::Pairs,
        Kind::Damaged,
        Kind::TwiceDamaged,
        Kind::DamagedLimits,
        Kind::Changed,
        Kind::Noise,
        Kind::Oversized,
        Kind::Endless,
        Kind::Full,
    ];

    pub fn name(self) -> &'static str {
        match self {
            Kind::Small => "small",
            Kind::Suffix => "optional suffixes",
            Kind::Large => "large",
            Kind::Limits => "at the limits",
            Kind::Many => "many steps",
            Kind::Templates => "templates",
            Kind::Hard => "hard",
            Kind::Late => "late differences",
            Kind::Chain => "long chains",
            Kind::Tree => "known trees",
            Kind::Gaps => "gaps",
            Kind::Pairs => "gaps and sinks",
            Kind::Damaged => "damaged",
            Kind::TwiceDamaged => "damaged twice",
            Kind::DamagedLimits => "damaged at the limits",
            Kind::Changed => "bytes changed",
            Kind::Noise => "random bytes",
            Kind::Oversized => "larger than any file",
            Kind::Endless => "endless",
            Kind::Full => "full trees",
        }
    }

    /// In how many of 10,000 cases it is picked. The costly kinds are rare, since one of them takes as long as hundreds of small ones.
    fn share(self) -> usize {
        match self {
            Kind::Small => 2980,
            Kind::Suffix => 200,
            Kind::Large => 250,
            Kind::Limits => 70,
            Kind::Many => 100,
            Kind::Templates => 700,
            Kind::Hard => 200,
            Kind::Late => 500,
            Kind::Chain => 30,
            Kind::Tree => 10,
            Kind::Gaps => 200,
            Kind::Pairs => 200,
            Kind::Damaged => 1700,
            Kind::TwiceDamaged => 800,
            Kind::DamagedLimits => 900,
            Kind::Changed => 640,
            Kind::Noise => 400,
            Kind::Oversized => 120,
            Kind::Endless | Kind::Full => 0,
        }
    }

    /// The kind of the case with this index.
    pub fn of(index: u64, random: &mut Random) -> Kind {
        match (index % COSTLY_EVERY, index / COSTLY_EVERY % 2) {
            (1000, _) => Kind::Full,
            (2000 | 4000, _) => Kind::Tree,
            (3000, 0) => Kind::Endless,
            _ => random.by_share(&Kind::ALL, Kind::share),
        }
    }
}

#[cfg(test)]
mod tests {
    use super::*;

    #[test]
    fn kinds_are_in_order() {
        for (at, kind) in Kind::ALL.into_iter().enumerate() {
            assert_eq!(kind as usize, at);
        }
    }

    #[test]
    fn shares_are_of_ten_thousand() {
        assert_eq!(Kind::ALL.map(Kind::share).iter().sum::<usize>(), 10_000);
    }
}
