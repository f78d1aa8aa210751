//! How much of a problem is called.

use crate::kind::Kind;
use crate::random::Random;

#[derive(Clone, Copy)]
pub struct Measure {
    /// The larger budget.
    pub budget: u32,
    /// The most steps that are called on each table; others are left out at random.
    pub steps: usize,
    /// The longest list of calls.
    pub calls: usize,
    /// Whether steps are also held against trying every choice.
    pub try_choices: bool,
}

impl Measure {
    pub fn of(kind: Kind, random: &mut Random) -> Measure {
        let (budgets, steps, calls): ([u32; 3], usize, usize) = match kind {
            Kind::Large => ([3, 20, 60], 40, 60),
            Kind::Limits => ([2, 10, 30], 30, 20),
            Kind::Many => ([3, 20, 60], 30, 20),
            Kind::Suffix | Kind::Templates | Kind::Gaps | Kind::Pairs => ([30, 100, 300], 40, 60),
            Kind::Hard => ([300, 1000, 3000], 100, 60),
            Kind::Late => ([3, 20, 60], 40, 60),
            Kind::Chain => ([1, 2, 3], 20, 3),
            _ => ([1000; 3], 100, 2000),
        };
        Measure { budget: *random.pick(&budgets), steps, calls, try_choices: matches!(kind, Kind::Small | Kind::Suffix | Kind::Gaps) }
    }
}
