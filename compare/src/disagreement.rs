//! Two answers that are not the same.

use crate::marked::Held;

/// What was called, and what each solver makes of it.
#[derive(Debug)]
pub struct Disagreement {
    pub call: String,
    pub ours: String,
    pub theirs: String,
    /// The first word or byte that differs, if a buffer does.
    pub word: Option<String>,
}

pub type Compared<T> = Result<T, Disagreement>;

/// Refuses two answers that differ, and results or a buffer that do. `refused` is the second solver's refusal.
pub fn same(call: impl Fn() -> String, ours: u8, refused: Option<u8>, results: &[Held], word: Option<String>) -> Compared<()> {
    let theirs = refused.unwrap_or(0);
    if ours == theirs && word.is_none() && results.iter().all(|held| held.ours == held.theirs) {
        return Ok(());
    }
    let (ours, theirs) = (answer(ours, results, |held| held.ours), answer(theirs, results, |held| held.theirs));
    Err(Disagreement { call: call(), ours, theirs, word })
}

/// An answer with the results behind it, neighbours included where they are not the marks that they were.
fn answer(number: u8, results: &[Held], side: impl Fn(&Held) -> [u64; 3]) -> String {
    let mut text = if number == 0 { "accepted".into() } else { format!("refused {number}") };
    for held in results {
        let [before, result, behind] = side(held);
        text += &format!(", {} {result}", held.name);
        if [held.ours[0], held.ours[2]] != [held.theirs[0], held.theirs[2]] {
            text += &format!(" between {before} and {behind}");
        }
    }
    text
}
