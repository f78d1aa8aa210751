//! Patterns as text: refusals and bytes worked out by hand, and acceptance
//! held against the automaton.

mod common;
use common::*;
use second::enumerate::all_strings;
use second::file::Problem;
use second::pattern::{automaton_accepts, compile, state_after, Part, Pattern};
use std::collections::{BTreeMap, BTreeSet};

const LETTERS: &[u8; 39] = b"0123456789.abcdefghijklmnopqrstuvwxyz-/";

/// Room for any automaton.
const ENOUGH: usize = 5 + 32 * 64;

/// Whatever the room.
fn refused(text: &str, k: usize, number: u8) {
    for room in [0, ENOUGH, usize::MAX] {
        assert_eq!(
            compile(text.as_bytes(), k, room),
            Err(number),
            "{text} {k} {room}"
        );
    }
}

/// With the least room and with more; and 17 with one byte less.
fn gives(text: &str, k: usize, accepting: u32, next: &[&[u8]]) {
    assert!(next.iter().all(|row| row.len() == k));
    let bytes = automaton(accepting, next);
    let least = 5 + next.len() * k;
    for room in [least, least + 1, ENOUGH, usize::MAX] {
        assert_eq!(
            compile(text.as_bytes(), k, room),
            Ok(bytes.clone()),
            "{text} {k} {room}"
        );
    }
    for room in [0, 1, 5, least - 1] {
        assert_eq!(
            compile(text.as_bytes(), k, room),
            Err(17),
            "{text} {k} {room}"
        );
    }
}

/// Every word of at most `longest` symbols below k, shorter ones first, then
/// by the first differing symbol.
fn every_word(k: usize, longest: usize) -> Vec<Vec<u8>> {
    let lengths: Vec<usize> = (0..=longest).collect();
    let symbols: Vec<usize> = (0..k).collect();
    all_strings(&row(&lengths, &vec![&symbols[..]; longest]))
}

#[test]
fn misplaced_stars() {
    for text in [
        "*", "**", "*0", "|*", "0|*", "0||*", "(*", "(*)", "(*0)", "0(*)", "(|*)",
    ] {
        refused(text, 1, 14);
    }
    for text in [
        "0**", "0***", "0*0**", "()**", "(0)**", "(0**)", "0*|*", "(0*)**", "((0)**)",
    ] {
        refused(text, 1, 14);
    }
    for text in [
        "0*", "0*0*", "()*", "(0)*", "(0*)*", "((0*)*)*", "0|0*", "(|)*", "0*()*|",
    ] {
        assert!(compile(text.as_bytes(), 1, ENOUGH).is_ok(), "{text}");
    }
}

#[test]
fn misplaced_brackets() {
    for text in [
        ")", "0)", "())", "(0))", ")(", "0)(0", "|)", "0*)", "(0)|)", "()0)",
    ] {
        refused(text, 1, 14);
    }
    for text in [
        "(", "(0", "0(", "(()", "((0)", "(|", "(0|", "(0*", "()(", "(0)*(",
    ] {
        refused(text, 1, 14);
    }
    for text in [
        "()", "(())", "()()", "(0)", "((0))", "(0)(0)", "(|)|(|)", "(0|)0",
    ] {
        assert!(compile(text.as_bytes(), 1, ENOUGH).is_ok(), "{text}");
    }
}

#[test]
fn bytes_that_are_no_letters() {
    for byte in 0..=255 {
        let right = LETTERS.contains(&byte) || byte == b'|';
        let texts = [
            vec![byte],
            vec![b'0', byte],
            vec![byte, b'0'],
            vec![b'|', byte],
        ];
        assert_eq!(compile(&texts[0], 64, ENOUGH) != Err(14), right, "{byte}");
        if !b"()|*".contains(&byte) {
            for text in texts {
                assert_eq!(compile(&text, 64, ENOUGH) != Err(14), right, "{byte}");
            }
        }
    }
    for text in [
        "A", "Z", " ", "0 1", "0\n", "0+", "0?", "[0]", "^0", "\\", "\u{e9}",
    ] {
        refused(text, 64, 14);
    }
}

#[test]
fn texts_of_63_and_64_bytes() {
    // Empty branches all of them.
    gives(&"|".repeat(63), 1, 0b1, &[&[1], &[1]]);
    refused(&"|".repeat(64), 1, 14);

    // After any number of zeros, but for none, each letter may be the last.
    let stars = "0*".repeat(31);
    gives(&(stars.clone() + "0"), 1, 0b10, &[&[1], &[1]]);
    refused(&(stars + "0*"), 1, 14);

    // As deep as can be: the same as 0, and as nothing.
    let deep = |depth: usize, inner: &str| "(".repeat(depth) + inner + &")".repeat(depth);
    gives(&deep(31, "0"), 1, 0b10, &[&[1], &[2], &[2]]);
    gives(&deep(31, ""), 1, 0b1, &[&[1], &[1]]);
    refused(&deep(31, "00"), 1, 14);
    refused(&deep(32, ""), 1, 14);
    refused(&("(".repeat(32) + &")".repeat(31)), 1, 14);
    refused(&("(".repeat(31) + &")".repeat(32)), 1, 14);

    // Stars upon stars, in 61 bytes.
    let starred = "(".repeat(20) + "0" + &")*".repeat(20);
    gives(&starred, 1, 0b11, &[&[1], &[1]]);
    let text = starred + "0*";
    assert_eq!(text.len(), 63);
    gives(&text, 1, 0b11, &[&[1], &[1]]);
    refused(&(text + "0"), 1, 14);

    for text in [[b'('; 64], [b'*'; 64], [b'0'; 64], [0; 64], [255; 64]] {
        assert_eq!(compile(&text, 1, ENOUGH), Err(14));
    }
    assert_eq!(compile(&[b'|'; 1000], 1, ENOUGH), Err(14));
}

#[test]
fn letters_and_their_symbols() {
    for (symbol, &letter) in LETTERS.iter().enumerate() {
        let text = std::str::from_utf8(std::slice::from_ref(&letter)).unwrap();
        refused(text, symbol, 15);
        if symbol == 0 {
            // 1 is the letter, 2 the empty set.
            let mut first = [2; 39];
            first[0] = 1;
            gives(text, 39, 0b10, &[&first, &[2; 39], &[2; 39]]);
        } else {
            // Symbol 0 comes first, so 1 is the empty set and 2 the letter.
            let mut first = [1; 39];
            first[symbol] = 2;
            gives(text, 39, 0b100, &[&first, &[1; 39], &[1; 39]]);
        }
        let bytes = compile(text.as_bytes(), symbol + 1, ENOUGH).unwrap();
        for word in 0..=symbol as u8 {
            let accepted = automaton_accepts(&bytes, symbol + 1, &[word]);
            assert_eq!(accepted, usize::from(word) == symbol, "{text} {word}");
        }
    }
}

#[test]
fn numbers_of_symbols() {
    for text in [
        "/",
        "0/",
        "/0",
        "0|/",
        "/|0",
        "(0/)*",
        "0(1(2|/)*)",
        "0*|1*|/*",
    ] {
        for k in [1, 2, 11, 37, 38] {
            refused(text, k, 15);
        }
        for k in [39, 40, 63, 64] {
            assert!(compile(text.as_bytes(), k, ENOUGH).is_ok(), "{text} {k}");
        }
    }
    refused("-", 37, 15);
    assert!(compile(b"-", 38, ENOUGH).is_ok());
    for text in ["", "|", "()*", "0", "/"] {
        for k in [0, 65, 66, 256, 257, 320, 1 << 32, usize::MAX] {
            refused(text, k, 15);
        }
    }
    for k in [1, 2, 63, 64] {
        gives("", k, 0b1, &[&vec![1; k], &vec![1; k]]);
    }
}

#[test]
fn more_than_32_states() {
    // The start, a state for each letter, the empty set: n + 2 states.
    let rows: Vec<[u8; 1]> = (0..32).map(|state| [u8::min(31, state + 1)]).collect();
    let rows: Vec<&[u8]> = rows.iter().map(|row| &row[..]).collect();
    gives(&"0".repeat(30), 1, 1 << 30, &rows);
    for n in [31, 32, 61, 62, 63] {
        refused(&"0".repeat(n), 1, 16);
        refused(&"0".repeat(n), 64, 16);
    }

    // A star at the end, and with one symbol nothing leads to the empty set:
    // the start and 31 letters, of which the last two accept.
    gives(&("0".repeat(31) + "*"), 1, 3 << 30, &rows);
    refused(&("0".repeat(32) + "*"), 1, 16);
    // With another symbol there is the empty set as well.
    refused(&("0".repeat(31) + "*"), 2, 16);
    assert!(compile(("0".repeat(30) + "*").as_bytes(), 2, ENOUGH).is_ok());

    // The sets follow the last symbols, 0 where there were none: whether each
    // of the last five was a 1. That makes 32, and the start.
    let text = String::from("(0|1)*1(0|1)(0|1)(0|1)");
    assert_eq!(compile(text.as_bytes(), 2, ENOUGH).unwrap()[0], 17);
    refused(&(text + "(0|1)"), 2, 16);
}

#[test]
fn which_refusal_comes_first() {
    let long = |symbol: &str| symbol.repeat(40);
    // 14 before 15, 16 and 17; `refused` lends no room as well.
    for k in [0, 1, 65, usize::MAX] {
        refused("*", k, 14);
        refused("/**", k, 14);
        refused("(/", k, 14);
        refused(&(long("1") + ")"), k, 14);
        refused(&"1".repeat(64), k, 14);
        refused(&"|".repeat(64), k, 14);
    }
    // 15 before 16 and 17.
    refused(&long("1"), 0, 15);
    refused(&long("1"), 1, 15);
    refused(&long("1"), 65, 15);
    refused(&(long("0") + "1"), 1, 15);
    refused("1", 1, 15);
    refused("", 0, 15);
    refused("", 65, 15);
    // 16 before 17.
    refused(&long("1"), 2, 16);
}

#[test]
fn the_bytes_themselves() {
    assert_eq!(compile(b"", 1, 7), Ok(vec![2, 1, 0, 0, 0, 1, 1]));
    assert_eq!(compile(b"0*", 1, 7), Ok(vec![2, 3, 0, 0, 0, 1, 1]));
    assert_eq!(compile(b"0|0", 1, 8), Ok(vec![3, 2, 0, 0, 0, 1, 2, 2]));
    // Start, A = {0}, the empty set, B = {1}.
    let wanted = vec![4, 8, 0, 0, 0, 1, 2, 2, 3, 2, 2, 2, 2];
    assert_eq!(compile(b"01", 2, 13), Ok(wanted));
    // Accepting states in each of the four bytes.
    let text = "0(|0000000(|00000000(|00000000)))";
    let bytes = compile(text.as_bytes(), 1, ENOUGH).unwrap();
    // 24 letters in a row; a reading may stop after 1, 8, 16 and 24 of them.
    assert_eq!(bytes[..5], [26, 2, 1, 1, 1]);
}

#[test]
fn small_patterns_by_hand() {
    // The letters are A, B, C and so on in the order of the text.
    for text in ["", "()", "()*", "|", "||", "(|)*", "(())*()", "()|()"] {
        gives(text, 1, 0b1, &[&[1], &[1]]);
        gives(text, 2, 0b1, &[&[1, 1], &[1, 1]]);
    }
    for text in [
        "0*",
        "(0*)*",
        "(()|0)*",
        "(0|)*",
        "((0))*",
        "0*|",
        "(()0*())*",
    ] {
        // {A}, again and again.
        gives(text, 1, 0b11, &[&[1], &[1]]);
        // {A}, empty.
        gives(text, 2, 0b11, &[&[1, 2], &[1, 2], &[2, 2]]);
    }
    for text in ["0|0", "(0)|0", "0|(0|0)"] {
        // All of them, empty.
        gives(text, 1, 0b10, &[&[1], &[2], &[2]]);
    }
    // {A,B}, again and again.
    gives("0*0*", 1, 0b11, &[&[1], &[1]]);
    // {A}, {B}, empty.
    gives("0(0|)", 1, 0b110, &[&[1], &[2], &[3], &[3]]);
    gives("00", 1, 0b100, &[&[1], &[2], &[3], &[3]]);
    // {A}, empty: what k adds leads to the empty set.
    gives("0", 3, 0b10, &[&[1, 2, 2], &[2, 2, 2], &[2, 2, 2]]);
    // {A}, {B}: the empty set is not reached.
    gives("(0|1)*", 2, 0b111, &[&[1, 2], &[1, 2], &[1, 2]]);
    gives("((0*1*)*)*", 2, 0b111, &[&[1, 2], &[1, 2], &[1, 2]]);
    // {A}, {B,C}.
    gives("(0|1)*1", 2, 0b100, &[&[1, 2], &[1, 2], &[1, 2]]);
    // {A}, empty, {B}: the start is a state of its own.
    gives("(01)*", 2, 0b1001, &[&[1, 2], &[2, 3], &[2, 2], &[1, 2]]);
    // Empty, {A}, {B}.
    gives("(10)*", 2, 0b1001, &[&[1, 2], &[1, 1], &[3, 1], &[1, 2]]);
    // {A,C}, empty, {B}, {D}: no states are merged.
    gives(
        "00|01",
        2,
        0b11000,
        &[&[1, 2], &[3, 4], &[2, 2], &[2, 2], &[2, 2]],
    );
    // {A}, empty, {C}, {B}.
    gives(
        "0(1|)0*",
        2,
        0b11010,
        &[&[1, 2], &[3, 4], &[2, 2], &[3, 2], &[3, 2]],
    );
    // {A,B}, {A,B,C}.
    gives("(0|00)*", 1, 0b111, &[&[1], &[2], &[2]]);
    // {A,B}, empty, {C}.
    gives("0*01", 2, 0b1000, &[&[1, 2], &[1, 3], &[2, 2], &[2, 2]]);
}

#[test]
fn words_by_hand() {
    let pattern = |text: &str| Pattern::read(text.as_bytes()).unwrap();
    let ends_in_1 = pattern("(0|1)*1");
    for word in [&[1][..], &[0, 1], &[1, 1], &[0, 0, 1, 1]] {
        assert!(ends_in_1.accepts(word));
    }
    for word in [&[0][..], &[], &[1, 0], &[1, 1, 0], &[2, 1], &[1, 63]] {
        assert!(!ends_in_1.accepts(word));
    }
    // a.b-c/: the symbols 11, 10, 12, 37, 13, 38.
    assert!(pattern("a.b-c/").accepts(&[11, 10, 12, 37, 13, 38]));
    assert!(pattern("z9").accepts(&[36, 9]));
    // An empty branch, and none.
    assert!(pattern("0|").accepts(&[]));
    assert!(!pattern("0").accepts(&[]));
    assert!(!pattern("(0|)1").accepts(&[]));
    // The star holds for the item before it only.
    assert!(pattern("01*").accepts(&[0, 1, 1]));
    assert!(!pattern("01*").accepts(&[0, 1, 0, 1]));
    // Branches reach as far as their group.
    assert!(!pattern("00|11").accepts(&[0, 0, 1]));
    assert!(pattern("0(0|1)1").accepts(&[0, 0, 1]));
    // As long as a string can be.
    assert!(pattern("0*").accepts(&[0; 63]));
    assert!(pattern("(00)*").accepts(&[0; 62]));
    assert!(!pattern("(00)*").accepts(&[0; 63]));
    assert!(pattern("((0*)*|(00)*)*0").accepts(&[0; 63]));
}

#[test]
fn running_an_automaton() {
    // P13: symbol 0 changes the state, symbol 1 keeps it.
    let bytes = automaton(0b1, &[&[1, 0], &[0, 1]]);
    for word in every_word(2, 5) {
        let even = word.iter().filter(|&&symbol| symbol == 0).count() % 2 == 0;
        assert_eq!(automaton_accepts(&bytes, 2, &word), even);
    }
    assert_eq!(state_after(&bytes, 2, &[0, 1, 1]), Some(1));
    assert_eq!(state_after(&bytes, 2, &[0, 2]), None);
    assert!(!automaton_accepts(&bytes, 2, &[2]));
}

/// The rules by rewriting: x is an item, i an item with its star.
fn follows_the_rules(text: &[u8]) -> bool {
    let letter_or_mark = |&byte: &u8| match byte {
        b'(' | b')' | b'|' | b'*' => char::from(byte),
        _ if LETTERS.contains(&byte) => 'x',
        _ => '!',
    };
    let mut left: String = text.iter().map(letter_or_mark).collect();
    loop {
        let before = left.len();
        // Stars first, so that no item is dropped before its star.
        left = left.replace("x*", "i");
        left = left
            .replace("(x", "(")
            .replace("(i", "(")
            .replace("(|", "(");
        left = left.replace("()", "x");
        if left.len() == before {
            return text.len() <= 63 && left.chars().all(|mark| "xi|".contains(mark));
        }
    }
}

/// Lists of places or symbols.
type Lists<T> = BTreeSet<Vec<T>>;

/// One of the first, then one of the second, if there are at most `most`.
fn joined<T: Ord + Copy>(first: &Lists<T>, second: &Lists<T>, most: usize) -> Lists<T> {
    let mut all = BTreeSet::new();
    for a in first {
        for b in second {
            if a.len() + b.len() <= most {
                all.insert([&a[..], &b[..]].concat());
            }
        }
    }
    all
}

/// Any number of them one after the other, if there are at most `most`.
fn repeated<T: Ord + Copy>(once: &Lists<T>, most: usize) -> Lists<T> {
    let mut all = BTreeSet::from([vec![]]);
    loop {
        let more = &all | &joined(&all, once, most);
        if more.len() == all.len() {
            return all;
        }
        all = more;
    }
}

/// The readings of a part that pass at most `most` letters, as the places
/// passed: those that come to an end of it, and those that may go on.
fn readings(pattern: &Pattern, part: usize, most: usize) -> [Lists<usize>; 2] {
    match pattern.parts[part] {
        Part::Empty => [BTreeSet::from([vec![]]), BTreeSet::from([vec![]])],
        Part::Letter { place, .. } => [
            BTreeSet::from([vec![place]]),
            BTreeSet::from([vec![], vec![place]]),
        ],
        Part::Both(a, b) => {
            let [ended_a, begun_a] = readings(pattern, a, most);
            let [ended_b, begun_b] = readings(pattern, b, most);
            let begun = &begun_a | &joined(&ended_a, &begun_b, most);
            [joined(&ended_a, &ended_b, most), begun]
        }
        Part::Either(a, b) => {
            let [ended_a, begun_a] = readings(pattern, a, most);
            let [ended_b, begun_b] = readings(pattern, b, most);
            [&ended_a | &ended_b, &begun_a | &begun_b]
        }
        Part::Star(a) => {
            let [once, begun_once] = readings(pattern, a, most);
            let ended = repeated(&once, most);
            let begun = joined(&ended, &begun_once, most);
            [ended, begun]
        }
    }
}

/// The states of all words up to a length, and which words are accepted, by
/// listing the readings. Taking the states in the order of their numbers and
/// their symbols upwards meets each first by the shortest, lowest word.
fn check_by_readings(text: &[u8], k: usize, longest: usize) {
    let pattern = Pattern::read(text).unwrap();
    let shown = String::from_utf8_lossy(text);
    let bytes = compile(text, k, ENOUGH).unwrap_or_else(|number| panic!("{shown} {number}"));
    let symbols: BTreeMap<usize, u8> = pattern.letters().collect();
    let word = |places: &Vec<usize>| places.iter().map(|p| symbols[p]).collect::<Vec<u8>>();

    let [ended, begun] = readings(&pattern, pattern.whole(), longest);
    let accepted: Lists<u8> = ended.iter().map(word).collect();
    let mut sets: BTreeMap<Vec<u8>, BTreeSet<usize>> = BTreeMap::new();
    for places in &begun {
        sets.entry(word(places)).or_default().extend(places.last());
    }

    let mut known: Vec<BTreeSet<usize>> = Vec::new();
    for word in every_word(k, longest) {
        let number = if word.is_empty() {
            0
        } else {
            let set = sets.remove(&word).unwrap_or_default();
            let number = known.iter().position(|other| *other == set);
            number.unwrap_or_else(|| {
                known.push(set);
                known.len() - 1
            }) + 1
        };
        assert_eq!(
            state_after(&bytes, k, &word),
            Some(number),
            "{shown} {word:?}"
        );
        let is_accepted = accepted.contains(&word);
        assert_eq!(
            automaton_accepts(&bytes, k, &word),
            is_accepted,
            "{shown} {word:?}"
        );
        assert_eq!(pattern.accepts(&word), is_accepted, "{shown} {word:?}");
    }
    assert!(known.len() < usize::from(bytes[0]), "{shown}");
}

#[test]
fn all_short_texts() {
    for (marks, longest) in [(&b"0|*()"[..], 7), (&b"01|*()"[..], 6)] {
        let k = marks.len() - 4;
        let mut right = 0;
        for text in every_word(marks.len(), longest) {
            let text: Vec<u8> = text.iter().map(|&n| marks[usize::from(n)]).collect();
            if follows_the_rules(&text) {
                check_by_readings(&text, k, if k == 1 { 7 } else { 4 });
                right += 1;
            } else {
                assert_eq!(compile(&text, k, ENOUGH), Err(14), "{text:?}");
            }
        }
        assert!(right > 1000, "{right}");
    }
}

#[test]
fn random_bytes_are_refused_or_not() {
    let mut random = Random::new(14);
    let marks = b"0123az./-||||((()))***";
    let mut right = 0;
    for _ in 0..200_000 {
        let length = if random.once_in(4) {
            60 + random.below(6)
        } else {
            random.below(16)
        };
        let plain = random.once_in(2);
        let text: Vec<u8> = (0..length)
            .map(|_| match random.below(8) {
                0..=3 if plain => b"0|"[random.below(2)],
                _ if random.once_in(500) => random.word() as u8,
                _ => marks[random.below(marks.len())],
            })
            .collect();
        let follows = follows_the_rules(&text);
        assert_eq!(Pattern::read(&text).is_some(), follows, "{text:?}");
        assert_eq!(compile(&text, 64, ENOUGH) != Err(14), follows, "{text:?}");
        right += usize::from(follows);
    }
    assert!(right > 10_000, "{right}");
}

/// A pattern with groups up to this depth, and its words of at most `most`
/// symbols as they come about while it is written.
fn random_text(
    random: &mut Random,
    letters: &[u8],
    depth: usize,
    most: usize,
) -> (Vec<u8>, Lists<u8>) {
    let mut text = Vec::new();
    let mut words = BTreeSet::new();
    for branch in 0..1 + random.below(6) / 2 {
        if branch > 0 {
            text.push(b'|');
        }
        let mut branch_words = BTreeSet::from([vec![]]);
        for _ in 0..random.below(5) {
            let mut item_words;
            if depth > 0 && random.once_in(3) {
                let (inner, inner_words) = random_text(random, letters, depth - 1, most);
                text.push(b'(');
                text.extend(inner);
                text.push(b')');
                item_words = inner_words;
            } else {
                let letter = letters[random.below(letters.len())];
                let symbol = LETTERS.iter().position(|&other| other == letter).unwrap();
                text.push(letter);
                item_words = BTreeSet::from([vec![symbol as u8]]);
            }
            if random.once_in(3) {
                text.push(b'*');
                item_words = repeated(&item_words, most);
            }
            branch_words = joined(&branch_words, &item_words, most);
        }
        words.extend(branch_words);
    }
    (text, words)
}

#[test]
fn random_texts_by_their_readings() {
    let mut random = Random::new(15);
    let mut checked = 0;
    while checked < 3000 {
        let depth = random.below(4);
        let (text, _) = random_text(&mut random, b"001", depth, 0);
        let letters = text.iter().filter(|byte| byte.is_ascii_digit()).count();
        if text.len() <= 63 && letters <= 8 {
            check_by_readings(&text, 2 + random.below(2), 4);
            checked += 1;
        }
    }
}

#[test]
fn random_texts_by_their_words() {
    let mut random = Random::new(17);
    let mut checked = 0;
    while checked < 3000 {
        let depth = random.below(5);
        let (text, words) = random_text(&mut random, b"001", depth, 4);
        if text.len() <= 63 {
            Pattern::read(&text)
                .unwrap()
                .for_every_word(&[0, 1, 2], 4, &mut |word, accepted| {
                    assert_eq!(accepted, words.contains(word), "{text:?} {word:?}");
                });
            checked += 1;
        }
    }
}

#[test]
fn acceptance_is_that_of_the_automaton() {
    let mut random = Random::new(16);
    let alphabets: [(&[u8], &[u8]); 4] = [
        (b"0", &[0]),
        (b"01", &[0, 1]),
        (b"012", &[0, 1, 2]),
        (b"0a/", &[0, 11, 38]),
    ];
    let (mut compiled, mut too_many) = (0, 0);
    while compiled < 20_000 {
        let (letters, symbols) = alphabets[random.below(4)];
        let depth = random.below(6);
        let (text, _) = random_text(&mut random, letters, depth, 0);
        if text.len() > 63 {
            continue;
        }
        let least = usize::from(symbols[symbols.len() - 1]) + 1;
        let k = least + random.below(65 - least);
        let bytes = match compile(&text, k, ENOUGH) {
            Ok(bytes) => bytes,
            Err(number) => {
                assert_eq!(number, 16, "{text:?}");
                too_many += 1;
                continue;
            }
        };
        compiled += 1;
        assert_eq!(bytes.len(), 5 + usize::from(bytes[0]) * k);

        // One symbol that may be no letter of it.
        let mut symbols = symbols.to_vec();
        symbols.push(random.below(k) as u8);
        let pattern = Pattern::read(&text).unwrap();
        let mut words = 0;
        pattern.for_every_word(&symbols, 4, &mut |word, accepted| {
            assert_eq!(
                automaton_accepts(&bytes, k, word),
                accepted,
                "{text:?} {word:?}"
            );
            words += 1;
        });
        assert_eq!(words, (0..=4).map(|l| symbols.len().pow(l)).sum::<usize>());
        for _ in 0..20 {
            let length = random.below(64);
            let word: Vec<u8> = (0..length)
                .map(|_| symbols[random.below(symbols.len())])
                .collect();
            let accepted = automaton_accepts(&bytes, k, &word);
            assert_eq!(pattern.accepts(&word), accepted, "{text:?} {word:?}");
        }

        // A problem file takes it.
        if random.once_in(20) {
            let automata = vec![bytes.clone()];
            let draft = Draft {
                symbols: k as u8,
                automata,
                ..Draft::default()
            };
            let problem = Problem::parse(&draft.bytes()).unwrap();
            pattern.for_every_word(&symbols, 3, &mut |word, accepted| {
                assert_eq!(
                    problem.automata[0].accepts(word),
                    accepted,
                    "{text:?} {word:?}"
                );
                assert_eq!(pattern.accepts(word), accepted, "{text:?} {word:?}");
            });
        }
    }
    assert!(too_many < compiled, "{too_many}");
}
