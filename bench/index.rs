//! Which rules may fit a request, by words, as Brave's engine finds them: a rule stands under the rarest of the words that
//! its filter needs, and is tested where the URL has that word.

use crate::{Filter, Rule};
use std::collections::HashMap;
use std::hash::{BuildHasherDefault, Hasher};

/// A word is its hash already.
#[derive(Default)]
struct Unhashed(u64);

impl Hasher for Unhashed {
    fn write(&mut self, _: &[u8]) {
        unreachable!("a word is a u64");
    }

    fn write_u64(&mut self, word: u64) {
        self.0 = word;
    }

    fn finish(&self) -> u64 {
        self.0
    }
}

type ByWord<T> = HashMap<u64, T, BuildHasherDefault<Unhashed>>;

pub struct Index {
    by_word: ByWord<Vec<u32>>,
    others: Vec<u32>,
}

/// The FNV-1a hashes of the longest runs of letters and digits, each with its place and its end.
fn words(text: &[u8]) -> impl Iterator<Item = (u64, usize, usize)> + '_ {
    let mut at = 0;
    std::iter::from_fn(move || {
        at += text[at..].iter().position(u8::is_ascii_alphanumeric)?;
        let start = at;
        let mut hash = 0xcbf2_9ce4_8422_2325_u64;
        while at < text.len() && text[at].is_ascii_alphanumeric() {
            hash = (hash ^ u64::from(text[at])).wrapping_mul(0x0100_0000_01b3);
            at += 1;
        }
        Some((hash, start, at))
    })
}

/// The words that each text has which the filter fits: neither end may go on in the text.
fn needed(filter: &Filter) -> Vec<u64> {
    let mut found = Vec::new();
    let last = filter.pieces.len() - 1;
    for (place, piece) in filter.pieces.iter().enumerate() {
        for (word, start, end) in words(piece) {
            let begins = start > 0 || place == 0 && filter.is_anchored();
            let ends = end < piece.len() || place == last && filter.to_end;
            if begins && ends {
                found.push(word);
            }
        }
    }
    found
}

impl Index {
    pub fn new(rules: &[Rule]) -> Index {
        let needed: Vec<Vec<u64>> = rules
            .iter()
            .map(|rule| rule.filter.as_ref().map_or(Vec::new(), needed))
            .collect();
        let mut counts: ByWord<u32> = HashMap::default();
        for word in needed.iter().flatten() {
            *counts.entry(*word).or_default() += 1;
        }
        let mut index = Index {
            by_word: HashMap::default(),
            others: Vec::new(),
        };
        for (place, words) in (0..).zip(&needed) {
            match words.iter().min_by_key(|word| counts[word]) {
                Some(word) => index.by_word.entry(*word).or_default().push(place),
                None => index.others.push(place),
            }
        }
        index
    }

    /// The places of the rules that may fit. One may come twice.
    pub fn candidates<'a>(&'a self, text: &'a [u8]) -> impl Iterator<Item = u32> + 'a {
        let by_words = words(text).filter_map(|(word, ..)| self.by_word.get(&word));
        self.others.iter().chain(by_words.flatten()).copied()
    }
}
