//! Lent buffers: filled with arbitrary bits before a call, compared as a whole after it.

use crate::{same, Check};
use icemedian::raw::{Lent, LentParts};
use sorting_filter::calls::Walked;
use sorting_filter::random::Random;
use sorting_filter::store::{ChainEntry, Lengths, Stores};

#[derive(Clone, Debug, PartialEq, Eq)]
pub struct Buffers {
    pub counts: Vec<u16>,
    pub words: Vec<u64>,
    pub numbers: Vec<u32>,
    pub summary: Vec<i64>,
    pub answers: Vec<u16>,
}

impl Buffers {
    /// Buffers of exactly these lengths, full of arbitrary bits.
    pub fn poisoned(random: &mut Random, lengths: &Lengths) -> Buffers {
        Buffers {
            counts: (0..lengths.counts).map(|_| random.bits() as u16).collect(),
            words: (0..lengths.words).map(|_| random.bits()).collect(),
            numbers: (0..lengths.numbers).map(|_| random.bits() as u32).collect(),
            summary: (0..lengths.summary).map(|_| random.bits() as i64).collect(),
            answers: (0..lengths.answers).map(|_| random.bits() as u16).collect(),
        }
    }

    /// Buffers a little longer than needed.
    pub fn poisoned_beyond(random: &mut Random, needed: &Lengths) -> Buffers {
        let lengths = roomy(random, needed);
        Buffers::poisoned(random, &lengths)
    }

    pub fn lengths(&self) -> Lengths {
        Lengths {
            counts: self.counts.len(),
            words: self.words.len(),
            numbers: self.numbers.len(),
            summary: self.summary.len(),
            answers: self.answers.len(),
        }
    }

    /// All buffers, for one call.
    pub fn lend(&mut self) -> Lent<'_> {
        Lent {
            counts: &mut self.counts,
            words: &mut self.words,
            numbers: &mut self.numbers,
            summary: &mut self.summary,
            answers: &mut self.answers,
        }
    }

    /// Those of a call over several files.
    pub fn lend_parts(&mut self) -> LentParts<'_> {
        LentParts { counts: &mut self.counts, words: &mut self.words, answers: &mut self.answers }
    }

    /// What the buffers must hold after a call that leaves `walked`, but for the chain's free places.
    pub fn after(&self, walked: &Walked) -> Buffers {
        let mut after = self.clone();
        front(&mut after.answers, &walked.answers);
        match &walked.stores {
            Stores::Joint { counts, words } => {
                front(&mut after.counts, counts);
                front(&mut after.words, words);
            }
            Stores::Columns { numbers } => front(&mut after.numbers, numbers),
            Stores::Chain { .. } => {}
            Stores::Coarse { counts, words, summary } => {
                front(&mut after.counts, counts);
                front(&mut after.words, words);
                front(&mut after.summary, summary);
            }
        }
        after
    }
}

/// Writes to a buffer's first places.
pub fn front<T: Copy>(buffer: &mut [T], content: &[T]) {
    buffer[..content.len()].copy_from_slice(content);
}

/// Lengths a little above the needed ones, so that every buffer has a part to leave untouched.
pub fn roomy(random: &mut Random, needed: &Lengths) -> Lengths {
    Lengths {
        counts: needed.counts + 1 + random.below(9),
        words: needed.words + 1 + random.below(9),
        numbers: needed.numbers + 1 + random.below(9),
        summary: needed.summary + 1 + random.below(9),
        answers: needed.answers + 1 + random.below(9),
    }
}

/// Compares buffers after a call that leaves `walked`; `needed` says how much of each is the call's.
pub fn compare(before: &Buffers, mut after: Buffers, walked: &Walked, needed: &Lengths) -> Check {
    if let Stores::Chain { entries } = &walked.stores {
        let chain = &mut after.numbers[..needed.numbers];
        same("chain", &read_chain(chain), &Ok(entries.clone()))?;
        chain.copy_from_slice(&before.numbers[..needed.numbers]);
    }
    compare_all(&after, &before.after(walked))
}

/// Compares all buffers to the end.
pub fn compare_all(library: &Buffers, expected: &Buffers) -> Check {
    first_difference("answers", &library.answers, &expected.answers)?;
    first_difference("counts", &library.counts, &expected.counts)?;
    first_difference("words", &library.words, &expected.words)?;
    first_difference("numbers", &library.numbers, &expected.numbers)?;
    first_difference("summary", &library.summary, &expected.summary)
}

/// The first place at which a buffer differs.
pub fn first_difference<T: PartialEq + std::fmt::Debug>(what: &str, library: &[T], expected: &[T]) -> Check {
    let place = (0..expected.len()).find(|&place| library[place] != expected[place]);
    place.map_or(Ok(()), |place| same(&format!("{what} at {place}"), &library[place], &expected[place]))
}

/// The chain, read from its first node; a node outside the store or a chain without end is an error.
fn read_chain(numbers: &[u32]) -> Result<Vec<ChainEntry>, String> {
    let nodes = numbers.len() / 4;
    let mut entries = Vec::new();
    let mut node = numbers[0] as usize;
    while node != 0 {
        if node > nodes || entries.len() == nodes {
            return Err(format!("no chain at node {node}"));
        }
        let [level, count, guide_sum, next] = numbers[4 * node - 3..=4 * node] else { unreachable!() };
        entries.push(ChainEntry { level, count, guide_sum });
        node = next as usize;
    }
    Ok(entries)
}
