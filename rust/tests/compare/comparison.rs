//! One call made twice, of the library and of the rules, with all that was lent compared whole.
use crate::random::Random;
use std::env;
use std::fmt::Debug;
use std::hint::black_box;
use std::io::{stderr, Write};

pub struct Comparison {
    name: &'static str,
    seed: u64,
    calls: u64,
    accepted: u64,
    pub random: Random,
}

/// A slice that is lent for reading.
pub trait Given: Debug {
    fn copy(&self) -> Vec<u64>;
}

impl<T: Copy + Into<u64> + Debug> Given for &[T] {
    fn copy(&self) -> Vec<u64> {
        black_box(*self).iter().map(|&word| word.into()).collect()
    }
}

/// Runs rounds of comparisons and prints how many calls were compared, and how many of them were not refused.
pub fn rounds(name: &'static str, count: u64, mut round: impl FnMut(&mut Comparison)) {
    let seed = number("MWS_SEED", 1);
    let mut run = Comparison { name, seed, calls: 0, accepted: 0, random: Random::new(seed) };
    for _ in 0..count * number("MWS_ROUNDS", 1) {
        round(&mut run);
    }
    writeln!(stderr(), "{name}: seed {seed}, {} calls compared, {} accepted", run.calls, run.accepted).unwrap();
}

fn number(variable: &str, otherwise: u64) -> u64 {
    env::var(variable).map_or(otherwise, |text| text.parse().expect("a number"))
}

impl Comparison {
    /// Calls both on what is lent: the answers and what becomes of it must be the same, what is given must stay, and a
    /// refused call must change nothing. Gives the answer of an accepted call.
    pub fn compare<L: Clone + PartialEq + Debug, A: PartialEq + Debug, R: PartialEq + Debug>(
        &mut self,
        given: &[&dyn Given],
        lent: &mut L,
        library: impl FnOnce(&mut L) -> Result<A, R>,
        rules: impl FnOnce(&mut L) -> Result<A, R>,
    ) -> Option<A> {
        let before = lent.clone();
        let given_before: Vec<_> = given.iter().map(|slice| slice.copy()).collect();
        let mut expected = lent.clone();
        let answer = library(lent);
        let expected_answer = rules(&mut expected);
        let given_stays = given.iter().zip(given_before).all(|(slice, before)| slice.copy() == before);
        assert!(
            answer == expected_answer && *lent == expected && given_stays,
            "{}, seed {}, call {}\ngiven {given:?}\nlent {before:?}\nlibrary {answer:?} {lent:?}\nrules {expected_answer:?} {expected:?}",
            self.name,
            self.seed,
            self.calls
        );
        assert!(answer.is_ok() || *lent == before, "a refused call changed what it was lent");
        self.calls += 1;
        self.accepted += u64::from(answer.is_ok());
        answer.ok()
    }

    /// As `compare`, of a call that is lent nothing to write.
    pub fn answers<A: PartialEq + Debug, R: PartialEq + Debug>(
        &mut self,
        given: &[&dyn Given],
        library: impl FnOnce() -> Result<A, R>,
        rules: impl FnOnce() -> Result<A, R>,
    ) -> Option<A> {
        self.compare(given, &mut (), |_| library(), |_| rules())
    }
}

/// A slice to write in, with a margin on both sides that no call may touch.
#[derive(Clone, Debug, PartialEq)]
pub struct Lent<T>(Vec<T>);

const MARGIN: usize = 3;

impl Lent<u8> {
    pub fn bytes(random: &mut Random, room: usize) -> Self {
        Lent((0..room + 2 * MARGIN).map(|_| random.word() as u8).collect())
    }
}

impl Lent<u64> {
    pub fn words(random: &mut Random, room: usize) -> Self {
        Lent((0..room + 2 * MARGIN).map(|_| random.word()).collect())
    }

    pub fn holding(random: &mut Random, words: &[u64]) -> Self {
        let mut lent = Lent::words(random, words.len());
        lent.part().copy_from_slice(words);
        lent
    }
}

impl<T> Lent<T> {
    pub fn part(&mut self) -> &mut [T] {
        let end = self.0.len() - MARGIN;
        &mut self.0[MARGIN..end]
    }
}
