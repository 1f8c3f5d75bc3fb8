//! Sets: opening and ticking the patterns of a file together.
use crate::comparison::{rounds, Comparison, Lent};
use crate::files::{any_file, patterns, Parts};
use crate::random::Random;
use crate::rules::set;

const LETTERS: usize = 4;

#[test]
fn sets_open_in_the_room_that_the_rules_give() {
    rounds("set opening", 100_000, |run| {
        let file = any_file(&mut run.random, 3);
        let file = &file[..];
        run.answers(&[&file], || mws::set_room(file), || set::room(file));
        let room = run.random.room(set::room(file).unwrap_or(40));
        let mut lent = Lent::words(&mut run.random, room);
        run.compare(
            &[&file],
            &mut lent,
            |words| mws::set_open(file, words.part()),
            |words| set::open(file, words.part()),
        );
    });
}

#[test]
fn every_tick_moves_all_states_or_none() {
    rounds("set ticks", 12_000, |run| {
        let count = patterns(&mut run.random);
        let mut states = opened(&mut run.random, count);
        for _ in 0..40 {
            any_tick(run, &mut states, count);
        }
        disturb(&mut run.random, states.part());
        for _ in 0..4 {
            any_tick(run, &mut states, count);
        }
    });
}

/// The states of a random file, with a few words behind them.
fn opened(random: &mut Random, count: usize) -> Lent<u64> {
    let file = Parts::random(random, count, 9).file();
    let room = mws::set_room(&file).unwrap() + random.below(4);
    let mut lent = Lent::words(random, room);
    mws::set_open(&file, lent.part()).unwrap();
    lent
}

/// Takes the next tick, or at times one that is refused: late, out of range, of too many or too few states.
fn any_tick(run: &mut Comparison, states: &mut Lent<u64>, patterns: usize) {
    let random = &mut run.random;
    let next = states.part()[1].min(1 << 32);
    let tick = if random.one_in(60) { random.edge() } else { random.later(next) };
    let count = match random.below(20) {
        0 => random.edge(),
        1 => random.below(patterns + 3) as u64,
        _ => patterns as u64,
    };
    let events = random.events(LETTERS);
    let room = if random.one_in(9) { random.below(patterns + 1) } else { patterns + random.below(3) };
    let answers = Lent::words(random, room);
    let mut lent = (states.clone(), answers);
    run.compare(
        &[],
        &mut lent,
        |(states, answers)| mws::set_tick(states.part(), count, tick, events, answers.part()),
        |(states, answers)| set::tick(states.part(), count, tick, events, answers.part()),
    );
    *states = lent.0;
}

/// Changes a word or two, mostly by little.
fn disturb(random: &mut Random, words: &mut [u64]) {
    for _ in 0..=random.below(2) {
        let at = random.below(words.len());
        words[at] = match random.below(4) {
            0 => random.edge(),
            1 => words[at].wrapping_add(1),
            2 => words[at].saturating_sub(1),
            _ => words[random.below(words.len())],
        };
    }
}
