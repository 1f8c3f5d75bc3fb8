//! The watcher: room, opening, ticks and feeds.
use crate::comparison::{rounds, Comparison, Lent};
use crate::random::{Random, SMALL};
use crate::rules::body::{self, Entry};
use crate::rules::{instances, state};

const LETTERS: usize = 4;

#[test]
fn states_open_in_the_room_that_the_rules_give() {
    rounds("opening", 100_000, |run| {
        let most = run.random.pick(&[9, 9, 20, 63]);
        let size = 1 + run.random.below(most);
        let mut body = body::joined(&run.random.pattern(size, 32));
        open(run, &body);
        run.random.damage(&mut body, SMALL);
        open(run, &body);
    });
}

fn open(run: &mut Comparison, body: &[u8]) {
    run.answers(&[&body], || mws::watch_room(body), || state::room(body));
    let room = run.random.room(state::room(body).unwrap_or(20));
    let mut lent = Lent::words(&mut run.random, room);
    run.compare(
        &[&body],
        &mut lent,
        |words| mws::watch_open(body, words.part()),
        |words| state::open(body, words.part()),
    );
}

/// A state that the library opened, with a few words behind it.
fn opened(random: &mut Random, pattern: &[Entry]) -> Lent<u64> {
    let body = body::joined(pattern);
    let room = mws::watch_room(&body).unwrap() + random.below(4);
    let mut lent = Lent::words(random, room);
    mws::watch_open(&body, lent.part()).unwrap();
    lent
}

#[test]
fn windows_are_those_of_the_whole_record() {
    rounds("short records", 30_000, |run| {
        let size = 1 + run.random.below(16);
        let ticks = 1 + run.random.below(24);
        watch_record(run, size, ticks);
    });
}

#[test]
fn windows_are_those_of_the_whole_record_when_it_is_long() {
    rounds("long records", 400, |run| {
        let size = 3 + run.random.below(6);
        let ticks = 40 + run.random.below(100);
        watch_record(run, size, ticks);
    });
}

/// Each window must have the latest start of all instances that end at its tick, in the record as a whole.
fn watch_record(run: &mut Comparison, size: usize, length: usize) {
    let pattern = run.random.pattern(size, LETTERS);
    let events: Vec<u32> = (0..length).map(|_| run.random.events(LETTERS)).collect();
    let mut ticks = Vec::new();
    for _ in 0..length {
        let next = ticks.last().map_or(0, |tick| tick + 1);
        ticks.push(run.random.later(next));
    }
    let found = instances::of_each(&pattern, &ticks, &events).pop().unwrap();
    let mut lent = opened(&mut run.random, &pattern);
    for (place, &tick) in ticks.iter().enumerate() {
        let expected = found.latest(place).map(|start| ticks[start]);
        run.answers(&[], || mws::watch_tick(lent.part(), tick, events[place]), || Ok(expected));
    }
}

#[test]
fn every_tick_leaves_the_state_that_the_rules_give() {
    rounds("ticks", 6_000, |run| {
        let most = run.random.pick(&[9, 20, 63]);
        let size = 1 + run.random.below(most);
        let pattern = run.random.pattern(size, LETTERS);
        let mut lent = opened(&mut run.random, &pattern);
        for _ in 0..run.random.below(200) {
            let tick = any_tick(&mut run.random, lent.part()[1]);
            let events = run.random.events(LETTERS);
            take(run, &mut lent, tick, events);
        }
    });
}

/// A tick that is mostly allowed, else late or out of range.
fn any_tick(random: &mut Random, next: u64) -> u64 {
    match random.below(60) {
        0 => next.saturating_sub(1),
        1 => u64::from(u32::MAX) + 1 + random.below(2) as u64,
        2 if random.one_in(9) => random.edge(),
        _ => random.later(next),
    }
}

fn take(run: &mut Comparison, lent: &mut Lent<u64>, tick: u64, events: u32) {
    run.compare(
        &[],
        lent,
        |state| mws::watch_tick(state.part(), tick, events),
        |state| state::tick(state.part(), tick, events),
    );
}

#[test]
fn damaged_states_are_refused_or_ticked_as_the_rules_say() {
    rounds("damaged states", 60_000, |run| {
        let mut lent = used(&mut run.random);
        for _ in 0..4 {
            let mut lent = damaged(&mut run.random, lent.part());
            let next = lent.part().get(1).copied().unwrap_or(0).min(1 << 32);
            let tick = any_tick(&mut run.random, next);
            let events = run.random.events(LETTERS);
            take(run, &mut lent, tick, events);
            take(run, &mut lent, tick.saturating_add(1), events >> 1);
            take(run, &mut lent, mws::LAST_TICK, events);
        }
    });
}

/// A state after a few ticks, or one whose cells are small numbers without a record behind them.
fn used(random: &mut Random) -> Lent<u64> {
    let size = 1 + random.below(14);
    let pattern = random.pattern(size, LETTERS);
    let mut lent = opened(random, &pattern);
    let words = lent.part();
    if random.one_in(2) {
        for tick in 0..random.below(20) {
            mws::watch_tick(words, tick as u64, random.events(LETTERS)).unwrap();
        }
    } else {
        words[1] = random.below(9) as u64;
        words[2 + size..].iter_mut().for_each(|cell| *cell = random.below(7) as u64);
        rise(&mut words[2 + size..]);
    }
    lent
}

/// Makes most pairs of cells end after they start.
fn rise(cells: &mut [u64]) {
    for pair in cells.chunks_exact_mut(2) {
        pair.sort();
        if pair[0] == 0 {
            pair[1] = 0;
        }
    }
}

/// A copy with a word or two changed, with a next tick near the limit, or cut short.
fn damaged(random: &mut Random, words: &[u64]) -> Lent<u64> {
    let mut words = words.to_vec();
    for _ in 0..random.below(3) {
        let at = random.below(words.len());
        words[at] = match random.below(6) {
            0 => words[at].wrapping_add(1),
            1 => words[at].wrapping_sub(1),
            2 => words[at] ^ 1 << random.below(64),
            3 => random.edge(),
            4 => words[random.below(words.len())],
            _ => random.below(7) as u64,
        };
    }
    if random.one_in(12) {
        words[1] = mws::LAST_TICK + random.below(4) as u64;
    }
    if random.one_in(12) {
        words.truncate(random.below(words.len() + 1));
    }
    Lent::holding(random, &words)
}

#[test]
fn a_feed_takes_all_ticks_or_none() {
    rounds("feeds", 40_000, |run| {
        let mut state = used(&mut run.random);
        if run.random.one_in(6) {
            state = damaged(&mut run.random, state.part());
        }
        let count = run.random.below(30);
        let mut next = state.part().get(1).copied().unwrap_or(0).min(1 << 32);
        let mut ticks = Vec::new();
        for _ in 0..count {
            let tick = if run.random.one_in(3) { any_tick(&mut run.random, next) } else { next };
            ticks.push(tick);
            next = tick.saturating_add(1);
        }
        let others = if run.random.one_in(12) { run.random.below(30) } else { count };
        let events: Vec<u32> = (0..others).map(|_| run.random.events(LETTERS)).collect();
        let room = run.random.room(count);
        let answers = Lent::words(&mut run.random, room);
        feed(run, (state, answers), &ticks, &events);
    });
}

fn feed(run: &mut Comparison, mut lent: (Lent<u64>, Lent<u64>), ticks: &[u64], events: &[u32]) {
    run.compare(
        &[&ticks, &events],
        &mut lent,
        |(state, answers)| mws::watch_feed(state.part(), ticks, events, answers.part()),
        |(state, answers)| state::feed(state.part(), ticks, events, answers.part()),
    );
}
