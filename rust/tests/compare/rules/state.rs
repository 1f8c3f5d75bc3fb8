//! The watcher's state: its room, its form, and what a tick does to each entry.
use super::body::{self, Entry, BOTH, LETTER, OR, THEN, WITHIN, WITHOUT};
use mws::Refusal;

const LAST_TICK: u64 = u32::MAX as u64;

/// Start and end.
type Pair = Option<(u64, u64)>;

/// What one entry remembers.
#[derive(Clone, Debug)]
enum Memory {
    Nothing,
    Both { left: Pair, right: Pair },
    Without { latest: Option<u64> },
    Then { latest: Pair, kept: Vec<Pair> },
}

/// A state in form.
pub struct State {
    entries: Vec<Entry>,
    next: u64,
    memories: Vec<Memory>,
}

pub fn room(body: &[u8]) -> Result<usize, Refusal> {
    Ok(State::fresh(body::entries(body)?).room())
}

pub fn open(body: &[u8], state: &mut [u64]) -> Result<(), Refusal> {
    let fresh = State::fresh(body::entries(body)?);
    if state.len() < fresh.room() {
        return Err(Refusal::Room { needed: fresh.room() as u32 });
    }
    fresh.write(state);
    Ok(())
}

pub fn tick(words: &mut [u64], tick: u64, events: u32) -> Result<Option<u64>, Refusal> {
    if tick > LAST_TICK {
        return Err(Refusal::Range { index: 0 });
    }
    let mut state = State::read(words).ok_or(Refusal::State { index: 0 })?;
    if tick < state.next {
        return Err(Refusal::Late { index: 0 });
    }
    let answer = state.step(tick, events);
    state.write(words);
    Ok(answer)
}

pub fn feed(words: &mut [u64], ticks: &[u64], events: &[u32], answers: &mut [u64]) -> Result<(), Refusal> {
    if ticks.len() != events.len() {
        return Err(Refusal::Record);
    }
    if answers.len() < ticks.len() {
        return Err(Refusal::Room { needed: ticks.len() as u32 });
    }
    let mut state = State::read(words).ok_or(Refusal::State { index: 0 })?;
    let mut told = Vec::new();
    for (index, (&tick, &events)) in ticks.iter().zip(events).enumerate() {
        if tick > LAST_TICK {
            return Err(Refusal::Range { index: index as u32 });
        }
        if tick < state.next {
            return Err(Refusal::Late { index: index as u32 });
        }
        told.push(state.step(tick, events).map_or(0, |start| start + 1));
    }
    state.write(words);
    answers[..told.len()].copy_from_slice(&told);
    Ok(())
}

impl State {
    pub fn fresh(entries: Vec<Entry>) -> State {
        let mut possible: Vec<usize> = Vec::new();
        let mut memories = Vec::new();
        for entry in &entries {
            let right = if matches!(entry.op, LETTER | WITHIN) { 0 } else { possible.pop().unwrap() };
            let left = if entry.op == LETTER { 0 } else { possible.pop().unwrap() };
            let (starts, memory) = match entry.op {
                OR => (left + right, Memory::Nothing),
                BOTH => (left + right + 2, Memory::Both { left: None, right: None }),
                WITHOUT => (left, Memory::Without { latest: None }),
                THEN => (left + right + 1, Memory::Then { latest: None, kept: vec![None; right] }),
                _ => (left, Memory::Nothing),
            };
            possible.push(starts);
            memories.push(memory);
        }
        State { entries, next: 0, memories }
    }

    pub fn room(&self) -> usize {
        2 + self.entries.len() + self.memories.iter().map(|memory| memory.cells().len()).sum::<usize>()
    }

    pub fn next(&self) -> u64 {
        self.next
    }

    /// The state at the front of a slice, if it is in form.
    pub fn read(words: &[u64]) -> Option<State> {
        let count = usize::try_from(*words.first()?).ok().filter(|count| (1..=63).contains(count))?;
        let next = *words.get(1)?;
        let entries = words.get(2..2 + count)?.iter().map(|&word| entry(word)).collect::<Option<Vec<_>>>()?;
        if body::first_fault(&entries).is_some() || next > LAST_TICK + 1 {
            return None;
        }
        let mut state = State::fresh(entries);
        state.next = next;
        let mut cells = words.get(2 + count..state.room())?;
        for memory in &mut state.memories {
            let (own, others) = cells.split_at(memory.cells().len());
            *memory = memory.filled(own, next)?;
            cells = others;
        }
        Some(state)
    }

    /// Writes the state at the front of a slice.
    pub fn write(&self, words: &mut [u64]) {
        let entries = self.entries.iter().map(|entry| u64::from(entry.op) + 256 * u64::from(entry.argument));
        let cells = self.memories.iter().flat_map(Memory::cells);
        let all = [self.entries.len() as u64, self.next].into_iter().chain(entries).chain(cells);
        words.iter_mut().zip(all).for_each(|(word, value)| *word = value);
    }

    /// Takes an allowed tick: the start of the last entry's answer.
    pub fn step(&mut self, tick: u64, events: u32) -> Option<u64> {
        let mut trees: Vec<Told> = Vec::new();
        for (entry, memory) in self.entries.iter().zip(&mut self.memories) {
            let right = if matches!(entry.op, LETTER | WITHIN) { None } else { trees.pop() };
            let left = if entry.op == LETTER { None } else { trees.pop() };
            let (left, right) = (left.unwrap_or_default(), right.unwrap_or_default());
            trees.push(match entry.op {
                LETTER => Told { start: (events >> entry.argument & 1 == 1).then_some(tick), possible: Vec::new() },
                WITHIN => Told { start: left.start.filter(|start| tick - start <= entry.argument.into()), ..left },
                _ => memory.step(left, right, tick),
            });
        }
        self.next = tick + 1;
        trees.pop().unwrap().start
    }
}

/// What an entry tells at a tick: the start of its answer, and its possible starts after the step.
#[derive(Default)]
struct Told {
    start: Option<u64>,
    possible: Vec<u64>,
}

impl Memory {
    fn cells(&self) -> Vec<u64> {
        match self {
            Memory::Nothing => Vec::new(),
            Memory::Both { left, right } => [*left, *right].into_iter().flat_map(pair_words).collect(),
            Memory::Without { latest } => vec![latest.map_or(0, |start| start + 1)],
            Memory::Then { latest, kept } => [*latest].iter().chain(kept).copied().flat_map(pair_words).collect(),
        }
    }

    /// The memory of the same shape that cells stand for, if they are in form.
    fn filled(&self, cells: &[u64], next: u64) -> Option<Memory> {
        if let Memory::Without { .. } = self {
            return (cells[0] <= next).then_some(Memory::Without { latest: cells[0].checked_sub(1) });
        }
        let pairs = cells.chunks(2).map(|words| pair(words, next)).collect::<Option<Vec<Pair>>>()?;
        match self {
            Memory::Both { .. } => Some(Memory::Both { left: pairs[0], right: pairs[1] }),
            Memory::Then { .. } => {
                let kept = pairs[1..].to_vec();
                let starts: Vec<u64> = kept.iter().flatten().map(|pair| pair.0).collect();
                let first = kept.iter().take_while(|pair| pair.is_some()).count() == starts.len();
                let rising = starts.windows(2).all(|two| two[0] < two[1]);
                (first && rising).then_some(Memory::Then { latest: pairs[0], kept })
            }
            _ => Some(Memory::Nothing),
        }
    }

    fn step(&mut self, x: Told, y: Told, tick: u64) -> Told {
        let mut possible = [x.possible.clone(), y.possible.clone()].concat();
        let start = match self {
            Memory::Nothing => x.start.max(y.start),
            Memory::Without { latest } => {
                *latest = (*latest).max(y.start);
                possible = x.possible;
                x.start.filter(|&start| Some(start) > *latest)
            }
            Memory::Both { left, right } => {
                renew(left, x.start, tick);
                renew(right, y.start, tick);
                possible.extend([*left, *right].iter().flatten().map(|pair| pair.0));
                both(x.start, y.start, *left, *right)
            }
            Memory::Then { latest, kept } => {
                let before: Vec<(u64, u64)> = kept.iter().copied().chain([*latest]).flatten().collect();
                keep(kept, y.possible.iter().filter_map(|&start| chosen(&before, start)).collect());
                renew(latest, x.start, tick);
                possible = x.possible;
                possible.extend(kept.iter().chain([&*latest]).flatten().map(|pair| pair.0));
                y.start.and_then(|start| chosen(&before, start)).map(|pair| pair.0)
            }
        };
        Told { start, possible }
    }
}

/// A side becomes the operand's answer where that starts strictly later.
fn renew(side: &mut Pair, start: Option<u64>, tick: u64) {
    if start > side.map(|pair| pair.0) {
        *side = start.map(|start| (start, tick));
    }
}

/// The greater of min(x, right) and min(left, y), of those that exist.
fn both(x: Option<u64>, y: Option<u64>, left: Pair, right: Pair) -> Option<u64> {
    let (left, right) = (left?.0, right?.0);
    x.map(|x| x.min(right)).max(y.map(|y| y.min(left)))
}

/// The pair that ends before a start and has the latest start; of equal starts, the lesser end.
fn chosen(pairs: &[(u64, u64)], start: u64) -> Pair {
    pairs.iter().copied().filter(|pair| pair.1 < start).max_by_key(|pair| (pair.0, u64::MAX - pair.1))
}

/// The chosen pairs become the kept ones, rising and without repeats.
fn keep(kept: &mut [Pair], mut pairs: Vec<(u64, u64)>) {
    pairs.sort();
    pairs.dedup();
    assert!(pairs.len() <= kept.len(), "as many kept pairs as the room allows");
    kept.fill(None);
    kept.iter_mut().zip(pairs).for_each(|(place, pair)| *place = Some(pair));
}

fn pair_words(pair: Pair) -> [u64; 2] {
    pair.map_or([0, 0], |(start, end)| [start + 1, end + 1])
}

/// The pair that two words stand for, if they are in form.
fn pair(words: &[u64], next: u64) -> Option<Pair> {
    match (words[0], words[1]) {
        (0, 0) => Some(None),
        (start, end) if start > 0 && start <= end && end <= next => Some(Some((start - 1, end - 1))),
        _ => None,
    }
}

fn entry(word: u64) -> Option<Entry> {
    Some(Entry { op: word as u8, argument: u32::try_from(word >> 8).ok()? })
}
