//! Sets: the states of a file's patterns, one after the other in one slice.
use super::state::State;
use super::{body, file};
use mws::Refusal;

pub fn room(file: &[u8]) -> Result<usize, Refusal> {
    Ok(fresh(file)?.iter().map(State::room).sum())
}

fn fresh(file: &[u8]) -> Result<Vec<State>, Refusal> {
    let parts = file::parts(file)?;
    Ok(parts.into_iter().map(|part| State::fresh(body::split(&file[part.1]))).collect())
}

pub fn open(file: &[u8], words: &mut [u64]) -> Result<(), Refusal> {
    let needed = room(file)?;
    if words.len() < needed {
        return Err(Refusal::Room { needed: needed as u32 });
    }
    write(&fresh(file)?, words);
    Ok(())
}

fn write(states: &[State], words: &mut [u64]) {
    let mut from = 0;
    for state in states {
        state.write(&mut words[from..]);
        from += state.room();
    }
}

pub fn tick(words: &mut [u64], count: u64, tick: u64, events: u32, answers: &mut [u64]) -> Result<(), Refusal> {
    if !(1..=16).contains(&count) {
        return Err(Refusal::Count);
    }
    if (answers.len() as u64) < count {
        return Err(Refusal::Room { needed: count as u32 });
    }
    if tick > u32::MAX.into() {
        return Err(Refusal::Range { index: 0 });
    }
    let mut states = read(words, count as u32)?;
    if let Some(index) = states.iter().position(|state| tick < state.next()) {
        return Err(Refusal::Late { index: index as u32 });
    }
    for (state, answer) in states.iter_mut().zip(answers) {
        *answer = state.step(tick, events).map_or(0, |start| start + 1);
    }
    write(&states, words);
    Ok(())
}

fn read(words: &[u64], count: u32) -> Result<Vec<State>, Refusal> {
    let mut states = Vec::new();
    let mut from = 0;
    for index in 0..count {
        let state = State::read(&words[from..]).ok_or(Refusal::State { index })?;
        from += state.room();
        states.push(state);
    }
    Ok(states)
}
