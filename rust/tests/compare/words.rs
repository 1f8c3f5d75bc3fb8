//! The single words that calls tell their answers in: a refused call keeps them, which only the calls of C can show.
use crate::comparison::{rounds, Comparison};
use crate::files::any_file;
use crate::random::SMALL;
use crate::rules::{body, file, set, state, text};
use mws::Found;

#[allow(dead_code)]
#[path = "../../src/calls.rs"]
mod calls;

/// Compares the word that a call is lent: what the rules tell, or what it was.
fn word<R>(run: &mut Comparison, told: Result<usize, R>, call: impl FnOnce(&mut u64) -> u64) {
    let before = run.random.word();
    let mut word = before;
    let status = call(&mut word);
    let expected = told.map(|told| told as u64).map_err(|_| before);
    run.answers(&[], || if status & 0xff == 0 { Ok(word) } else { Err(word) }, || expected);
}

#[test]
fn words_of_bodies_and_files_stay_when_refused() {
    rounds("words told", 60_000, |run| {
        let size = 1 + run.random.below(6);
        let pattern = run.random.pattern(size, 32);
        let mut bytes = body::joined(&pattern);
        let mut letters = text::printed(&pattern).into_bytes();
        if run.random.one_in(2) {
            run.random.damage(&mut bytes, SMALL);
            run.random.damage(&mut letters, b"(A;)@0");
        }
        of_patterns(run, &letters, &bytes);
        let file = any_file(&mut run.random, 2);
        // SAFETY: the pointer and the length are those of one slice.
        word(run, set::room(&file), |told| unsafe { calls::mws_set_room(file.as_ptr(), file.len(), told) });
    });
}

fn of_patterns(run: &mut Comparison, text: &[u8], body: &[u8]) {
    let mut out = vec![0; 20 + run.random.below(40)];
    let (from, room) = (out.as_mut_ptr(), out.len());
    let read = text::read(text, &mut vec![0; room]);
    let printed = text::print(body, &mut vec![0; room]);
    // SAFETY: each pointer and length are those of one slice, and the slices are apart.
    unsafe {
        word(run, read, |told| calls::mws_text_read(text.as_ptr(), text.len(), from, room, told));
        word(run, printed, |told| calls::mws_text_print(body.as_ptr(), body.len(), from, room, told));
        word(run, state::room(body), |told| calls::mws_watch_room(body.as_ptr(), body.len(), told));
    }
}

#[test]
fn words_of_a_tick_stay_when_refused() {
    rounds("words of ticks", 60_000, |run| {
        let size = 1 + run.random.below(6);
        let body = body::joined(&run.random.pattern(size, 2));
        let mut words = vec![0; state::room(&body).unwrap()];
        state::open(&body, &mut words).unwrap();
        for _ in 0..4 {
            let tick = if run.random.one_in(3) { run.random.edge() } else { words[1] };
            let events = run.random.events(2);
            let mut expected = words.clone();
            let answer =
                state::tick(&mut expected, tick, events).map(|start| start.map_or(0, |start| start as usize + 1));
            // SAFETY: the pointer and the length are those of one slice.
            word(run, answer, |told| unsafe {
                calls::mws_watch_tick(words.as_mut_ptr(), words.len(), tick, events, told)
            });
        }
    });
}

#[test]
fn words_of_a_lookup_stay_when_refused() {
    rounds("words of lookups", 60_000, |run| {
        let (site, fleet) = (any_file(&mut run.random, 4), any_file(&mut run.random, 4));
        let name = run.random.pick(&[b"A       ", b"M       ", b"Z0      "]);
        let before = [run.random.word(), run.random.word()];
        let [mut from, mut length] = before;
        // SAFETY: each pointer and length are those of one slice, and the two words are apart.
        let status = unsafe {
            let (site_bytes, fleet_bytes) = (site.len(), fleet.len());
            let (site, fleet) = (site.as_ptr(), fleet.as_ptr());
            calls::mws_file_lookup(site, site_bytes, fleet, fleet_bytes, name.as_ptr(), 8, &mut from, &mut length)
        };
        let expected = match file::lookup(&site, &fleet, name) {
            Ok(Found { body, .. }) => Ok([body.start as u64, body.len() as u64]),
            Err(missed) => Err((u64::from(missed.refusal.number()), before)),
        };
        let told = [from, length];
        run.answers(&[], || if status & 0xff == 0 { Ok(told) } else { Err((status & 0xff, told)) }, || expected);
    });
}
