//! Text, bodies, the plain evaluation and the tally.
use crate::comparison::{rounds, Comparison, Lent};
use crate::random::{Random, SMALL};
use crate::rules::{body, instances, tally, text};
use mws::Tally;

const MARKS: &[u8] = b"()|+-;@0123456789ABZafg (((;;)))";

#[test]
fn text_is_read_as_the_rules_say() {
    rounds("text read", 150_000, |run| {
        let size = if run.random.one_in(20) { 1 + run.random.below(300) } else { 1 + run.random.below(20) };
        let mut text = text::printed(&run.random.pattern(size, 32)).into_bytes();
        read(run, &text);
        run.random.damage(&mut text, MARKS);
        read(run, &text);
    });
}

#[test]
fn text_at_the_limits_is_read_as_the_rules_say() {
    rounds("text limits", 30_000, |run| {
        let text = match run.random.below(3) {
            0 => nested(&mut run.random),
            1 => (0..run.random.below(40)).map(|_| run.random.pick(MARKS)).collect(),
            _ => (0..run.random.below(1030)).map(|_| run.random.word() as u8).collect(),
        };
        read(run, &text);
    });
}

/// Text as deep as about 62 or 512 brackets, with a cut or more than enough behind.
fn nested(random: &mut Random) -> Vec<u8> {
    let depth = random.pick(&[60, 61, 62, 63, 64, 200, 254, 255, 256, 340, 341, 510, 512, 1023, 1024, 1025]);
    let tail: &[u8] = random.pick(&[b"@0)", b"@4294967295)", b"@4294967296)", b"@01)", b";B)", b"|(A+B))"]);
    let mut text = [vec![b'('; depth], vec![b'A'], tail.repeat(depth)].concat();
    text.truncate(random.pick(&[1022, 1023, 1024, 1025, 1026, 5000]));
    text
}

fn read(run: &mut Comparison, given: &[u8]) {
    let entries = given.iter().filter(|byte| b"|+-;@".contains(byte) || byte.is_ascii_alphabetic()).count();
    let room = run.random.room(5 * entries.min(63));
    let mut lent = Lent::bytes(&mut run.random, room);
    let answer = run.compare(
        &[&given],
        &mut lent,
        |body| mws::text_read(given, body.part()),
        |body| text::read(given, body.part()),
    );
    if let Some(bytes) = answer {
        print(run, &lent.part()[..bytes]);
    }
}

#[test]
fn bodies_are_judged_and_printed_as_the_rules_say() {
    rounds("bodies", 150_000, |run| {
        let most = run.random.pick(&[9, 9, 9, 66]);
        let size = 1 + run.random.below(most);
        let mut body = body::joined(&run.random.pattern(size, 32));
        print(run, &body);
        run.random.damage(&mut body, SMALL);
        print(run, &body);
        let entries: Vec<u8> =
            (0..5 * run.random.below(7)).map(|at| if at % 5 == 0 { run.random.below(6) as u8 } else { 0 }).collect();
        print(run, &entries);
    });
}

fn print(run: &mut Comparison, given: &[u8]) {
    run.answers(&[&given], || mws::body_check(given), || body::entries(given).map(|_| ()));
    let needed = body::entries(given).map_or(50, |entries| text::printed(&entries).len());
    let room = run.random.room(needed);
    let mut lent = Lent::bytes(&mut run.random, room);
    run.compare(
        &[&given],
        &mut lent,
        |text| mws::text_print(given, text.part()),
        |text| text::print(given, text.part()),
    );
}

#[test]
fn every_instance_is_found_by_the_plain_evaluation() {
    rounds("plain", 20_000, |run| {
        let ticks = if run.random.one_in(30) { 60 + run.random.below(7) } else { run.random.below(20) };
        let events: Vec<u32> = (0..ticks).map(|_| run.random.events(4)).collect();
        let size = 1 + run.random.below(if ticks > 20 { 7 } else { 16 });
        let mut body = body::joined(&run.random.pattern(size, 4));
        if run.random.one_in(10) {
            run.random.damage(&mut body, SMALL);
        }
        evaluate(run, &body, &events);
    });
}

fn evaluate(run: &mut Comparison, body: &[u8], events: &[u32]) {
    let room = run.random.room(64 * (body.len() / 5));
    let mut lent = Lent::words(&mut run.random, room);
    run.compare(
        &[&body, &events],
        &mut lent,
        |rows| mws::plain(body, events, rows.part()),
        |rows| instances::plain(body, events, rows.part()),
    );
}

#[test]
fn rows_tell_their_latest_start_and_their_count() {
    rounds("rows", 300_000, |run| {
        let row = run.random.word() & run.random.edge();
        let starts: Vec<u32> = (0..64).filter(|start| row >> start & 1 == 1).collect();
        let told = (mws::row_latest(row), mws::row_count(row));
        run.answers(&[], || Ok::<_, ()>(told), || Ok((starts.last().copied(), starts.len() as u32)));
    });
}

#[test]
fn the_tally_sums_windows_and_ticks() {
    rounds("tally", 300_000, |run| {
        let mut lent = Tally { windows: run.random.edge(), ticks: run.random.edge() };
        let (start, end) = (run.random.edge(), run.random.edge());
        let start = if run.random.one_in(3) { end } else { start };
        run.compare(&[], &mut lent, |tally| tally.add(start, end), |tally| tally::add(tally, start, end));
    });
}
