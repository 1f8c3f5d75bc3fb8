//! The cases at the edges that the document of the rules names.
use mws::*;

fn body(text: &str) -> Result<Vec<u8>, Refusal> {
    let mut body = vec![0; BODY_BYTES];
    let bytes = text_read(text.as_bytes(), &mut body)?;
    body.truncate(bytes);
    Ok(body)
}

/// The windows that a pattern finds in a record such as `A1 BC2`: letters, then the tick.
fn windows(pattern: &str, record: &str) -> Vec<(u64, u64)> {
    let body = body(pattern).unwrap();
    let mut state = vec![0; watch_room(&body).unwrap()];
    watch_open(&body, &mut state).unwrap();
    let mut found = Vec::new();
    for line in record.split(' ') {
        let (letters, tick) = line.split_at(line.find(|mark: char| mark.is_ascii_digit()).unwrap());
        let tick = tick.parse().unwrap();
        let events = letters.bytes().fold(0, |events, letter| events | event(letter));
        found.extend(watch_tick(&mut state, tick, events).unwrap().map(|start| (start, tick)));
    }
    found
}

#[test]
fn windows_at_the_edges() {
    assert_eq!(windows("(A;B)", "A0 B1"), [(0, 1)]);
    assert_eq!(windows("(A;A)", "A4"), []);
    assert_eq!(windows("(A;A)", "A4 A7"), [(4, 7)]);
    assert_eq!(windows("(A+A)", "A4"), [(4, 4)]);
    assert_eq!(windows("(A-A)", "A4"), []);
    assert_eq!(windows("(A;(B;C))", "A1 B2 A3 C4 B5 C6"), [(1, 4), (3, 6)]);
    assert_eq!(windows("(B;(A;C))", "A1 B2 C3"), []);
    assert_eq!(windows("((A;B)-C)", "AC2 B5"), []);
    assert_eq!(windows("((A;B)-C)", "C1 A2 B5"), [(2, 5)]);
    assert_eq!(windows("((A;B)-(C;D))", "C1 A2 D3 B4"), [(2, 4)]);
    assert_eq!(windows("((A;B)@3)", "A0 B3"), [(0, 3)]);
    assert_eq!(windows("((A;B)@3)", "A0 B4"), []);
}

#[test]
fn the_watch_example() {
    let record = "B1 B2 P3 B4 B5 B8 BT9 B10 B11";
    let found = windows("(((B;B)@2)-(P|T))", record);
    assert_eq!(found, [(1, 2), (4, 5), (10, 11)]);
    let mut tally = Tally::default();
    found.into_iter().for_each(|(start, end)| tally.add(start, end).unwrap());
    assert_eq!(tally, Tally { windows: 3, ticks: 6 });
}

#[test]
fn rows_and_room() {
    let (a, b) = (event(b'A'), event(b'B'));
    let mut rows = [0; 3 * ROWS];
    plain(&body("(A;B)").unwrap(), &[a, a, b], &mut rows).unwrap();
    assert_eq!(rows[2 * ROWS..][..3], [0, 0, 3]);
    assert_eq!((row_latest(3), row_count(3)), (Some(1), 2));
    plain(&body("(A+B)").unwrap(), &[a, b, a], &mut rows).unwrap();
    assert_eq!(rows[2 * ROWS..][..3], [0, 1, 2]);
    assert_eq!((row_latest(0), row_count(0)), (None, 0));
    assert_eq!(watch_room(&body("(A;(B;C))").unwrap()), Ok(13));
}

#[test]
fn places_where_text_stops() {
    let texts = [("", 0), ("(A;B", 4), ("(A;B))", 5), ("(A@07)", 4), ("(A@4294967296)", 12), ("g", 0)];
    for (text, place) in texts {
        assert_eq!(body(text), Err(Refusal::Syntax { place }), "{text}");
    }
}

#[test]
fn restrictions_as_many_as_fit() {
    let restricted = |times| format!("{}A{}", "(".repeat(times), "@0)".repeat(times));
    assert_eq!(body(&restricted(62)).map(|body| body.len()), Ok(BODY_BYTES));
    assert_eq!(body(&restricted(63)), Err(Refusal::Many));
}

#[test]
fn ticks_at_the_limit() {
    let mut state = [0; 3];
    watch_open(&body("A").unwrap(), &mut state).unwrap();
    assert_eq!(watch_tick(&mut state, 5, 1), Ok(Some(5)));
    assert_eq!(watch_tick(&mut state, 5, 1), Err(Refusal::Late { index: 0 }));
    assert_eq!(watch_tick(&mut state, LAST_TICK + 1, 1), Err(Refusal::Range { index: 0 }));
    assert_eq!(watch_tick(&mut state, LAST_TICK, 1), Ok(Some(LAST_TICK)));
}

#[test]
fn the_smallest_file() {
    let expected = b"\x01W       \x0d\0\x01\0\0\0\0\0\0";
    let mut file = [0xff; 20];
    assert_eq!(file_write(b"W       ", &[1], &body("A").unwrap(), &mut file), Ok(18));
    assert_eq!(file[..18], expected[..]);
    assert_eq!(file[18..], [0xff; 2]);
    assert_eq!(file_lookup(expected, expected, b"W       "), Ok(Found { whose: Whose::Site, body: 13..18 }));
}

/// A file with one pattern, a letter.
fn file(name: &[u8; 8], letter: &str) -> Vec<u8> {
    let mut file = vec![0; 18];
    assert_eq!(file_write(name, &[1], &body(letter).unwrap(), &mut file), Ok(18));
    file
}

#[test]
fn the_part_found_is_of_the_file_that_has_the_name() {
    let (site, fleet) = (file(b"W       ", "A"), [file(b"W       ", "B"), file(b"X       ", "C")]);
    let in_site = file_lookup(&site, &fleet[0], b"W       ").unwrap();
    assert_eq!((in_site.whose, in_site.part(&site, &fleet[0])), (Whose::Site, &body("A").unwrap()[..]));
    let in_fleet = file_lookup(&site, &fleet[1], b"X       ").unwrap();
    assert_eq!((in_fleet.whose, in_fleet.part(&site, &fleet[1])), (Whose::Fleet, &body("C").unwrap()[..]));
    assert_eq!(in_fleet.part(&site, &[]), []);
    let missed = file_lookup(&site, &fleet[1], b"Y       ").unwrap_err();
    assert_eq!(missed, Missed { whose: None, refusal: Refusal::Absent });
}

#[test]
fn refusals_have_the_numbers_of_the_table() {
    let refusal = body("(A;B))").unwrap_err();
    assert_eq!((refusal.number(), refusal.place()), (2, 5));
    assert_eq!(refusal.to_string(), "refused: number 2 at 5");
    let refusal = body_check(&[0, 0, 0, 0, 0, 1, 0, 0, 0, 0]).unwrap_err();
    assert_eq!((refusal, refusal.number()), (Refusal::Body { index: 0, entry: 1 }, 7));
}

#[test]
fn empty_slices_are_refused_and_nothing_else() {
    assert_eq!(body_check(&[]), Err(Refusal::Size));
    assert_eq!(file_check(&[]), Err(Refusal::Count));
    assert_eq!(watch_tick(&mut [], 0, 0), Err(Refusal::State { index: 0 }));
    assert_eq!(text_read(b"A", &mut []), Err(Refusal::Room { needed: 5 }));
    assert_eq!(set_tick(&mut [], 1, 0, 0, &mut [0]), Err(Refusal::State { index: 0 }));
}
