//! The watch program: what it prints for a whole input.
use super::body::{self, LETTER};
use super::{instances, text};
use mws::BODY_BYTES;

const LONGEST_LINE: usize = 1024;

/// The output for an input: a pattern on line 1, then a tick and its letters on each line.
pub fn printed(input: &[u8]) -> String {
    let mut lines = input.strip_suffix(b"\n").unwrap_or(input).split(|&byte| byte == b'\n');
    let mut pattern = [0; BODY_BYTES];
    let entries = match text::read(lines.next().unwrap_or_default(), &mut pattern) {
        Ok(bytes) => body::split(&pattern[..bytes]),
        Err(refusal) => return refused(1, refusal.number()),
    };
    let (mut ticks, mut events) = (Vec::new(), Vec::new());
    let mut end = None;
    for (index, line) in lines.enumerate() {
        match tick_line(line, ticks.last().map_or(0, |last| last + 1)) {
            Ok((tick, word)) => {
                ticks.push(tick);
                events.push(word);
            }
            Err(code) => {
                end = Some(refused(index + 2, code));
                break;
            }
        }
    }
    let found = instances::of_each(&entries, &ticks, &events).pop().unwrap();
    let windows: Vec<(u64, u64)> =
        (0..ticks.len()).filter_map(|end| found.latest(end).map(|start| (ticks[start], ticks[end]))).collect();
    let sum: u64 = windows.iter().map(|(start, end)| end - start + 1).sum();
    let mut output: String = windows.iter().map(|(start, end)| format!("{start} {end}\n")).collect();
    output += &end.unwrap_or_else(|| format!("windows {} ticks {sum}\n", windows.len()));
    output
}

fn refused(line: usize, code: u8) -> String {
    format!("refused line {line} code {code}\n")
}

/// A line's tick and word of events, or the number of its refusal.
fn tick_line(line: &[u8], next: u64) -> Result<(u64, u32), u8> {
    if line.len() > LONGEST_LINE {
        return Err(14);
    }
    let space = line.iter().position(|&byte| byte == b' ').ok_or(14)?;
    let (digits, letters) = (&line[..space], &line[space + 1..]);
    let leading_zero = digits.len() > 1 && digits[0] == b'0';
    if digits.is_empty() || leading_zero || !digits.iter().all(u8::is_ascii_digit) {
        return Err(14);
    }
    let types = letters.iter().map(|&letter| event_type(letter)).collect::<Option<Vec<u32>>>().ok_or(14)?;
    if types.is_empty() || types.windows(2).any(|two| two[0] >= two[1]) {
        return Err(14);
    }
    let tick = digits.iter().try_fold(0, |tick: u64, digit| {
        Some(tick * 10 + u64::from(digit - b'0')).filter(|&tick| tick <= u32::MAX.into())
    });
    match tick {
        None => Err(10),
        Some(tick) if tick < next => Err(11),
        Some(tick) => Ok((tick, types.iter().fold(0, |word, event| word | 1 << event))),
    }
}

/// The type of an event by its letter, as a pattern of that letter alone has it.
fn event_type(letter: u8) -> Option<u32> {
    let mut body = [0; 5];
    text::read(&[letter], &mut body).ok()?;
    body::split(&body).first().filter(|entry| entry.op == LETTER).map(|entry| entry.argument)
}
