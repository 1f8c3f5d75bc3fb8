//! The watch program, on whole inputs.
use crate::comparison::{rounds, Comparison};
use crate::random::Random;
use crate::rules::{log, text};
use std::env;
use std::io::{stderr, Write};
use std::path::{Path, PathBuf};
use std::process::{Command, Stdio};
use std::thread;

const LETTERS: usize = 4;
const LIKELY: &[u8] = b"0123456789 ABCDf\n\n\n();|@g";

/// The program: the one that `MWS_WATCH` names, which must be there; else the one in the repository, if it was built.
fn program() -> Option<PathBuf> {
    if let Some(named) = env::var_os("MWS_WATCH") {
        let named = PathBuf::from(named);
        assert!(named.is_file(), "MWS_WATCH names {}, and there is no such file", named.display());
        return Some(named);
    }
    let built = Path::new(env!("CARGO_MANIFEST_DIR")).join("../crates/watch/out/watch");
    if !built.is_file() {
        let missing = built.display();
        writeln!(stderr(), "SKIPPED: no watch program at {missing}; run `rt run` in crates/watch, or name it in MWS_WATCH")
            .unwrap();
        return None;
    }
    Some(built)
}

#[test]
fn the_watch_program_prints_what_the_rules_say() {
    let Some(program) = program() else { return };
    rounds("watch program", 1_500, |run| {
        let mut input = any_log(&mut run.random);
        watch(run, &program, &input);
        run.random.damage(&mut input, LIKELY);
        watch(run, &program, &input);
    });
}

/// A pattern and a record that are sound, but for a line at times.
fn any_log(random: &mut Random) -> Vec<u8> {
    let long = random.one_in(12);
    let size = 1 + random.below(if long { 5 } else { 14 });
    let mut log = text::printed(&random.pattern(size, LETTERS));
    let mut next = random.pick(&[0, 0, 0, 7, u64::from(u32::MAX) - 20]);
    for _ in 0..random.below(if long { 150 } else { 25 }) {
        let tick = random.later(next);
        let word = random.events(LETTERS).max(1);
        log += &format!("\n{tick} {}", letters(word));
        next = tick + 1;
    }
    if random.one_in(8) {
        log += &any_fault(random, next);
    }
    log += random.pick(&["", "\n"]);
    log.into_bytes()
}

fn letters(word: u32) -> String {
    ('A'..='Z').chain('a'..='f').enumerate().filter(|(bit, _)| word >> bit & 1 == 1).map(|(_, letter)| letter).collect()
}

/// A line that is late, out of range, too long or malformed, and one more behind it.
fn any_fault(random: &mut Random, next: u64) -> String {
    let line = match random.below(6) {
        0 => format!("{} A", next.saturating_sub(1)),
        1 => format!("{} A", u64::from(u32::MAX) + 1 + random.below(2) as u64),
        2 => format!("{} A", "9".repeat(1018 + random.below(8))),
        3 => format!("{next} {}", "AB".repeat(random.below(700))),
        4 => "A".repeat(random.below(70_000)),
        _ => format!("0{next} A"),
    };
    format!("\n{line}\n{next} B")
}

fn watch(run: &mut Comparison, program: &Path, input: &[u8]) {
    run.answers(&[&input], || output(program, input), || Ok((log::printed(input), String::new())));
}

/// What the program writes on standard output and on standard error.
fn output(program: &Path, input: &[u8]) -> Result<(String, String), String> {
    let mut child = Command::new(program)
        .stdin(Stdio::piped())
        .stdout(Stdio::piped())
        .stderr(Stdio::piped())
        .spawn()
        .map_err(|error| error.to_string())?;
    let mut stdin = child.stdin.take().unwrap();
    let output = thread::scope(|scope| {
        // the program may end at a refused line and leave the rest unread
        scope.spawn(move || drop(stdin.write_all(input)));
        child.wait_with_output()
    });
    let output = output.map_err(|error| error.to_string())?;
    if !output.status.success() {
        return Err(output.status.to_string());
    }
    Ok((String::from_utf8_lossy(&output.stdout).into(), String::from_utf8_lossy(&output.stderr).into()))
}
