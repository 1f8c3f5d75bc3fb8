//! Pattern files: check, write and lookup.
use crate::comparison::{rounds, Comparison, Lent};
use crate::random::Random;
use crate::rules::{body, file};

const LIKELY: &[u8] = &[0, 1, 2, 3, 4, 5, 13, 16, 17, 63, 64, b' ', b'A', b'Z', b'0', b'a', b'['];

/// What the writer takes.
pub struct Parts {
    pub names: Vec<u8>,
    pub counts: Vec<u8>,
    pub bodies: Vec<u8>,
}

impl Parts {
    /// Sound parts of as many patterns, each of a few entries.
    pub fn random(random: &mut Random, patterns: usize, most: usize) -> Parts {
        let mut parts = Parts { names: names(random, patterns), counts: Vec::new(), bodies: Vec::new() };
        for _ in 0..patterns {
            let size = 1 + random.below(most);
            parts.counts.push(size as u8);
            parts.bodies.extend(body::joined(&random.pattern(size, 4)));
        }
        parts
    }

    pub fn file(&self) -> Vec<u8> {
        file::joined(&self.names.chunks(8).collect::<Vec<_>>(), &self.counts, &self.bodies)
    }
}

/// Names that rise, from so few letters that two files share some.
fn names(random: &mut Random, patterns: usize) -> Vec<u8> {
    let mut names: Vec<[u8; 8]> = Vec::new();
    while names.len() < patterns {
        let mut name = [b' '; 8];
        let letters = random.pick(&[1, 1, 2, 2, 8]);
        name[..letters].iter_mut().for_each(|byte| *byte = random.pick(b"AZ09MK"));
        names.push(name);
        names.sort();
        names.dedup();
    }
    names.concat()
}

/// How many patterns a file gets: mostly few, at times as many as it can hold.
pub fn patterns(random: &mut Random) -> usize {
    random.pick(&[1, 1, 2, 2, 3, 4, 5, 16])
}

/// A file, sound or with a byte changed, a part cut, or more.
pub fn any_file(random: &mut Random, damaged_one_in: usize) -> Vec<u8> {
    let count = patterns(random);
    let most = random.pick(&[1, 3, 3, 8, 63]);
    let mut file = Parts::random(random, count, most).file();
    if random.one_in(damaged_one_in) {
        change(random, &mut file);
    }
    file
}

/// Changes a byte of the contents or of the bodies, or the length.
fn change(random: &mut Random, file: &mut Vec<u8>) {
    let contents = (1 + 12 * usize::from(file[0])).min(file.len());
    let within = random.pick(&[1, contents, file.len()]);
    match random.below(6) {
        0 => random.damage(file, LIKELY),
        1 => swap_names(random, file),
        _ => {
            let at = random.below(within);
            file[at] = random.pick(LIKELY);
        }
    }
}

/// Gives an entry of the contents the name of another.
fn swap_names(random: &mut Random, file: &mut [u8]) {
    let count = usize::from(file[0]);
    let (from, to) = (1 + 12 * random.below(count), 1 + 12 * random.below(count));
    file.copy_within(from..from + 8, to);
}

#[test]
fn files_are_judged_as_the_rules_say() {
    rounds("files", 250_000, |run| {
        let mut file = any_file(&mut run.random, 2);
        check(run, &file);
        run.random.damage(&mut file, LIKELY);
        check(run, &file);
    });
}

fn check(run: &mut Comparison, file: &[u8]) {
    run.answers(&[&file], || mws::file_check(file), || file::check(file));
}

#[test]
fn files_are_written_as_the_rules_say() {
    rounds("file writing", 150_000, |run| {
        let count = patterns(&mut run.random);
        let mut parts = Parts::random(&mut run.random, count, 4);
        write(run, &parts);
        for part in [&mut parts.names, &mut parts.counts, &mut parts.bodies] {
            if run.random.one_in(3) {
                run.random.damage(part, LIKELY);
            }
        }
        write(run, &parts);
    });
}

fn write(run: &mut Comparison, parts: &Parts) {
    let Parts { names, counts, bodies } = parts;
    let (names, counts, bodies) = (&names[..], &counts[..], &bodies[..]);
    let room = run.random.room(1 + 12 * counts.len() + bodies.len());
    let mut lent = Lent::bytes(&mut run.random, room);
    run.compare(
        &[&names, &counts, &bodies],
        &mut lent,
        |file| mws::file_write(names, counts, bodies, file.part()),
        |file| file::write(names, counts, bodies, file.part()),
    );
}

#[test]
fn names_are_looked_up_in_the_site_file_first() {
    rounds("lookup", 150_000, |run| {
        let site = any_file(&mut run.random, 8);
        let fleet = any_file(&mut run.random, 8);
        for _ in 0..3 {
            let name = any_name(&mut run.random, &site, &fleet);
            look_up(run, &site, &fleet, &name);
        }
    });
}

/// A name of one of the files, another name, or no name at all.
fn any_name(random: &mut Random, site: &[u8], fleet: &[u8]) -> Vec<u8> {
    let file = if random.one_in(2) { site } else { fleet };
    let at = 1 + 12 * random.below(file.first().map_or(1, |&count| count.max(1).into()));
    let mut name = match file.get(at..at + 8) {
        Some(name) if !random.one_in(6) => name.to_vec(),
        _ => names(random, 1),
    };
    if random.one_in(8) {
        random.damage(&mut name, LIKELY);
    }
    name
}

fn look_up(run: &mut Comparison, site: &[u8], fleet: &[u8], name: &[u8]) {
    run.answers(&[&site, &fleet, &name], || mws::file_lookup(site, fleet, name), || file::lookup(site, fleet, name));
}
