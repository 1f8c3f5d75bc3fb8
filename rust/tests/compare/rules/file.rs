//! Pattern files: contents, then bodies.
use super::body;
use super::text::fill;
use mws::{Found, Missed, Refusal, Whose};
use std::ops::Range;

/// What the contents say of one pattern.
struct Line<'a> {
    name: &'a [u8],
    entries: u8,
}

pub fn check(file: &[u8]) -> Result<(), Refusal> {
    parts(file).map(|_| ())
}

/// A name, and the part of its file that is the body.
type Part<'a> = (&'a [u8], Range<usize>);

/// The parts of a sound file.
pub fn parts(file: &[u8]) -> Result<Vec<Part<'_>>, Refusal> {
    let count = usize::from(*file.first().ok_or(Refusal::Count)?);
    let contents = 1 + 12 * count;
    if !(1..=16).contains(&count) || file.len() < contents {
        return Err(Refusal::Count);
    }
    let mut from = contents;
    let mut parts: Vec<Part> = Vec::new();
    for (index, line) in file[1..contents].chunks(12).enumerate() {
        let entry = Line { name: &line[..8], entries: line[10] };
        let offset = usize::from(u16::from_le_bytes([line[8], line[9]]));
        if !sound(&entry, parts.last().map(|part| part.0)) || offset != from || line[11] != 0 {
            return Err(Refusal::Entry { index: index as u32 });
        }
        let end = from + 5 * usize::from(entry.entries);
        parts.push((entry.name, from..end));
        from = end;
    }
    if from != file.len() {
        return Err(Refusal::Size);
    }
    bodies_sound(parts.iter().map(|part| &file[part.1.clone()]))?;
    Ok(parts)
}

/// Whether a name is well formed and later than the one before, and the number of entries fits.
fn sound(line: &Line, before: Option<&[u8]>) -> bool {
    let letters = line.name.iter().take_while(|byte| byte.is_ascii_uppercase() || byte.is_ascii_digit()).count();
    let padded = line.name[letters..].iter().all(|&byte| byte == b' ');
    letters > 0 && padded && before < Some(line.name) && (1..=63).contains(&line.entries)
}

fn bodies_sound<'a>(bodies: impl Iterator<Item = &'a [u8]>) -> Result<(), Refusal> {
    for (index, bytes) in bodies.enumerate() {
        if let Some(entry) = body::first_fault(&body::split(bytes)) {
            return Err(Refusal::Body { index: index as u32, entry: entry as u8 });
        }
    }
    Ok(())
}

pub fn write(names: &[u8], counts: &[u8], bodies: &[u8], file: &mut [u8]) -> Result<usize, Refusal> {
    if !(1..=16).contains(&counts.len()) || names.len() != 8 * counts.len() {
        return Err(Refusal::Count);
    }
    let names: Vec<&[u8]> = names.chunks(8).collect();
    for (index, &entries) in counts.iter().enumerate() {
        let before = index.checked_sub(1).map(|before| names[before]);
        if !sound(&Line { name: names[index], entries }, before) {
            return Err(Refusal::Entry { index: index as u32 });
        }
    }
    if bodies.len() != counts.iter().map(|&entries| 5 * usize::from(entries)).sum::<usize>() {
        return Err(Refusal::Size);
    }
    let mut rest = bodies;
    bodies_sound(counts.iter().map(|&entries| {
        let (body, others) = rest.split_at(5 * usize::from(entries));
        rest = others;
        body
    }))?;
    fill(file, &joined(&names, counts, bodies))
}

/// The bytes of a file.
pub fn joined(names: &[&[u8]], counts: &[u8], bodies: &[u8]) -> Vec<u8> {
    let mut file = vec![counts.len() as u8];
    let mut offset = 1 + 12 * counts.len() as u16;
    for (name, &entries) in names.iter().zip(counts) {
        file.extend_from_slice(name);
        file.extend_from_slice(&offset.to_le_bytes());
        file.extend_from_slice(&[entries, 0]);
        offset += 5 * u16::from(entries);
    }
    file.extend_from_slice(bodies);
    file
}

pub fn lookup(site: &[u8], fleet: &[u8], name: &[u8]) -> Result<Found, Missed> {
    let broken = |whose| move |refusal| Missed { whose: Some(whose), refusal };
    let site_parts = parts(site).map_err(broken(Whose::Site))?;
    let fleet_parts = parts(fleet).map_err(broken(Whose::Fleet))?;
    for (whose, parts) in [(Whose::Site, site_parts), (Whose::Fleet, fleet_parts)] {
        if let Some((_, body)) = parts.into_iter().find(|part| part.0 == name) {
            return Ok(Found { whose, body });
        }
    }
    Err(Missed { whose: None, refusal: Refusal::Absent })
}
