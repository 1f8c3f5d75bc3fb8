//! Bodies: a tree in postfix order, 5 bytes an entry.
use mws::Refusal;

pub const LETTER: u8 = 0;
pub const OR: u8 = 1;
pub const BOTH: u8 = 2;
pub const WITHOUT: u8 = 3;
pub const THEN: u8 = 4;
pub const WITHIN: u8 = 5;

#[derive(Clone, Copy, Debug, PartialEq, Eq)]
pub struct Entry {
    pub op: u8,
    pub argument: u32,
}

/// The entries of a lone body, if it is sound.
pub fn entries(body: &[u8]) -> Result<Vec<Entry>, Refusal> {
    if body.len() % 5 != 0 || !(1..=63).contains(&(body.len() / 5)) {
        return Err(Refusal::Size);
    }
    let entries = split(body);
    match first_fault(&entries) {
        Some(entry) => Err(Refusal::Body { index: 0, entry: entry as u8 }),
        None => Ok(entries),
    }
}

/// The entries that bytes stand for, sound or not.
pub fn split(body: &[u8]) -> Vec<Entry> {
    let entry = |bytes: &[u8]| Entry { op: bytes[0], argument: u32::from_le_bytes(bytes[1..].try_into().unwrap()) };
    body.chunks(5).map(entry).collect()
}

/// The bytes of entries.
pub fn joined(entries: &[Entry]) -> Vec<u8> {
    let bytes = |entry: &Entry| [vec![entry.op], entry.argument.to_le_bytes().to_vec()].concat();
    entries.iter().flat_map(bytes).collect()
}

/// The lowest entry that breaks a rule, or the number of entries if several trees are left.
pub fn first_fault(entries: &[Entry]) -> Option<usize> {
    let mut trees = 0;
    for (index, entry) in entries.iter().enumerate() {
        let (operands, argument_fits) = match entry.op {
            LETTER => (0, entry.argument < 32),
            OR | BOTH | WITHOUT | THEN => (2, entry.argument == 0),
            WITHIN => (1, true),
            _ => return Some(index),
        };
        if !argument_fits || trees < operands {
            return Some(index);
        }
        trees = trees - operands + 1;
    }
    (trees != 1).then_some(entries.len())
}
