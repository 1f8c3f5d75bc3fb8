//! The instances of a pattern over a whole record, by the rules of the algebra and nothing else.
use super::body::{self, Entry, BOTH, LETTER, OR, THEN, WITHIN};
use mws::Refusal;

/// The instances of one entry: a mark for each start and end, both as places in the record.
#[derive(Clone)]
pub struct Instances {
    size: usize,
    marks: Vec<bool>,
}

impl Instances {
    fn none(size: usize) -> Self {
        Instances { size, marks: vec![false; size * size] }
    }

    pub fn has(&self, start: usize, end: usize) -> bool {
        self.marks[start * self.size + end]
    }

    fn mark(&mut self, start: usize, end: usize) {
        self.marks[start * self.size + end] = true;
    }

    fn all(&self) -> Vec<(usize, usize)> {
        let size = self.size;
        (0..size * size).filter(|&at| self.marks[at]).map(|at| (at / size, at % size)).collect()
    }

    /// The latest start of an instance with this end.
    pub fn latest(&self, end: usize) -> Option<usize> {
        (0..self.size).rev().find(|&start| self.has(start, end))
    }
}

/// The instances of each entry over the ticks of a record with their events.
pub fn of_each(entries: &[Entry], ticks: &[u64], events: &[u32]) -> Vec<Instances> {
    let mut trees: Vec<Instances> = Vec::new();
    let mut each = Vec::new();
    for entry in entries {
        let found = match entry.op {
            LETTER => of_letter(entry.argument, events),
            WITHIN => kept(trees.pop().unwrap(), |(start, end)| ticks[end] - ticks[start] <= entry.argument.into()),
            op => {
                let right = trees.pop().unwrap();
                of_pair(op, trees.pop().unwrap(), right)
            }
        };
        trees.push(found.clone());
        each.push(found);
    }
    each
}

fn of_letter(event: u32, events: &[u32]) -> Instances {
    let mut found = Instances::none(events.len());
    for (tick, events) in events.iter().enumerate() {
        if events >> event & 1 == 1 {
            found.mark(tick, tick);
        }
    }
    found
}

fn kept(from: Instances, stays: impl Fn((usize, usize)) -> bool) -> Instances {
    let mut found = Instances::none(from.size);
    for (start, end) in from.all().into_iter().filter(|&instance| stays(instance)) {
        found.mark(start, end);
    }
    found
}

fn of_pair(op: u8, left: Instances, right: Instances) -> Instances {
    let (xs, ys) = (left.all(), right.all());
    let mut found = Instances::none(left.size);
    match op {
        OR => xs.iter().chain(&ys).for_each(|&(start, end)| found.mark(start, end)),
        BOTH => each_pair(&xs, &ys, |x, y| found.mark(x.0.min(y.0), x.1.max(y.1))),
        THEN => each_pair(&xs, &ys, |x, y| {
            if x.1 < y.0 {
                found.mark(x.0, y.1)
            }
        }),
        _ => found = kept(left, |x| !ys.iter().any(|y| y.0 >= x.0 && y.1 <= x.1)),
    }
    found
}

fn each_pair(xs: &[(usize, usize)], ys: &[(usize, usize)], mut visit: impl FnMut((usize, usize), (usize, usize))) {
    for &x in xs {
        for &y in ys {
            visit(x, y);
        }
    }
}

pub fn plain(body: &[u8], events: &[u32], rows: &mut [u64]) -> Result<(), Refusal> {
    let entries = body::entries(body)?;
    if events.len() > 64 {
        return Err(Refusal::Record);
    }
    let needed = 64 * entries.len();
    let rows = rows.get_mut(..needed).ok_or(Refusal::Room { needed: needed as u32 })?;
    rows.fill(0);
    let ticks: Vec<u64> = (0..events.len() as u64).collect();
    for (entry, found) in of_each(&entries, &ticks, events).iter().enumerate() {
        for (start, end) in found.all() {
            rows[64 * entry + end] |= 1 << start;
        }
    }
    Ok(())
}
