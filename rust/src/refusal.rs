//! What a call answers when it does not do what was asked.

/// Why a call was refused, and at which place. A refused call leaves everything that it was lent as it was.
///
/// A place that does not fit 32 bits is given as [`u32::MAX`]. A later version of the library may have more refusals.
#[derive(Clone, Copy, Debug, PartialEq, Eq, Hash)]
#[non_exhaustive]
pub enum Refusal {
    /// Pattern text over 1,024 bytes.
    Long,
    /// The text is no expression; its first `place` bytes still begin one.
    Syntax { place: u32 },
    /// The text has over 63 entries.
    Many,
    /// The number of patterns is not 1 to 16, the contents are cut short, or the names are not 8 bytes a pattern.
    Count,
    /// An entry of a file's contents breaks a rule.
    Entry { index: u32 },
    /// A file or a body ends too early or too late.
    Size,
    /// A body breaks a rule at an entry; a lone body has index 0.
    Body { index: u32, entry: u8 },
    /// A slice is too short.
    Room { needed: u32 },
    /// A state is not in form; a lone state has index 0.
    State { index: u32 },
    /// A tick or a window's end over 4,294,967,295, or a window that ends before it starts; of a feed the tick's index, else 0.
    Range { index: u32 },
    /// A tick below the next allowed; of a set the state's index, of a feed the tick's, else 0.
    Late { index: u32 },
    /// More than 64 event words, or a feed with not as many events as ticks.
    Record,
    /// The tally would pass 64 bits.
    Full,
    /// A malformed input line.
    Line,
    /// The name is in neither file.
    Absent,
    /// A refusal that this crate does not know; only another version of the library can give it.
    Other { number: u8, place: u32 },
}

impl Refusal {
    /// The refusal's number.
    pub fn number(self) -> u8 {
        match self {
            Refusal::Long => 1,
            Refusal::Syntax { .. } => 2,
            Refusal::Many => 3,
            Refusal::Count => 4,
            Refusal::Entry { .. } => 5,
            Refusal::Size => 6,
            Refusal::Body { .. } => 7,
            Refusal::Room { .. } => 8,
            Refusal::State { .. } => 9,
            Refusal::Range { .. } => 10,
            Refusal::Late { .. } => 11,
            Refusal::Record => 12,
            Refusal::Full => 13,
            Refusal::Line => 14,
            Refusal::Absent => 15,
            Refusal::Other { number, .. } => number,
        }
    }

    /// The refusal's place, 0 where none is named; of [`Refusal::Body`] the body's index.
    pub fn place(self) -> u32 {
        match self {
            Refusal::Syntax { place } | Refusal::Other { place, .. } => place,
            Refusal::Room { needed } => needed,
            Refusal::Entry { index }
            | Refusal::Body { index, .. }
            | Refusal::State { index }
            | Refusal::Range { index }
            | Refusal::Late { index } => index,
            _ => 0,
        }
    }

    /// The refusal that a status word names, or none if the call was accepted.
    pub(crate) fn of(status: u64) -> Option<Refusal> {
        let place = (status >> 8) as u32;
        Some(match status as u8 {
            0 => return None,
            1 => Refusal::Long,
            2 => Refusal::Syntax { place },
            3 => Refusal::Many,
            4 => Refusal::Count,
            5 => Refusal::Entry { index: place },
            6 => Refusal::Size,
            7 => Refusal::Body { index: place, entry: (status >> 40) as u8 },
            8 => Refusal::Room { needed: place },
            9 => Refusal::State { index: place },
            10 => Refusal::Range { index: place },
            11 => Refusal::Late { index: place },
            12 => Refusal::Record,
            13 => Refusal::Full,
            14 => Refusal::Line,
            15 => Refusal::Absent,
            number => Refusal::Other { number, place },
        })
    }
}

impl core::fmt::Display for Refusal {
    fn fmt(&self, page: &mut core::fmt::Formatter<'_>) -> core::fmt::Result {
        write!(page, "refused: number {} at {}", self.number(), self.place())?;
        match self {
            Refusal::Body { entry, .. } => write!(page, ", entry {entry}"),
            _ => Ok(()),
        }
    }
}

impl core::error::Error for Refusal {}

#[cfg(test)]
mod tests {
    use super::Refusal;

    #[test]
    fn every_number_is_a_refusal() {
        for number in 1..=255 {
            let refusal = Refusal::of(number | 0xffff_ffff << 8 | 9 << 40).unwrap();
            assert_eq!(u64::from(refusal.number()), number);
            assert_eq!(matches!(refusal, Refusal::Other { .. }), number > 15);
            assert!(number <= 15 || refusal.place() == u32::MAX);
        }
        assert_eq!(Refusal::of(0), None);
    }
}
