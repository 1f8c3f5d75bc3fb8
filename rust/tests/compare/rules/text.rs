//! Pattern text: read byte by byte with a stack of what stands open, printed from the tree's operands up.
use super::body::{self, Entry, BOTH, LETTER, OR, THEN, WITHIN, WITHOUT};
use mws::Refusal;

/// What may come next.
enum Expected {
    Expression,
    Tail,
    Number,
    Digits(u64),
    Close,
    Nothing,
}

struct Reader {
    expected: Expected,
    /// For each open bracket the operator of its tail, once that is read.
    open: Vec<Option<u8>>,
    entries: Vec<Entry>,
}

pub fn read(text: &[u8], body: &mut [u8]) -> Result<usize, Refusal> {
    if text.len() > 1024 {
        return Err(Refusal::Long);
    }
    let mut reader = Reader { expected: Expected::Expression, open: Vec::new(), entries: Vec::new() };
    let place = text.iter().take_while(|&&byte| reader.take(byte)).count();
    if !matches!(reader.expected, Expected::Nothing) || place < text.len() {
        return Err(Refusal::Syntax { place: place as u32 });
    }
    if reader.entries.len() > 63 {
        return Err(Refusal::Many);
    }
    fill(body, &body::joined(&reader.entries))
}

impl Reader {
    /// Takes a byte, if some expression goes on with it.
    fn take(&mut self, byte: u8) -> bool {
        match (&self.expected, byte) {
            (Expected::Expression, b'(') => self.open.push(None),
            (Expected::Expression, b'A'..=b'Z') => self.close(LETTER, (byte - b'A').into()),
            (Expected::Expression, b'a'..=b'f') => self.close(LETTER, (byte - b'a' + 26).into()),
            (Expected::Tail, b'@') => self.expected = Expected::Number,
            (Expected::Tail, b'|') => self.operator(OR),
            (Expected::Tail, b'+') => self.operator(BOTH),
            (Expected::Tail, b'-') => self.operator(WITHOUT),
            (Expected::Tail, b';') => self.operator(THEN),
            (Expected::Number, b'0'..=b'9') => self.expected = Expected::Digits((byte - b'0').into()),
            (Expected::Digits(number), b'0'..=b'9') => return self.digit(*number, byte - b'0'),
            (Expected::Digits(number), b')') => {
                let limit = *number as u32;
                self.open.pop();
                self.close(WITHIN, limit);
            }
            (Expected::Close, b')') => {
                let operator = self.open.pop().flatten().unwrap();
                self.close(operator, 0);
            }
            _ => return false,
        }
        true
    }

    fn operator(&mut self, operator: u8) {
        *self.open.last_mut().unwrap() = Some(operator);
        self.expected = Expected::Expression;
    }

    fn digit(&mut self, number: u64, digit: u8) -> bool {
        let longer = number * 10 + u64::from(digit);
        let fits = number != 0 && longer <= u32::MAX.into();
        if fits {
            self.expected = Expected::Digits(longer);
        }
        fits
    }

    /// Ends an expression with its entry.
    fn close(&mut self, op: u8, argument: u32) {
        self.entries.push(Entry { op, argument });
        self.expected = match self.open.last() {
            None => Expected::Nothing,
            Some(None) => Expected::Tail,
            Some(Some(_)) => Expected::Close,
        };
    }
}

pub fn print(body: &[u8], text: &mut [u8]) -> Result<usize, Refusal> {
    let printed = printed(&body::entries(body)?);
    fill(text, printed.as_bytes())
}

/// The text of sound entries.
pub fn printed(entries: &[Entry]) -> String {
    let mut trees: Vec<String> = Vec::new();
    for entry in entries {
        let tree = match entry.op {
            LETTER => letter(entry.argument).to_string(),
            WITHIN => format!("({}@{})", trees.pop().unwrap(), entry.argument),
            op => {
                let right = trees.pop().unwrap();
                format!("({}{}{right})", trees.pop().unwrap(), [' ', '|', '+', '-', ';'][usize::from(op)])
            }
        };
        trees.push(tree);
    }
    trees.pop().unwrap()
}

fn letter(event: u32) -> char {
    ('A'..='Z').chain('a'..='f').nth(event as usize).unwrap()
}

/// Writes at the front of a slice, if it is long enough.
pub fn fill(slice: &mut [u8], written: &[u8]) -> Result<usize, Refusal> {
    let needed = written.len();
    slice.get_mut(..needed).ok_or(Refusal::Room { needed: needed as u32 })?.copy_from_slice(written);
    Ok(needed)
}
