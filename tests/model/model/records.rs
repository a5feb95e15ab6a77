//! The bench program's input, cut into records: length (counting what follows), kind, body.

/// "Records of length over 5,000 .. are refused and skipped."
const LONGEST_RECORD: usize = 5_000;

#[derive(Clone, Copy, Debug, PartialEq, Eq)]
pub enum Record<'a> {
    /// A record that is all there; its body may still be of the wrong size for its kind.
    Whole { kind: u16, body: &'a [u8] },
    /// All there, and skipped.
    Overlong { kind: u16 },
    /// "A length under 2 or a cut record, however long it claims to be, ends the run."
    Ends,
}

pub struct Records<'a> {
    rest: &'a [u8],
}

pub fn records(input: &[u8]) -> Records<'_> {
    Records { rest: input }
}

impl<'a> Records<'a> {
    /// The input behind the records that were taken.
    pub fn rest(&self) -> &'a [u8] {
        self.rest
    }

    fn next_whole(&mut self) -> Option<Record<'a>> {
        let (length, rest) = split_number(self.rest)?;
        let (record, rest) = rest.split_at_checked(usize::from(length))?;
        let (kind, body) = split_number(record)?;
        self.rest = rest;
        if record.len() > LONGEST_RECORD {
            return Some(Record::Overlong { kind });
        }
        Some(Record::Whole { kind, body })
    }
}

impl<'a> Iterator for Records<'a> {
    type Item = Record<'a>;

    fn next(&mut self) -> Option<Record<'a>> {
        // "End of input between records prints nothing."
        if self.rest.is_empty() {
            return None;
        }
        let record = self.next_whole();
        if record.is_none() {
            self.rest = &[];
        }
        Some(record.unwrap_or(Record::Ends))
    }
}

/// A number of 2 bytes, little-endian, and what follows it.
fn split_number(bytes: &[u8]) -> Option<(u16, &[u8])> {
    let (number, rest) = bytes.split_first_chunk()?;
    Some((u16::from_le_bytes(*number), rest))
}
