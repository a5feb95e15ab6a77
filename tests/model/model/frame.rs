//! Reading a frame: destination, source, then up to two tags, outermost first.

/// Frames come without FCS, 60 to 4,083 bytes.
pub const SHORTEST: usize = 60;
pub const LONGEST: usize = 4_083;

/// A take-out buffer holds the largest result: two tags more than the longest frame.
pub const LARGEST_RESULT: usize = 4_091;

/// The destination of bridge protocol frames, 01:80:C2:00:00:00.
pub const BPDU_DESTINATION: u64 = 0x0180_C200_0000;

/// "Each a type 0x8100 or 0x88A8"; an operation names them 0 and 1.
pub const TAG_TYPES: [u32; 2] = [0x8100, 0x88A8];

/// "Up to two tags"; "a third tag is payload".
const DECODED_TAGS: usize = 2;

/// The fields of a tag but for its type; also a port's default header.
#[derive(Clone, Copy, Debug, PartialEq, Eq)]
pub struct Header {
    pub vid: u32,
    pub pcp: u32,
    pub dei: u32,
}

#[derive(Clone, Copy, Debug, PartialEq, Eq)]
pub struct Tag {
    pub tag_type: u32,
    pub header: Header,
}

/// A frame taken apart; the payload starts with the first type that is no decoded tag's.
#[derive(Debug, PartialEq, Eq)]
pub struct Frame<'a> {
    pub destination: u64,
    pub source: u64,
    pub tags: Vec<Tag>,
    pub payload: &'a [u8],
}

impl Tag {
    /// Type, then "two bytes PCP (3 bits), DEI (1), VID (12), high byte first".
    pub fn bytes(&self) -> [u8; 4] {
        let Header { vid, pcp, dei } = self.header;
        (self.tag_type << 16 | pcp << 13 | dei << 12 | vid).to_be_bytes()
    }
}

/// Takes apart a frame of at least 60 bytes, in which both tags fit.
pub fn read(bytes: &[u8]) -> Frame<'_> {
    let mut tags = Vec::new();
    let mut end = 12;
    while tags.len() < DECODED_TAGS && TAG_TYPES.contains(&number_at(bytes, end)) {
        let control = number_at(bytes, end + 2);
        tags.push(Tag {
            tag_type: number_at(bytes, end),
            header: Header { pcp: control >> 13, dei: control >> 12 & 1, vid: control & 0xFFF },
        });
        end += 4;
    }
    Frame { destination: address(&bytes[..6]), source: address(&bytes[6..12]), tags, payload: &bytes[end..] }
}

/// An address as a number, its first byte highest.
pub fn address(bytes: &[u8]) -> u64 {
    bytes.iter().fold(0, |number, &byte| number << 8 | u64::from(byte))
}

/// The group bit is bit 0 of an address's first byte.
pub fn is_group(address: u64) -> bool {
    address >> 40 & 1 == 1
}

fn number_at(bytes: &[u8], start: usize) -> u32 {
    u32::from(u16::from_be_bytes([bytes[start], bytes[start + 1]]))
}
