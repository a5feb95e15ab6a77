//! Tags on leaving: the operations on the stack of decoded tags, and the frame that departs.

use super::frame::{self, Header, Tag, SHORTEST, TAG_TYPES};

/// A tag operation as a call gives it; each field is a number in the rules' order.
#[derive(Clone, Copy, Debug, PartialEq, Eq)]
pub struct Operation {
    /// 0 none, 1 pop, 2 push, 3 swap, 4 pop-all.
    pub kind: u32,
    /// 0 for 0x8100, 1 for 0x88A8.
    pub tag_type: u32,
    /// Each source: 0 outermost, 1 second, 2 given.
    pub vid_source: u32,
    pub pcp_source: u32,
    pub given: Header,
}

impl Operation {
    pub const NONE: Operation =
        Operation { kind: 0, tag_type: 0, vid_source: 0, pcp_source: 0, given: Header { vid: 0, pcp: 0, dei: 0 } };

    /// The stack after the operation. `original` are the tags that the frame came with: "new fields never come from an
    /// earlier operation". `default` is the arrival port's default header.
    pub fn carried_out(&self, stack: &[Tag], original: &[Tag], default: Header) -> Vec<Tag> {
        let popped = stack.get(1..).unwrap_or(&[]);
        let new = self.new_tag(original, default);
        match self.kind {
            0 => stack.to_vec(),
            1 => popped.to_vec(),
            2 => [&[new], stack].concat(),
            // "Swap is pop then push, also on an empty stack."
            3 => [&[new], popped].concat(),
            4 => Vec::new(),
            kind => unreachable!("no call stores operation kind {kind}"),
        }
    }

    /// "A new tag's VID, and its PCP with DEI, come each from the original outermost tag, the original second tag, or
    /// the operation."
    fn new_tag(&self, original: &[Tag], default: Header) -> Tag {
        let numbered = self.header_from(self.vid_source, original, default);
        let prioritised = self.header_from(self.pcp_source, original, default);
        Tag {
            tag_type: TAG_TYPES[self.tag_type as usize],
            header: Header { vid: numbered.vid, pcp: prioritised.pcp, dei: prioritised.dei },
        }
    }

    /// "A missing original tag gives the arrival port's default header."
    fn header_from(&self, source: u32, original: &[Tag], default: Header) -> Header {
        let header_or_default = |place: usize| original.get(place).map_or(default, |tag| tag.header);
        match source {
            0 => header_or_default(0),
            1 => header_or_default(1),
            2 => self.given,
            source => unreachable!("no call stores tag source {source}"),
        }
    }
}

/// The bytes that depart: the operations in order on the decoded tags, then zeros up to 60 bytes.
pub fn departing_bytes(bytes: &[u8], default: Header, operations: &[Operation]) -> Vec<u8> {
    let frame = frame::read(bytes);
    let mut stack = frame.tags.clone();
    for operation in operations {
        stack = operation.carried_out(&stack, &frame.tags, default);
    }
    let tags: Vec<u8> = stack.iter().flat_map(Tag::bytes).collect();
    let mut departing = [&bytes[..12], &tags, frame.payload].concat();
    // "A result under 60 bytes is filled with zeros to 60."
    if departing.len() < SHORTEST {
        departing.resize(SHORTEST, 0);
    }
    departing
}
