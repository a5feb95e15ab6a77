//! The table of refused calls, and the ranges of values.

use super::frame::Header;
use super::operation::Operation;

pub const MEMORY_LENGTH: u32 = 1;
pub const PORT: u32 = 2;
pub const RANGE: u32 = 3;
pub const GROUP_ADDRESS: u32 = 4;
pub const SHORT_BUFFER: u32 = 5;
pub const VLANS_IN_USE: u32 = 6;
pub const VLAN_NOT_THERE: u32 = 7;
pub const PLACES_IN_USE: u32 = 8;
pub const ADDRESS_NOT_THERE: u32 = 9;
// 10 speaks of damaged memory, which the model does not have.
pub const BAD_RECORD: u32 = 11;

/// What a call answers: the line's x and y, or "only the number" of the refusal.
pub type Answer = Result<(u32, u32), u32>;

/// "Lowest number wins": each call gives the lines that may hold for it, in any order.
pub fn refuse_lowest(lines: &[(u32, bool)]) -> Result<(), u32> {
    let held = lines.iter().filter(|(_, holds)| *holds).map(|(number, _)| *number);
    held.min().map_or(Ok(()), Err)
}

pub fn is_port(port: u32) -> bool {
    port <= 4
}

/// "Other VIDs 1 to 4094."
pub fn is_vid(vid: u32) -> bool {
    (1..=4094).contains(&vid)
}

/// "Given VID in an operation: 0 to 4094."
fn is_given_vid(vid: u32) -> bool {
    vid <= 4094
}

pub fn is_pcp(pcp: u32) -> bool {
    pcp <= 7
}

pub fn is_dei(dei: u32) -> bool {
    dei <= 1
}

pub fn is_gid(gid: u32) -> bool {
    gid <= 15
}

pub fn is_queue(queue: u32) -> bool {
    queue <= 3
}

pub fn is_switch(switch: u32) -> bool {
    switch <= 1
}

pub fn is_mask(mask: u32) -> bool {
    mask <= 31
}

pub fn is_address(address: u64) -> bool {
    address < 1 << 48
}

pub fn is_default_header(header: &Header) -> bool {
    is_vid(header.vid) && is_pcp(header.pcp) && is_dei(header.dei)
}

/// "An operation's fields are checked for each kind, none included."
pub fn is_operation(operation: &Operation) -> bool {
    operation.kind <= 4
        && operation.tag_type <= 1
        && operation.vid_source <= 2
        && operation.pcp_source <= 2
        && is_given_vid(operation.given.vid)
        && is_pcp(operation.given.pcp)
        && is_dei(operation.given.dei)
}
