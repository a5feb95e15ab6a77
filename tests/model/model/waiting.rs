//! The waiting frames and the cells that they take.

use super::frame::Header;
use super::operation::Operation;

const CELL_BYTES: usize = 80;
const STORED_HEADER_BYTES: usize = 8;

/// "A frame is stored once however many ports it waits at."
#[derive(Clone, Debug, PartialEq, Eq)]
pub struct Waiting {
    pub bytes: Vec<u8>,
    /// The ports that it still waits at, as a mask.
    pub ports: u32,
    pub queue: u32,
    /// The arrival port's default header, as it was on arrival.
    pub default: Header,
    /// As it was on arrival; none for a BPDU, which has no tag operation at all, the departing port's included.
    pub vlan_operation: Option<Operation>,
}

/// "The least whole number of cells holding n + 8 bytes."
pub fn cells(frame_bytes: usize) -> usize {
    (frame_bytes + STORED_HEADER_BYTES).div_ceil(CELL_BYTES)
}

impl Waiting {
    pub fn waits_at(&self, port: u32) -> bool {
        self.ports >> port & 1 == 1
    }
}

/// The cells of all waiting frames.
pub fn cells_in_use(waiting: &[Waiting]) -> usize {
    waiting.iter().map(|frame| cells(frame.bytes.len())).sum()
}
