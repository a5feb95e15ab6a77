//! The counters of each port.

use super::settings::PORTS;

/// Numbers 1 to 13 are the reasons.
pub const OFFERED: u32 = 0;
pub const ACCEPTED: u32 = 14;
pub const NOT_LEARNED: u32 = 15;
pub const QUEUED: u32 = 16;
pub const STATE: u32 = 17;
pub const QUEUE_OFF: u32 = 18;
pub const SENT: u32 = 19;
pub const DRAINED: u32 = 20;
pub const LAST: u32 = 20;

#[derive(Clone, Debug, PartialEq, Eq)]
pub struct Counters {
    pub values: [[u32; LAST as usize + 1]; PORTS],
}

impl Counters {
    pub fn fresh() -> Counters {
        Counters { values: [[0; LAST as usize + 1]; PORTS] }
    }

    /// "Counters are 32 bits and go from the largest value to 0."
    pub fn count(&mut self, port: u32, number: u32) {
        let value = &mut self.values[port as usize][number as usize];
        *value = value.wrapping_add(1);
    }

    pub fn value(&self, port: u32, number: u32) -> u32 {
        self.values[port as usize][number as usize]
    }
}
