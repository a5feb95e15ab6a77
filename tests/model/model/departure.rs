//! Take and drain: how copies leave.

use super::counters::{DRAINED, SENT};
use super::frame::LARGEST_RESULT;
use super::operation::departing_bytes;
use super::refusals::{self, is_port, refuse_lowest, Answer, SHORT_BUFFER};
use super::switch::Switch;

impl Switch {
    /// Writes the leaving frame at the front of `buffer`; the answer's x says how many bytes are written.
    pub fn take(&mut self, port: u32, buffer: &mut [u8]) -> Answer {
        refuse_lowest(&[(refusals::PORT, !is_port(port)), (SHORT_BUFFER, buffer.len() < LARGEST_RESULT)])?;
        let Some(place) = self.next_to_leave(port) else {
            // "An empty port answers length 0 and queue 0."
            return Ok((0, 0));
        };
        let frame = &self.waiting[place];
        // "VLAN operation first, departing port's second"; the latter is "taken when it leaves".
        let operations = match frame.vlan_operation {
            Some(vlan_operation) => vec![vlan_operation, self.settings.port(port).operation],
            None => vec![],
        };
        let departing = departing_bytes(&frame.bytes, frame.default, &operations);
        let queue = frame.queue;
        buffer[..departing.len()].copy_from_slice(&departing);
        self.counters.count(port, SENT);
        self.waiting[place].ports &= !(1 << port);
        self.free_departed();
        Ok((departing.len() as u32, queue))
    }

    /// "A drain drops every copy that waits at one port."
    pub fn drain(&mut self, port: u32) -> Answer {
        refuse_lowest(&[(refusals::PORT, !is_port(port))])?;
        let mut copies = 0;
        for frame in &mut self.waiting {
            if frame.waits_at(port) {
                frame.ports &= !(1 << port);
                self.counters.count(port, DRAINED);
                copies += 1;
            }
        }
        self.free_departed();
        Ok((copies, 0))
    }

    /// "The oldest frame of its highest-numbered waiting queue."
    fn next_to_leave(&self, port: u32) -> Option<usize> {
        let queue = self.waiting.iter().filter(|frame| frame.waits_at(port)).map(|frame| frame.queue).max()?;
        self.waiting.iter().position(|frame| frame.waits_at(port) && frame.queue == queue)
    }

    /// "Its cells are free when its last copy is sent or drained."
    fn free_departed(&mut self) {
        self.waiting.retain(|frame| frame.ports != 0);
    }
}
