//! Frame-in: what happens to a frame, in order.

use super::counters::{ACCEPTED, NOT_LEARNED, OFFERED, QUEUED, QUEUE_OFF, STATE};
use super::frame::{self, is_group, Frame, Header, BPDU_DESTINATION, LONGEST, SHORTEST};
use super::operation::Operation;
use super::refusals::{self, is_port, refuse_lowest, Answer};
use super::settings::{BLOCKING, DISABLED, FORWARDING, LEARNING, LISTENING, MANAGEMENT_PORT, PORTS};
use super::switch::Switch;
use super::waiting::{cells, Waiting};

/// Outcome 0 is queued.
const IS_QUEUED: u32 = 0;

/// The rules' numbers: the reasons to drop a frame.
const SHORT: u32 = 1;
const LONG: u32 = 2;
const GROUP_SOURCE: u32 = 3;
const TAG_COUNT_BARRED: u32 = 4;
const PORT_BLOCKING: u32 = 5;
const PORT_LISTENING: u32 = 6;
const VID_4095: u32 = 7;
const VID_NOT_THERE: u32 = 8;
const NO_MEMBER: u32 = 9;
const PORT_LEARNING: u32 = 10;
const NO_CANDIDATE: u32 = 11;
const NO_PORT_LEFT: u32 = 12;
const NO_ROOM: u32 = 13;

/// A frame that rules 1 to 11 let pass.
struct Passed {
    /// The ports that are left after the departure state, as a mask.
    ports: u32,
    queue: u32,
    default: Header,
    vlan_operation: Option<Operation>,
}

impl Switch {
    pub fn frame_in(&mut self, port: u32, bytes: &[u8]) -> Answer {
        refuse_lowest(&[(refusals::PORT, !is_port(port))])?;
        self.counters.count(port, OFFERED);
        match self.queued_ports(port, bytes) {
            Ok(ports) => {
                self.counters.count(port, ACCEPTED);
                ports_of(ports).for_each(|departing| self.counters.count(departing, QUEUED));
                Ok((IS_QUEUED, ports))
            }
            Err(reason) => {
                self.counters.count(port, reason);
                Ok((reason, 0))
            }
        }
    }

    /// The ports that the frame is queued at, or the reason why it is dropped: "the first that holds".
    fn queued_ports(&mut self, port: u32, bytes: &[u8]) -> Result<u32, u32> {
        drop_if(bytes.len() < SHORTEST, SHORT)?;
        drop_if(bytes.len() > LONGEST, LONG)?;
        let frame = frame::read(bytes);
        drop_if(is_group(frame.source), GROUP_SOURCE)?;
        let passed = match self.is_handled_bpdu(port, &frame) {
            true => self.passed_bpdu(port),
            false => self.passed_frame(port, &frame)?,
        };
        let ports = self.ports_with_queue_on(passed.ports, passed.queue);
        drop_if(ports == 0, NO_PORT_LEFT)?;
        drop_if(cells(bytes.len()) > self.free_cells(), NO_ROOM)?;
        self.waiting.push(Waiting {
            bytes: bytes.to_vec(),
            ports,
            queue: passed.queue,
            default: passed.default,
            vlan_operation: passed.vlan_operation,
        });
        Ok(ports)
    }

    /// "Destination 01:80:C2:00:00:00 arriving on a port other than 4, with BPDU handling on."
    fn is_handled_bpdu(&self, port: u32, frame: &Frame) -> bool {
        frame.destination == BPDU_DESTINATION && port != MANAGEMENT_PORT && self.settings.bpdu_handling
    }

    /// "Has the one candidate 4, queue 3, no tag operation at all, and skips 4 to 11, learning and the departure
    /// state."
    fn passed_bpdu(&self, port: u32) -> Passed {
        Passed {
            ports: 1 << MANAGEMENT_PORT,
            queue: 3,
            default: self.settings.port(port).default,
            vlan_operation: None,
        }
    }

    /// Rules 4 to 11, look-up, learning and the departure state.
    fn passed_frame(&mut self, port: u32, frame: &Frame) -> Result<Passed, u32> {
        let arrival = *self.settings.port(port);
        drop_if(arrival.bars(frame.tags.len()), TAG_COUNT_BARRED)?;
        drop_if(arrival.state == BLOCKING, PORT_BLOCKING)?;
        drop_if(arrival.state == LISTENING, PORT_LISTENING)?;
        let vid = arrival.assigned_vid(&frame.tags);
        drop_if(vid == 4095, VID_4095)?;
        let vlan = *self.settings.vlan(vid).ok_or(VID_NOT_THERE)?;
        drop_if(vlan.members >> port & 1 == 0, NO_MEMBER)?;

        // "The destination is looked up under (GID, address) before the source is learned."
        let candidates = self.candidates(port, vlan.members, vlan.gid, frame.destination);
        // "The source is then learned, also if rules 10 to 13 drop the frame."
        let known = self.addresses.learn(vlan.gid, frame.source, port);
        if !known {
            self.counters.count(port, NOT_LEARNED);
        }
        drop_if(arrival.state == LEARNING, PORT_LEARNING)?;
        drop_if(candidates == 0, NO_CANDIDATE)?;
        Ok(Passed {
            ports: self.ports_by_state(candidates),
            queue: self.settings.queue_map[arrival.queueing_pcp(&frame.tags) as usize],
            default: arrival.default,
            vlan_operation: Some(vlan.operation),
        })
    }

    /// "A group address, or one not found, has all members as candidates; one found has its port, if a member. The
    /// arrival port never is one."
    fn candidates(&mut self, port: u32, members: u32, gid: u32, destination: u64) -> u32 {
        let found = if is_group(destination) { None } else { self.addresses.look_up(gid, destination) };
        let candidates = match found {
            Some(found_port) => 1 << found_port & members,
            None => members,
        };
        candidates & !(1 << port)
    }

    /// "Candidates not Disabled or Forwarding fall out, counted at that port."
    fn ports_by_state(&mut self, candidates: u32) -> u32 {
        self.ports_left(candidates, STATE, |switch, port| {
            let state = switch.settings.port(port).state;
            state == DISABLED || state == FORWARDING
        })
    }

    /// "Then those whose queue is off, likewise."
    fn ports_with_queue_on(&mut self, candidates: u32, queue: u32) -> u32 {
        self.ports_left(candidates, QUEUE_OFF, |switch, port| switch.settings.is_queue_on(port, queue))
    }

    fn ports_left(&mut self, candidates: u32, counter: u32, stays: impl Fn(&Switch, u32) -> bool) -> u32 {
        let mut left = 0;
        for port in ports_of(candidates) {
            if stays(self, port) {
                left |= 1 << port;
            } else {
                self.counters.count(port, counter);
            }
        }
        left
    }
}

fn drop_if(holds: bool, reason: u32) -> Result<(), u32> {
    if holds {
        Err(reason)
    } else {
        Ok(())
    }
}

fn ports_of(mask: u32) -> impl Iterator<Item = u32> {
    (0..PORTS as u32).filter(move |port| mask >> port & 1 == 1)
}
