//! What the calls set: ports, VLANs, queue map, queue switches, BPDU handling.

use super::frame::{Header, Tag};
use super::operation::Operation;

pub const PORTS: usize = 5;
pub const MANAGEMENT_PORT: u32 = 4;
pub const ALL_PORTS: u32 = 31;
pub const QUEUES: usize = 4;
pub const VLANS: usize = 16;

/// A port's states, used for arrival and departure.
pub const DISABLED: u32 = 0;
pub const BLOCKING: u32 = 1;
pub const LISTENING: u32 = 2;
pub const LEARNING: u32 = 3;
pub const FORWARDING: u32 = 4;

#[derive(Clone, Copy, Debug, PartialEq, Eq)]
pub struct Port {
    pub state: u32,
    pub assignment: u32,
    pub default: Header,
    /// Bit t bars frames with t tags.
    pub flags: u32,
    pub operation: Operation,
}

#[derive(Clone, Copy, Debug, PartialEq, Eq)]
pub struct Vlan {
    pub vid: u32,
    pub members: u32,
    pub gid: u32,
    pub operation: Operation,
}

#[derive(Clone, Debug, PartialEq, Eq)]
pub struct Settings {
    pub ports: [Port; PORTS],
    pub vlans: Vec<Vlan>,
    pub queue_map: [u32; 8],
    pub queue_on: [[bool; QUEUES]; PORTS],
    pub bpdu_handling: bool,
}

impl Port {
    /// "Ports Disabled, assignment 1, default VID 1, PCP and DEI 0, no flags, no operation."
    fn fresh() -> Port {
        let default = Header { vid: 1, pcp: 0, dei: 0 };
        Port { state: DISABLED, assignment: 1, default, flags: 0, operation: Operation::NONE }
    }

    pub fn bars(&self, tag_count: usize) -> bool {
        self.flags >> tag_count & 1 == 1
    }

    /// "Assignment 0: the default VID. 1: the outermost tag's. 2: the second tag's."
    pub fn assigned_vid(&self, tags: &[Tag]) -> u32 {
        let tag = match self.assignment {
            0 => None,
            1 => tags.get(0),
            2 => tags.get(1),
            assignment => unreachable!("no call stores assignment {assignment}"),
        };
        // "A missing tag or VID 0 gives the default VID (802.1Q priority tag)."
        match tag {
            Some(tag) if tag.header.vid != 0 => tag.header.vid,
            _ => self.default.vid,
        }
    }

    /// "PCP of the outermost tag, else the port's default PCP."
    pub fn queueing_pcp(&self, tags: &[Tag]) -> u32 {
        tags.first().map_or(self.default.pcp, |tag| tag.header.pcp)
    }
}

impl Settings {
    pub fn fresh() -> Settings {
        Settings {
            ports: [Port::fresh(); PORTS],
            // "VID 1 with all ports, GID 0, no operation."
            vlans: vec![Vlan { vid: 1, members: ALL_PORTS, gid: 0, operation: Operation::NONE }],
            // "Fresh map PCP / 2 rounded down."
            queue_map: [0, 0, 1, 1, 2, 2, 3, 3],
            queue_on: [[true; QUEUES]; PORTS],
            bpdu_handling: true,
        }
    }

    pub fn port(&self, port: u32) -> &Port {
        &self.ports[port as usize]
    }

    pub fn vlan(&self, vid: u32) -> Option<&Vlan> {
        self.vlans.iter().find(|vlan| vlan.vid == vid)
    }

    pub fn is_queue_on(&self, port: u32, queue: u32) -> bool {
        self.queue_on[port as usize][queue as usize]
    }
}
