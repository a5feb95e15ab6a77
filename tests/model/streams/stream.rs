//! A stream under construction: one method a record kind, and the bodies' fields by name.

pub const ALL_PORTS: u8 = 31;
pub const BROADCAST: u64 = 0xFFFF_FFFF_FFFF;
pub const BPDU: u64 = 0x0180_C200_0000;

/// Named port states.
pub const BLOCKING: u8 = 1;
pub const LISTENING: u8 = 2;
pub const LEARNING: u8 = 3;
pub const FORWARDING: u8 = 4;

/// The fields of an operation as a record holds them; the default is no operation.
#[derive(Clone, Copy, Default)]
pub struct Operation {
    pub kind: u8,
    pub tag_type: u8,
    pub vid_source: u8,
    pub pcp_source: u8,
    pub vid: u16,
    pub pcp: u8,
    pub dei: u8,
}

/// The fields of a port record after the port; the default is what a fresh switch has.
#[derive(Clone, Copy)]
pub struct Port {
    pub state: u8,
    pub assignment: u8,
    pub vid: u16,
    pub pcp: u8,
    pub dei: u8,
    pub flags: u8,
    pub operation: Operation,
}

impl Default for Port {
    fn default() -> Port {
        Port { state: 0, assignment: 1, vid: 1, pcp: 0, dei: 0, flags: 0, operation: Operation::default() }
    }
}

impl Operation {
    fn bytes(&self) -> [u8; 8] {
        let [low, high] = self.vid.to_le_bytes();
        [self.kind, self.tag_type, self.vid_source, self.pcp_source, low, high, self.pcp, self.dei]
    }
}

#[derive(Default)]
pub struct Stream {
    pub bytes: Vec<u8>,
    pub records: usize,
}

impl Stream {
    pub fn new() -> Stream {
        Stream::default()
    }

    /// A record of any kind, known or not.
    pub fn record(&mut self, kind: u16, body: &[u8]) {
        let length = u16::try_from(body.len() + 2).expect("a record's length is a number of 2 bytes");
        self.raw(&[&length.to_le_bytes()[..], &kind.to_le_bytes(), body].concat());
    }

    /// Bytes that make up one record, or the cut rest of one.
    pub fn raw(&mut self, bytes: &[u8]) {
        self.bytes.extend(bytes);
        self.records += 1;
    }

    pub fn frame_in(&mut self, port: u8, frame: &[u8]) {
        self.record(1, &[&[port], frame].concat());
    }

    pub fn take(&mut self, port: u8) {
        self.record(2, &[port]);
    }

    pub fn age(&mut self) {
        self.record(3, &[]);
    }

    pub fn counter(&mut self, port: u8, number: u8) {
        self.record(4, &[port, number]);
    }

    pub fn port(&mut self, port: u8, fields: &Port) {
        let Port { state, assignment, vid, pcp, dei, flags, operation } = fields;
        let [low, high] = vid.to_le_bytes();
        let settings = [port, *state, *assignment, low, high, *pcp, *dei, *flags];
        self.record(5, &[settings, operation.bytes()].concat());
    }

    pub fn vlan(&mut self, vid: u16, members: u8, gid: u8, operation: &Operation) {
        let [low, high] = vid.to_le_bytes();
        self.record(6, &[&[low, high, members, gid], &operation.bytes()[..]].concat());
    }

    pub fn clear_vlan(&mut self, vid: u16) {
        self.record(7, &vid.to_le_bytes());
    }

    pub fn set_static(&mut self, gid: u8, port: u8, address: u64) {
        self.record(8, &[&[gid, port], &address_bytes(address)[..]].concat());
    }

    pub fn remove(&mut self, gid: u8, address: u64) {
        self.record(9, &[&[gid], &address_bytes(address)[..]].concat());
    }

    pub fn map(&mut self, pcp: u8, queue: u8) {
        self.record(10, &[pcp, queue]);
    }

    pub fn queue_switch(&mut self, port: u8, queue: u8, on: u8) {
        self.record(11, &[port, queue, on]);
    }

    pub fn drain(&mut self, port: u8) {
        self.record(12, &[port]);
    }

    pub fn bpdu(&mut self, on: u8) {
        self.record(13, &[on]);
    }

    pub fn all_counters(&mut self) {
        for port in 0..5 {
            for number in 0..=20 {
                self.counter(port, number);
            }
        }
    }

    pub fn take_at_all_ports(&mut self) {
        (0..5).for_each(|port| self.take(port));
    }

    pub fn drain_all_ports(&mut self) {
        (0..5).for_each(|port| self.drain(port));
    }
}

/// "Addresses first byte first."
pub fn address_bytes(address: u64) -> [u8; 6] {
    let [_, _, bytes @ ..] = address.to_be_bytes();
    bytes
}
