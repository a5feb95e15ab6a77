//! What the streams choose from: lengths, tags, frames, addresses that collide, settings.

use crate::random::Random;
use crate::stream::{address_bytes, Operation, Port, FORWARDING};

/// The lengths at which a rule changes its answer, and the longest that a record holds.
pub const LENGTHS: [usize; 12] = [59, 60, 61, 72, 73, 152, 153, 1_592, 1_600, 4_083, 4_084, 4_997];

/// VIDs that the VLAN table gets in the streams, its two ends among them.
pub const VIDS: [u16; 6] = [1, 2, 20, 256, 1_025, 4_094];

/// A type and the two bytes after it.
pub type Tag = (u16, u16);

#[derive(Clone)]
pub struct Frame {
    pub destination: u64,
    pub source: u64,
    pub tags: Vec<Tag>,
    pub length: usize,
}

impl Frame {
    pub fn untagged(destination: u64, source: u64) -> Frame {
        Frame { destination, source, tags: Vec::new(), length: 60 }
    }

    pub fn tagged(self, tags: &[Tag]) -> Frame {
        Frame { tags: tags.to_vec(), ..self }
    }

    pub fn of_length(self, length: usize) -> Frame {
        Frame { length, ..self }
    }

    /// The bytes: addresses, tags, a type, then a payload without zeros, so that filling zeros and lost bytes show.
    pub fn bytes(&self, random: &mut Random) -> Vec<u8> {
        let mut bytes = [address_bytes(self.destination), address_bytes(self.source)].concat();
        for (tag_type, control) in &self.tags {
            bytes.extend(tag_type.to_be_bytes());
            bytes.extend(control.to_be_bytes());
        }
        // Types that are nearly a tag's are no tag's.
        bytes.extend(random.pick::<u16>(&[0x0800, 0x0806, 0x8101, 0x88A9, 0x9100, 0x0081, 0x8000]).to_be_bytes());
        while bytes.len() < self.length {
            bytes.push(1 + random.byte_below(255));
        }
        bytes.truncate(self.length);
        bytes
    }
}

pub fn tag(random: &mut Random, vid: u16) -> Tag {
    let pcp_and_dei = random.below(16) as u16;
    (random.pick(&[0x8100, 0x88A8]), pcp_and_dei << 12 | vid)
}

/// VIDs of tags: mostly ones that may stand in the table, with priority tags, 4095 and strangers.
pub fn tag_vid(random: &mut Random) -> u16 {
    match random.below(10) {
        0 => 0,
        1 => 4_095,
        2 => 3_000,
        _ => random.pick(&VIDS),
    }
}

/// Up to three tags; the third is payload.
pub fn tags(random: &mut Random) -> Vec<Tag> {
    let count = random.below(4);
    (0..count)
        .map(|_| {
            let vid = tag_vid(random);
            tag(random, vid)
        })
        .collect()
}

/// An address without the group bit that falls into the given bucket under the given GID.
pub fn address_in_bucket(random: &mut Random, gid: u8, bucket: u64) -> u64 {
    let high = random.number() & 0xFEFF_FFFF_FC00;
    // The low group takes up what the other groups joined to.
    high | model::addresses::bucket(u32::from(gid), high) as u64 ^ bucket
}

/// Addresses that share a bucket under each GID; some differ from another in the high bytes alone.
pub fn colliding_addresses(random: &mut Random, count: usize) -> Vec<u64> {
    let bucket = random.below(1_024);
    let mut addresses: Vec<u64> = (0..count).map(|_| address_in_bucket(random, 0, bucket)).collect();
    for pair in addresses.chunks_exact_mut(4) {
        pair[1] = pair[0] ^ (1 << 32 | 1 << 42);
    }
    addresses
}

/// The address with the group bit that shares a bucket with the given one.
pub fn group_address_beside(address: u64) -> u64 {
    address ^ (1 << 40 | 1)
}

pub fn operation(random: &mut Random) -> Operation {
    Operation {
        kind: random.byte_below(5),
        tag_type: random.byte_below(2),
        vid_source: random.byte_below(3),
        pcp_source: random.byte_below(3),
        vid: random.pick(&[0, 1, 20, 0x123, 4_094]),
        pcp: random.byte_below(8),
        dei: random.byte_below(2),
    }
}

/// A Forwarding port with a default header of its own.
pub fn forwarding_port(random: &mut Random) -> Port {
    Port {
        state: FORWARDING,
        assignment: random.byte_below(3),
        vid: random.pick(&VIDS),
        pcp: random.byte_below(8),
        dei: random.byte_below(2),
        ..Port::default()
    }
}

/// Any settings, with states that forward and flags that bar nothing more often than others.
pub fn any_port(random: &mut Random) -> Port {
    Port {
        state: random.pick(&[0, 1, 2, 3, 3, 4, 4, 4]),
        flags: if random.chance(25) { random.byte_below(8) } else { 0 },
        operation: operation(random),
        ..forwarding_port(random)
    }
}
