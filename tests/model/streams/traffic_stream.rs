//! Traffic between ports of all settings: 0 to 3 tags, both types, priority tags, group sources, BPDUs, all lengths.

use crate::choice::{any_port, forwarding_port, operation, tags, Frame, LENGTHS, VIDS};
use crate::random::Random;
use crate::stream::{Stream, ALL_PORTS, BPDU, BROADCAST};

pub fn fill(stream: &mut Stream, random: &mut Random) {
    for (gid, vid) in VIDS.into_iter().enumerate() {
        stream.vlan(vid, ALL_PORTS, gid as u8 / 2, &operation(random));
    }
    for port in 0..5 {
        stream.port(port, &forwarding_port(random));
    }
    for _ in 0..500 {
        if random.chance(8) {
            stream.port(random.byte_below(5), &any_port(random));
        }
        if random.chance(5) {
            let members = random.byte_below(32) | random.byte_below(32);
            stream.vlan(random.pick(&VIDS), members, random.byte_below(3), &operation(random));
        }
        let mut frame = Frame::untagged(destination(random), source(random));
        frame.tags = tags(random);
        frame.length = if random.chance(40) { random.pick(&LENGTHS) } else { 60 + random.below(90) as usize };
        stream.frame_in(random.byte_below(5), &frame.bytes(random));
        for _ in 0..random.below(5) {
            stream.take(random.byte_below(5));
        }
        if random.chance(3) {
            stream.age();
        }
    }
    stream.all_counters();
}

fn station(random: &mut Random) -> u64 {
    0x0200_0000_0040 + random.below(12)
}

fn source(random: &mut Random) -> u64 {
    match random.below(20) {
        0 => BROADCAST,
        1 => 0x0100_0000_0000,
        2 => 0,
        3 => 0xFEFF_FFFF_FFFF,
        _ => station(random),
    }
}

fn destination(random: &mut Random) -> u64 {
    match random.below(20) {
        0 => BROADCAST,
        1 => BPDU,
        2 => 0x0100_5E00_0001,
        3 => 0,
        4 => BPDU + 1,
        _ => station(random),
    }
}
