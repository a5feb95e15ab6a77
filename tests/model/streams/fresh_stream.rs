//! A fresh switch before any setting: its VLAN and GID, its map, its queues, its BPDU handling.

use crate::choice::{tag, Frame};
use crate::random::Random;
use crate::stream::{Stream, BPDU, BROADCAST};

pub fn fill(stream: &mut Stream, random: &mut Random) {
    stream.all_counters();
    stream.take_at_all_ports();
    stream.drain_all_ports();
    stream.age();
    stream.remove(0, 0);
    for port in 0..5 {
        let station = 0x0200_0000_0500 + u64::from(port);
        for vid in [1, 0, 2, 4_095] {
            let tags = [tag(random, vid)];
            stream.frame_in(port, &Frame::untagged(BROADCAST, station).tagged(&tags).bytes(random));
            stream.take_at_all_ports();
        }
        stream.frame_in(port, &Frame::untagged(BPDU, station).bytes(random));
        stream.take_at_all_ports();
        stream.remove(1, station);
        stream.remove(0, station);
    }
    for pcp in 0..8 {
        let tags = [(0x8100, pcp << 13)];
        stream.frame_in(3, &Frame::untagged(BROADCAST, 2).tagged(&tags).bytes(random));
        stream.take_at_all_ports();
    }
    // The fresh VLAN is the one of sixteen: fifteen more find a place.
    for vid in 2..19 {
        stream.vlan(vid, 31, 0, &Default::default());
    }
    stream.clear_vlan(1);
    stream.clear_vlan(1);
    stream.all_counters();
}
