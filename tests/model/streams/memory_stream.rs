//! A full memory with broadcasts waiting at several ports; takes in odd orders; drains.

use crate::choice::Frame;
use crate::random::Random;
use crate::stream::{Operation, Stream, BROADCAST};

/// The members of VIDs 1 to 5: most frames wait at several ports.
const MEMBERS: [u8; 5] = [0b11111, 0b01111, 0b10111, 0b11011, 0b11110];

pub fn fill(stream: &mut Stream, random: &mut Random) {
    for (vid, members) in (1..).zip(MEMBERS) {
        stream.vlan(vid, members, 0, &Operation::default());
    }
    for _ in 0..8 {
        fill_memory(stream, random);
        leave_in_odd_orders(stream, random);
    }
    stream.all_counters();
}

fn arrive(stream: &mut Stream, random: &mut Random) {
    let length = random.pick(&[60, 72, 73, 500, 1_500, 1_592, 1_600, 4_083]);
    let control = (random.below(8) as u16) << 13 | 1 + random.below(5) as u16;
    let source = 0x0200_0000_0400 + random.below(5);
    let frame = Frame::untagged(BROADCAST, source).tagged(&[(0x88A8, control)]).of_length(length);
    stream.frame_in(random.byte_below(5), &frame.bytes(random));
}

fn fill_memory(stream: &mut Stream, random: &mut Random) {
    for _ in 0..30 {
        arrive(stream, random);
    }
}

/// One port after the other in an order of its own, with arrivals that fit only where the last copy has left.
fn leave_in_odd_orders(stream: &mut Stream, random: &mut Random) {
    let mut ports = [0, 1, 2, 3, 4];
    random.shuffle(&mut ports);
    for port in ports {
        for _ in 0..random.below(20) {
            stream.take(port);
            if random.chance(30) {
                arrive(stream, random);
            }
        }
        if random.chance(40) {
            stream.drain(random.byte_below(5));
            arrive(stream, random);
        }
    }
    for _ in 0..20 {
        stream.take(random.byte_below(5));
    }
    if random.chance(50) {
        stream.drain_all_ports();
    }
}
