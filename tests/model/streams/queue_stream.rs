//! The queue map, the queue switches, and the order in which waiting frames leave.

use crate::choice::{tag, Frame};
use crate::random::Random;
use crate::stream::{Operation, Port, Stream, ALL_PORTS, BPDU, BROADCAST};

pub fn fill(stream: &mut Stream, random: &mut Random) {
    every_pcp(stream, random);
    for _ in 0..400 {
        any_event(stream, random);
    }
    (0..5).for_each(|_| stream.take_at_all_ports());
    stream.drain_all_ports();
    stream.all_counters();
}

/// Every PCP through the fresh map, in a tag and as the port's default.
fn every_pcp(stream: &mut Stream, random: &mut Random) {
    for pcp in 0..8 {
        stream.port(0, &Port { pcp, ..Port::default() });
        stream.frame_in(0, &Frame::untagged(BROADCAST, 2).bytes(random));
        stream.take_at_all_ports();
        let outer = (0x8100, (7 - u16::from(pcp)) << 13 | 1);
        let second = (0x88A8, u16::from(pcp) << 13);
        stream.frame_in(0, &Frame::untagged(BROADCAST, 2).tagged(&[outer, second]).bytes(random));
        stream.take_at_all_ports();
    }
    // Assignment 2: the second tag numbers the VLAN, the outermost still picks the queue.
    stream.vlan(2, ALL_PORTS, 0, &Operation::default());
    stream.port(0, &Port { assignment: 2, ..Port::default() });
    stream.frame_in(0, &Frame::untagged(BROADCAST, 2).tagged(&[(0x8100, 0xE001), (0x8100, 0x0002)]).bytes(random));
    stream.take(1);
}

fn any_event(stream: &mut Stream, random: &mut Random) {
    let port = random.byte_below(5);
    match random.below(100) {
        0..45 => {
            let destination = random.pick(&[BROADCAST, BROADCAST, BPDU, 3, 4]);
            let mut frame = Frame::untagged(destination, 2 + random.below(4));
            if random.chance(70) {
                let vid = random.pick(&[1, 0, 2]);
                frame.tags.push(tag(random, vid));
            }
            stream.frame_in(port, &frame.bytes(random));
        }
        45..75 => stream.take(port),
        75..83 => stream.map(random.byte_below(8), random.byte_below(4)),
        83..93 => stream.queue_switch(port, random.byte_below(4), u8::from(random.chance(60))),
        93..95 => stream.drain(port),
        95..97 => stream.bpdu(random.byte_below(2)),
        _ => stream.port(port, &Port { pcp: random.byte_below(8), ..Port::default() }),
    }
}
