//! Frames for which several rules hold at once: the first is the reason, and learning goes by its place in the order.

use crate::choice::{Frame, LENGTHS};
use crate::random::Random;
use crate::stream::{Operation, Port, Stream, BLOCKING, BPDU, BROADCAST, FORWARDING, LEARNING, LISTENING};

const VLAN: u16 = 20;
const STRANGER: u16 = 21;
const ARRIVAL: u8 = 1;

pub fn fill(stream: &mut Stream, random: &mut Random) {
    for case in 0..400 {
        one_case(stream, random, 0x0200_0000_1000 + case);
    }
    stream.all_counters();
}

fn one_case(stream: &mut Stream, random: &mut Random, own: u64) {
    let known = 0x0200_0000_0077;
    let state = if random.chance(40) { random.pick(&[0, BLOCKING, LISTENING, LEARNING]) } else { FORWARDING };
    let flags = if random.chance(20) { 7 } else { 0 };
    let vid = if random.chance(20) { random.pick(&[4_095, STRANGER, 0]) } else { VLAN };
    let is_member = random.chance(80);
    let others = random.pick(&[0, 0b01101, 0b00100, 0b11101]);
    let members = others | u8::from(is_member) << ARRIVAL;
    let destination = random.pick(&[BROADCAST, known, own, 0x0200_0000_0088, BPDU]);
    let source = if random.chance(10) { own | 1 << 40 } else { own };
    let length = if random.chance(20) { random.pick(&LENGTHS) } else { 60 };

    stream.port(ARRIVAL, &Port { state, flags, vid: VLAN, ..Port::default() });
    stream.vlan(VLAN, members, 3, &Operation::default());
    stream.set_static(3, random.byte_below(5), known);
    for port in [0, 2, 3, 4] {
        stream.port(port, &Port { state: random.pick(&[0, 1, 2, 3, 4, 4, 4, 0]), ..Port::default() });
    }
    stream.queue_switch(random.byte_below(5), random.byte_below(4), u8::from(random.chance(60)));
    let mut frame = Frame::untagged(destination, source).of_length(length);
    if random.chance(80) {
        frame = frame.tagged(&[(0x8100, (random.below(8) as u16) << 13 | vid)]);
    }
    stream.frame_in(ARRIVAL, &frame.bytes(random));
    if random.chance(50) {
        stream.take(random.byte_below(5));
    }
    if random.chance(5) {
        stream.drain_all_ports();
    }
    // Whether the source was learned.
    stream.remove(3, own);
}
