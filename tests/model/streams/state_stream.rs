//! Every state of the arrival port beside every state of a departing one, for ordinary frames and BPDUs.

use crate::choice::Frame;
use crate::random::Random;
use crate::stream::{Operation, Port, Stream, BPDU, BROADCAST};

pub fn fill(stream: &mut Stream, random: &mut Random) {
    for arrival in 0..5 {
        for arrival_state in 0..5 {
            for departure_state in 0..5 {
                one_case(stream, random, arrival, arrival_state, departure_state);
            }
        }
        stream.all_counters();
    }
}

fn one_case(stream: &mut Stream, random: &mut Random, arrival: u8, arrival_state: u8, departure_state: u8) {
    for port in 0..5 {
        let operation = Operation { kind: random.byte_below(5), ..Operation::default() };
        let state = if port == arrival { arrival_state } else { departure_state };
        stream.port(port, &Port { state, operation, ..Port::default() });
    }
    stream.bpdu(u8::from(random.chance(70)));
    let source = 0x0200_0000_0200 + random.below(3);
    let destination = random.pick(&[BPDU, BROADCAST, 0x0200_0000_0200, 0x0180_C200_0001, 0x0080_C200_0000]);
    stream.frame_in(arrival, &Frame::untagged(destination, source).bytes(random));
    let tags = [(0x8100, random.pick(&[0xA000, 0xA001, 0xEFFF]))];
    stream.frame_in(arrival, &Frame::untagged(BPDU, source).tagged(&tags).bytes(random));
    // States are judged on arrival; a take pays no heed to them.
    if random.chance(50) {
        stream.port(random.byte_below(5), &Port { state: random.byte_below(5), ..Port::default() });
    }
    stream.take_at_all_ports();
    stream.take(4);
    if random.chance(20) {
        stream.age();
    }
}
