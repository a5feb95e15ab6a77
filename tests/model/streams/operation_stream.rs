//! Every operation kind, source, type and tag count, for VLAN operations, for port operations and for both.

use crate::choice::{operation, tag, tag_vid, Frame, Tag};
use crate::random::Random;
use crate::stream::{Operation, Port, Stream, BROADCAST};

const VLAN: u16 = 7;
const ARRIVAL: u8 = 0;
const DEPARTURE: u8 = 3;
const MEMBERS: u8 = 0b01001;

pub fn fill(stream: &mut Stream, random: &mut Random) {
    for operation in every_operation(random) {
        for tag_count in 0..4 {
            one_case(stream, random, &operation, &Operation::default(), tag_count);
            one_case(stream, random, &Operation::default(), &operation, tag_count);
        }
    }
    for _ in 0..300 {
        let (vlan, port) = (operation(random), operation(random));
        let tag_count = random.below(4);
        one_case(stream, random, &vlan, &port, tag_count);
    }
    longest_results(stream, random);
}

fn every_operation(random: &mut Random) -> Vec<Operation> {
    let mut operations = Vec::new();
    for kind in 0..5 {
        for sources in 0..9 {
            for tag_type in 0..2 {
                let (vid_source, pcp_source) = (sources / 3, sources % 3);
                operations.push(Operation { kind, tag_type, vid_source, pcp_source, ..operation(random) });
            }
        }
    }
    operations
}

/// The arrival port numbers every frame by its default VID, so that tags may hold any VID.
fn arrival_port(random: &mut Random) -> Port {
    Port { assignment: 0, vid: VLAN, pcp: random.byte_below(8), dei: random.byte_below(2), ..Port::default() }
}

fn one_case(stream: &mut Stream, random: &mut Random, vlan: &Operation, port: &Operation, tag_count: u64) {
    stream.port(ARRIVAL, &arrival_port(random));
    stream.vlan(VLAN, MEMBERS, 0, vlan);
    stream.port(DEPARTURE, &Port { operation: *port, vid: 99, pcp: 1, dei: 1, ..Port::default() });
    let tags: Vec<Tag> = (0..tag_count)
        .map(|_| {
            let vid = tag_vid(random);
            tag(random, vid)
        })
        .collect();
    let length = random.pick(&[60, 60, 61, 62, 63, 64, 68, 80, 200]);
    let frame = Frame::untagged(BROADCAST, 2).tagged(&tags).of_length(length);
    stream.frame_in(ARRIVAL, &frame.bytes(random));
    if random.chance(15) {
        // "Membership, states, VLAN operation and the port's default header are taken when the frame arrives."
        stream.vlan(VLAN, 0, 5, &operation(random));
        stream.port(ARRIVAL, &Port { vid: 77, ..arrival_port(random) });
    }
    if random.chance(15) {
        // "The departing port's operation when it leaves."
        stream.port(DEPARTURE, &Port { operation: operation(random), ..Port::default() });
    }
    stream.take(DEPARTURE);
}

/// "The largest result is 4,091": two pushes on the longest frame.
fn longest_results(stream: &mut Stream, random: &mut Random) {
    let push = Operation { kind: 2, vid_source: 2, pcp_source: 2, vid: 4_094, pcp: 7, dei: 1, ..Operation::default() };
    for length in [4_082, 4_083] {
        stream.port(ARRIVAL, &arrival_port(random));
        stream.vlan(VLAN, MEMBERS, 0, &push);
        stream.port(DEPARTURE, &Port { operation: push, ..Port::default() });
        stream.frame_in(ARRIVAL, &Frame::untagged(BROADCAST, 2).of_length(length).bytes(random));
        stream.take(DEPARTURE);
    }
}
