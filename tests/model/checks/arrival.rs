//! What happens to an arriving frame: the order of the rules, BPDUs, learning beside drops.

use crate::scene::*;
use model::operation::Operation;
use model::settings::{BLOCKING, DISABLED, FORWARDING, LEARNING, LISTENING};
use model::switch::Switch;

fn counters(switch: &Switch, port: u32, numbers: &[u32]) -> Vec<u32> {
    numbers.iter().map(|number| switch.counter(port, *number).unwrap().0).collect()
}

#[test]
fn a_short_frame_is_short_whatever_its_bytes() {
    for length in 0..60 {
        assert_eq!(fresh().frame_in(0, &vec![0xFF; length]), Ok((1, 0)));
    }
}

/// All rules hold at first; each mending leaves the later ones.
#[test]
fn the_first_rule_that_holds_is_the_reason() {
    let mut switch = Switch::fresh(64).unwrap();
    switch.set_vlan(9, 0b00001, 0, Operation::NONE).unwrap();
    // Room for no frame of 4,083 bytes.
    switch.frame_in(1, &frame(C, BROADCAST, &[], 4_083)).unwrap();
    change_port(&mut switch, 0, |port| (port.flags, port.state) = (7, BLOCKING));
    let group = A | 1 << 40;
    let offer = |switch: &mut Switch, source, vid, length| {
        let answer = switch.frame_in(0, &frame(source, BROADCAST, &[tag(0, vid)], length));
        answer.unwrap().0
    };
    assert_eq!(switch.frame_in(0, &frame(group, BROADCAST, &[tag(0, 4_095)], 59)), Ok((1, 0)));
    assert_eq!(offer(&mut switch, group, 4_095, 4_084), 2);
    assert_eq!(offer(&mut switch, group, 4_095, 4_083), 3);
    assert_eq!(offer(&mut switch, A, 4_095, 4_083), 4);
    change_port(&mut switch, 0, |port| port.flags = 0b101);
    assert_eq!(offer(&mut switch, A, 4_095, 4_083), 5);
    change_port(&mut switch, 0, |port| port.state = LISTENING);
    assert_eq!(offer(&mut switch, A, 4_095, 4_083), 6);
    change_port(&mut switch, 0, |port| port.state = LEARNING);
    assert_eq!(offer(&mut switch, A, 4_095, 4_083), 7);
    assert_eq!(offer(&mut switch, A, 8, 4_083), 8);
    switch.set_vlan(8, 0b00010, 0, Operation::NONE).unwrap();
    assert_eq!(offer(&mut switch, A, 8, 4_083), 9);
    assert_eq!(offer(&mut switch, A, 9, 4_083), 10);
    change_port(&mut switch, 0, |port| port.state = FORWARDING);
    assert_eq!(offer(&mut switch, A, 9, 4_083), 11);
    switch.set_vlan(9, 0b00111, 0, Operation::NONE).unwrap();
    change_port(&mut switch, 1, |port| port.state = BLOCKING);
    switch.set_queue_switch(2, 0, 0).unwrap();
    assert_eq!(offer(&mut switch, A, 9, 4_083), 12);
    switch.set_queue_switch(2, 0, 1).unwrap();
    assert_eq!(offer(&mut switch, A, 9, 4_083), 13);
    switch.drain(0).unwrap();
    switch.drain(2).unwrap();
    switch.drain(3).unwrap();
    switch.drain(4).unwrap();
    assert_eq!(offer(&mut switch, A, 9, 4_083), 0);
    // One of each reason, accepted once; offered is their sum.
    assert_eq!(counters(&switch, 0, &[0]), [14]);
    assert_eq!(counters(&switch, 0, &(1..=14).collect::<Vec<u32>>()), [1; 14]);
    // State counts under 12, 13 and 0; the queue under 12 alone; queued when the first frame arrived, and not under 13.
    assert_eq!(counters(&switch, 1, &[16, 17, 18]), [0, 3, 0]);
    assert_eq!(counters(&switch, 2, &[16, 17, 18, 20]), [2, 0, 1, 1]);
}

#[test]
fn disabled_forwards_and_learns() {
    let mut switch = fresh();
    assert_eq!(switch.settings.port(0).state, DISABLED);
    assert_eq!(switch.frame_in(0, &untagged(A, B)), Ok((0, 30)));
    assert_eq!(switch.frame_in(1, &untagged(B, A)), Ok((0, 1)));
}

#[test]
fn a_learning_port_learns_and_marks_and_counts_no_state() {
    let mut switch = fresh();
    switch.frame_in(1, &untagged(B, A)).unwrap();
    switch.age().unwrap();
    change_port(&mut switch, 0, |port| port.state = LEARNING);
    change_port(&mut switch, 1, |port| port.state = BLOCKING);
    assert_eq!(switch.frame_in(0, &untagged(A, B)), Ok((10, 0)));
    assert_eq!(counters(&switch, 1, &[17, 18]), [0, 0]);
    // The hit marked B: it outlives the next ageing call.
    assert_eq!(switch.age(), Ok((0, 0)));
    assert_eq!(switch.age(), Ok((2, 0)));
}

#[test]
fn a_bpdu_goes_to_port_4_untouched() {
    let mut switch = fresh();
    switch.set_vlan(1, 0, 0, push(header(5, 5, 0))).unwrap();
    change_port(&mut switch, 4, |port| (port.state, port.operation) = (BLOCKING, push(header(6, 6, 0))));
    change_port(&mut switch, 2, |port| (port.state, port.flags) = (BLOCKING, 7));
    for tags in [&[][..], &[tag(0, 4_095)], &[tag(0, 77), tag(1, 1)]] {
        let bpdu = frame(A, BPDU, tags, 64);
        assert_eq!(switch.frame_in(2, &bpdu), Ok((0, 0b10000)));
        assert_eq!(take(&mut switch, 4), (Ok((64, 3)), bpdu));
    }
    // It learned nothing, and counted no state.
    assert_eq!(switch.remove(0, A), Err(9));
    assert_eq!(counters(&switch, 4, &[16, 17, 19]), [3, 0, 3]);
}

#[test]
fn a_bpdu_obeys_its_queue_switch_and_room() {
    let mut switch = Switch::fresh(64).unwrap();
    switch.set_queue_switch(4, 3, 0).unwrap();
    assert_eq!(switch.frame_in(1, &untagged(A, BPDU)), Ok((12, 0)));
    assert_eq!(counters(&switch, 4, &[16, 18]), [0, 1]);
    switch.set_queue_switch(4, 3, 1).unwrap();
    switch.frame_in(1, &frame(A, BPDU, &[], 4_083)).unwrap();
    assert_eq!(switch.frame_in(1, &frame(A, BPDU, &[], 4_083)), Ok((13, 0)));
    assert_eq!(counters(&switch, 4, &[16, 18]), [1, 1]);
}

#[test]
fn a_bpdu_is_an_ordinary_group_frame_on_port_4_or_with_handling_off() {
    let mut switch = fresh();
    assert_eq!(switch.frame_in(4, &untagged(A, BPDU)), Ok((0, 0b01111)));
    switch.set_bpdu_handling(0).unwrap();
    assert_eq!(switch.frame_in(0, &untagged(B, BPDU)), Ok((0, 0b11110)));
    assert_eq!(switch.remove(0, B), Ok((0, 0)));
}

#[test]
fn a_bpdu_from_a_group_source_is_dropped() {
    assert_eq!(fresh().frame_in(0, &untagged(A | 1 << 40, BPDU)), Ok((3, 0)));
}

#[test]
fn a_port_that_falls_by_state_is_not_tested_for_its_queue() {
    let mut switch = fresh();
    change_port(&mut switch, 1, |port| port.state = LEARNING);
    switch.set_queue_switch(1, 0, 0).unwrap();
    switch.set_queue_switch(2, 0, 0).unwrap();
    assert_eq!(switch.frame_in(0, &untagged(A, B)), Ok((0, 0b11000)));
    assert_eq!(counters(&switch, 1, &[17, 18]), [1, 0]);
    assert_eq!(counters(&switch, 2, &[17, 18]), [0, 1]);
}

#[test]
fn assignment_and_the_default_vid() {
    let tags = [tag(0, 20), tag(0, 30)];
    for (assignment, tags, vid) in [
        (0, &tags[..], 40),
        (1, &tags[..], 20),
        (2, &tags[..], 30),
        (1, &[], 40),
        (2, &tags[..1], 40),
        (1, &[tag(7, 0), tag(0, 30)], 40),
        (2, &[tag(0, 20), tag(7, 0)], 40),
    ] {
        let mut switch = fresh();
        change_port(&mut switch, 0, |port| (port.assignment, port.default.vid) = (assignment, 40));
        switch.set_vlan(vid, 0b00011, 0, Operation::NONE).unwrap();
        assert_eq!(switch.frame_in(0, &frame(A, B, tags, 60)), Ok((0, 2)), "assignment {assignment}, {tags:?}");
    }
}

/// A priority tag counts for the flags; three tags count as two.
#[test]
fn flags_bar_tag_counts() {
    let stacks = [&[][..], &[tag(0, 0)], &[tag(0, 1), tag(0, 1)], &[tag(0, 1), tag(0, 1), tag(0, 1)]];
    for (tag_count, tags) in stacks.into_iter().enumerate() {
        for flags in 0..8 {
            let mut switch = fresh();
            change_port(&mut switch, 0, |port| port.flags = flags);
            let is_barred = flags & [1, 2, 4, 4][tag_count] != 0;
            let expected = if is_barred { (4, 0) } else { (0, 30) };
            assert_eq!(switch.frame_in(0, &frame(A, B, tags, 60)), Ok(expected));
        }
    }
}
