//! The five slips of the rules, which are seen in class.

use crate::scene::*;
use model::operation::Operation;
use model::switch::Switch;

#[test]
fn vid_0_is_not_looked_up_as_a_vlan() {
    let mut switch = fresh();
    change_port(&mut switch, 0, |port| port.default.vid = 5);
    switch.set_vlan(5, 0b00011, 0, Operation::NONE).unwrap();
    assert_eq!(switch.frame_in(0, &frame(A, BROADCAST, &[tag(3, 0)], 60)), Ok((0, 0b00010)));
}

#[test]
fn a_broadcasts_cells_stay_until_its_last_departure() {
    let mut switch = Switch::fresh(64).unwrap();
    let arriving = frame(A, BROADCAST, &[], 4_083);
    switch.frame_in(0, &arriving).unwrap();
    for port in 1..5 {
        assert_eq!(switch.frame_in(0, &arriving), Ok((13, 0)), "before port {port} takes");
        assert_eq!(take(&mut switch, port), (Ok((4_083, 0)), arriving.clone()));
    }
    assert_eq!(switch.frame_in(0, &arriving), Ok((0, 30)));
}

#[test]
fn the_second_new_tag_copies_nothing_from_the_first() {
    let mut switch = fresh();
    switch.set_vlan(1, 31, 0, push(header(7, 6, 1))).unwrap();
    let copying = Operation { vid_source: 0, pcp_source: 0, ..push(header(0, 0, 0)) };
    change_port(&mut switch, 1, |port| port.operation = copying);
    switch.frame_in(0, &frame(A, BROADCAST, &[tag(2, 1)], 60)).unwrap();
    let (_, written) = take(&mut switch, 1);
    assert_eq!(written[12..24], [tag(2, 1), [0x81, 0, 0xD0, 7], tag(2, 1)].concat());
}

#[test]
fn a_found_address_is_not_sent_to_a_port_that_is_no_member() {
    let mut switch = fresh();
    switch.frame_in(3, &untagged(B, BROADCAST)).unwrap();
    switch.set_vlan(1, 0b10111, 0, Operation::NONE).unwrap();
    assert_eq!(switch.frame_in(0, &untagged(A, B)), Ok((11, 0)));
}

#[test]
fn a_frame_to_its_own_sender_is_not_found() {
    let mut switch = fresh();
    assert_eq!(switch.frame_in(2, &untagged(A, A)), Ok((0, 0b11011)));
    assert_eq!(switch.frame_in(2, &untagged(A, A)), Ok((11, 0)));
}
