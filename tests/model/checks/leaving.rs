//! Taking a frame: tags on leaving, filling zeros, the lent buffer.

use crate::scene::*;
use model::operation::Operation;

#[test]
fn the_rest_of_the_buffer_keeps_its_bytes() {
    let mut switch = fresh();
    let arriving = untagged(A, B);
    switch.frame_in(0, &arriving).unwrap();
    let mut buffer = vec![0xEE; 5_000];
    assert_eq!(switch.take(1, &mut buffer), Ok((60, 0)));
    assert_eq!(buffer[..60], arriving);
    assert!(buffer[60..].iter().all(|byte| *byte == 0xEE));
}

#[test]
fn an_empty_port_and_a_refusal_write_and_count_nothing() {
    let mut switch = fresh();
    switch.frame_in(0, &untagged(A, B)).unwrap();
    let before = switch.clone();
    let mut buffer = vec![0xEE; 4_091];
    assert_eq!(switch.take(0, &mut buffer), Ok((0, 0)));
    assert_eq!(switch.take(5, &mut buffer), Err(2));
    assert_eq!(switch.take(1, &mut buffer[..4_090]), Err(5));
    assert!(buffer.iter().all(|byte| *byte == 0xEE));
    assert_eq!(switch, before);
}

#[test]
fn two_pushes_on_the_longest_frame_make_the_largest_result() {
    let mut switch = fresh();
    switch.set_vlan(1, 31, 0, push(header(2, 1, 0))).unwrap();
    change_port(&mut switch, 1, |port| port.operation = Operation { tag_type: 1, ..push(header(3, 7, 1)) });
    let arriving = frame(A, B, &[], 4_083);
    switch.frame_in(0, &arriving).unwrap();
    let (answer, written) = take(&mut switch, 1);
    assert_eq!(answer, Ok((4_091, 0)));
    assert_eq!(written[12..20], [0x88, 0xA8, 0xF0, 3, 0x81, 0, 0x20, 2]);
    assert_eq!(written[20..], arriving[12..]);
}

#[test]
fn a_result_under_60_bytes_is_filled_with_zeros() {
    for (length, tags, left) in [(60, 1, 60), (60, 2, 60), (64, 1, 60), (65, 1, 61), (67, 2, 60), (69, 2, 61)] {
        let mut switch = fresh();
        change_port(&mut switch, 1, |port| port.operation.kind = 4);
        let arriving = frame(A, B, &[tag(0, 1), tag(0, 1)][..tags], length);
        switch.frame_in(0, &arriving).unwrap();
        let mut expected = [&arriving[..12], &arriving[12 + 4 * tags..]].concat();
        expected.resize(left, 0);
        assert_eq!(take(&mut switch, 1), (Ok((left as u32, 0)), expected), "{length} bytes, {tags} tags");
    }
}

/// A third tag is payload: pop-all leaves it.
#[test]
fn a_third_tag_is_payload() {
    let mut switch = fresh();
    change_port(&mut switch, 1, |port| port.operation.kind = 4);
    switch.frame_in(0, &frame(A, B, &[tag(0, 1), tag(1, 2), tag(2, 3)], 80)).unwrap();
    let (_, written) = take(&mut switch, 1);
    assert_eq!(written[12..18], [0x81, 0, 0x40, 3, 8, 0]);
}

/// A missing second tag gives the default header as it was on arrival, not the outermost tag.
#[test]
fn a_missing_tag_gives_the_arrival_ports_default_header() {
    let mut switch = fresh();
    change_port(&mut switch, 0, |port| port.default = header(50, 5, 1));
    change_port(&mut switch, 1, |port| {
        port.operation = Operation { kind: 2, tag_type: 0, vid_source: 1, pcp_source: 1, given: header(9, 0, 0) };
        port.default = header(60, 6, 0);
    });
    switch.frame_in(0, &frame(A, B, &[tag(2, 1)], 60)).unwrap();
    change_port(&mut switch, 0, |port| port.default = header(70, 7, 0));
    let (_, written) = take(&mut switch, 1);
    assert_eq!(written[12..20], [0x81, 0, 0xB0, 50, 0x81, 0, 0x40, 1]);
}

#[test]
fn copied_vids_stay_as_they_are() {
    for vid in [0, 4_095] {
        let mut switch = fresh();
        change_port(&mut switch, 0, |port| port.assignment = 0);
        let copying = Operation { kind: 3, tag_type: 1, vid_source: 0, pcp_source: 2, given: header(9, 1, 1) };
        switch.set_vlan(1, 31, 0, copying).unwrap();
        switch.frame_in(0, &frame(A, B, &[tag(7, vid)], 60)).unwrap();
        let (_, written) = take(&mut switch, 2);
        let [high, low] = (0x3000 | vid).to_be_bytes();
        assert_eq!(written[12..16], [0x88, 0xA8, high, low]);
    }
}

/// The VLAN's operation is taken when the frame arrives, the departing port's when it leaves.
#[test]
fn when_the_operations_are_taken() {
    let mut switch = fresh();
    switch.set_vlan(1, 31, 0, push(header(2, 0, 0))).unwrap();
    switch.frame_in(0, &untagged(A, B)).unwrap();
    switch.clear_vlan(1).unwrap();
    change_port(&mut switch, 1, |port| port.operation = push(header(3, 0, 0)));
    let (_, written) = take(&mut switch, 1);
    assert_eq!(written[12..20], [tag(0, 3), tag(0, 2)].concat());
}
