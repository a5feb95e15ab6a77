//! The bench program's input: whole, bad, overlong and cut records.

use streams::ending::endings;
use streams::stream::Stream;

fn printed(input: &[u8]) -> Vec<String> {
    model::bench::lines(input).map(|line| line.to_string()).collect()
}

#[test]
fn no_input_prints_nothing() {
    assert!(printed(&[]).is_empty());
}

/// Every ending but that between records gives one line with kind 0, and nothing behind it is read.
#[test]
fn every_ending_gives_its_line() {
    let age = [2, 0, 3, 0];
    for (way, ending) in endings().into_iter().enumerate() {
        let lines = printed(&[&age[..], &ending].concat());
        let expected: &[&str] = if way == 0 { &["1 3 ok 0 0"] } else { &["1 3 ok 0 0", "2 0 refused 11"] };
        assert_eq!(lines, expected, "ending {way}");
    }
}

/// A cut inside a record, wherever it is, ends the run.
#[test]
fn every_cut_of_a_record_ends_the_run() {
    let mut stream = Stream::new();
    stream.frame_in(0, &[7; 60]);
    for end in 1..stream.bytes.len() {
        assert_eq!(printed(&stream.bytes[..end]), ["1 0 refused 11"], "cut at {end}");
    }
}

#[test]
fn bad_records_are_skipped_and_show_their_kind() {
    let mut stream = Stream::new();
    stream.record(0, &[]);
    stream.record(14, &[]);
    stream.record(258, &[0]);
    stream.record(65_535, &[]);
    stream.record(1, &[]);
    stream.record(2, &[]);
    stream.record(2, &[9, 9]);
    stream.record(3, &[0]);
    stream.record(5, &[9; 15]);
    stream.record(6, &[9; 13]);
    stream.age();
    let kinds = [0, 14, 258, 65_535, 1, 2, 2, 3, 5, 6];
    let mut expected: Vec<String> =
        kinds.iter().zip(1..).map(|(kind, number)| format!("{number} {kind} refused 11")).collect();
    expected.push("11 3 ok 0 0".to_string());
    assert_eq!(printed(&stream.bytes), expected);
}

#[test]
fn frame_in_with_a_port_and_no_byte_is_a_frame_of_length_0() {
    let mut stream = Stream::new();
    stream.record(1, &[4]);
    stream.record(1, &[5]);
    assert_eq!(printed(&stream.bytes), ["1 1 ok 1 0", "2 1 refused 2"]);
}

#[test]
fn a_record_of_length_5000_is_good_and_one_of_5001_is_skipped() {
    let mut stream = Stream::new();
    stream.record(1, &[0; 4_998]);
    stream.record(1, &[0; 4_999]);
    stream.record(3, &[0; 65_533]);
    stream.counter(0, 0);
    assert_eq!(printed(&stream.bytes), ["1 1 ok 2 0", "2 1 refused 11", "3 3 refused 11", "4 4 ok 1 0"]);
}

/// A record's fields in their order, little-endian VIDs among them.
#[test]
fn fields_stand_where_the_rules_say() {
    let mut bench = model::bench::Bench::fresh();
    let input = [
        &[18, 0, 5, 0, 2, 4, 2, 0x34, 0x02, 6, 1, 5, 3, 1, 2, 1, 0x67, 0x05, 7, 1][..],
        &[14, 0, 6, 0, 0xFE, 0x0F, 0b10101, 15, 2, 0, 1, 2, 0x01, 0x02, 3, 0],
        &[10, 0, 8, 0, 12, 3, 2, 0, 0, 0, 1, 9],
        &[4, 0, 10, 0, 1, 3],
        &[5, 0, 11, 0, 4, 2, 0],
        &[3, 0, 13, 0, 0],
    ]
    .concat();
    for record in model::records::records(&input) {
        assert_eq!(bench.line(record).answer, Ok((0, 0)));
    }
    let settings = &bench.switch.settings;
    let port = settings.port(2);
    assert_eq!((port.state, port.assignment, port.flags), (4, 2, 5));
    assert_eq!((port.default.vid, port.default.pcp, port.default.dei), (0x234, 6, 1));
    let operation = port.operation;
    assert_eq!((operation.kind, operation.tag_type, operation.vid_source, operation.pcp_source), (3, 1, 2, 1));
    assert_eq!((operation.given.vid, operation.given.pcp, operation.given.dei), (0x567, 7, 1));
    let vlan = settings.vlan(4_094).expect("VID 0x0FFE is set");
    assert_eq!((vlan.members, vlan.gid, vlan.operation.kind), (0b10101, 15, 2));
    assert_eq!((vlan.operation.vid_source, vlan.operation.pcp_source, vlan.operation.given.vid), (1, 2, 0x201));
    assert_eq!(settings.queue_map, [0, 3, 1, 1, 2, 2, 3, 3]);
    assert!(!settings.is_queue_on(4, 2) && settings.is_queue_on(2, 2));
    assert!(!settings.bpdu_handling);
    assert_eq!(bench.switch.remove(12, 0x0200_0000_0109), Ok((0, 0)));
}
