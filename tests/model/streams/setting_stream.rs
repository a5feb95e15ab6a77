//! Records with values out of range at each field, singly and together, and frames that show what was really set.

use crate::choice::{forwarding_port, operation, tags, Frame, VIDS};
use crate::random::Random;
use crate::stream::{Port, Stream, ALL_PORTS, BROADCAST};

/// A field of a record's body: its width in bytes, values at both ends of its range, values outside.
struct Field {
    width: usize,
    good: &'static [u16],
    bad: &'static [u16],
}

const fn field(good: &'static [u16], bad: &'static [u16]) -> Field {
    Field { width: 1, good, bad }
}

const fn wide_field(good: &'static [u16], bad: &'static [u16]) -> Field {
    Field { width: 2, good, bad }
}

const PORT_NUMBER: Field = field(&[0, 1, 2, 3, 4], &[5, 6, 255]);
const STATE: Field = field(&[0, 1, 2, 3, 4], &[5, 255]);
const ASSIGNMENT: Field = field(&[0, 1, 2], &[3, 255]);
const VID: Field = wide_field(&[1, 2, 20, 4_094], &[0, 4_095, 4_096, 4_097, 65_535]);
const PCP: Field = field(&[0, 3, 7], &[8, 255]);
const DEI: Field = field(&[0, 1], &[2, 255]);
const FLAGS: Field = field(&[0, 0, 0, 1, 2, 4, 7], &[8, 16, 128, 255]);
const MEMBERS: Field = field(&[0, 31, 31, 31, 15], &[32, 255]);
const GID: Field = field(&[0, 1, 15], &[16, 255]);
const QUEUE: Field = field(&[0, 1, 2, 3], &[4, 255]);
const SWITCH: Field = field(&[0, 1], &[2, 255]);
const COUNTER: Field = field(&[0, 13, 14, 19, 20], &[21, 22, 255]);
const KIND: Field = field(&[0, 1, 2, 3, 4], &[5, 255]);
const TAG_TYPE: Field = field(&[0, 1], &[2, 255]);
const SOURCE: Field = field(&[0, 1, 2], &[3, 255]);
const GIVEN_VID: Field = wide_field(&[0, 1, 4_094], &[4_095, 4_096, 65_535]);
/// An address's first byte, of which the group bit is refused by the static call alone.
const FIRST_BYTE: Field = field(&[0, 2], &[1, 3, 255]);
const OTHER_BYTE: Field = field(&[0, 1, 255], &[]);

/// The fields of every record whose fields have ranges.
const KINDS: [(u16, &[Field]); 11] = [
    (2, &[PORT_NUMBER]),
    (4, &[PORT_NUMBER, COUNTER]),
    (5, &[PORT_NUMBER, STATE, ASSIGNMENT, VID, PCP, DEI, FLAGS, KIND, TAG_TYPE, SOURCE, SOURCE, GIVEN_VID, PCP, DEI]),
    (6, &[VID, MEMBERS, GID, KIND, TAG_TYPE, SOURCE, SOURCE, GIVEN_VID, PCP, DEI]),
    (7, &[VID]),
    (8, &[GID, PORT_NUMBER, FIRST_BYTE, OTHER_BYTE, OTHER_BYTE, OTHER_BYTE, OTHER_BYTE, OTHER_BYTE]),
    (9, &[GID, FIRST_BYTE, OTHER_BYTE, OTHER_BYTE, OTHER_BYTE, OTHER_BYTE, OTHER_BYTE]),
    (10, &[PCP, QUEUE]),
    (11, &[PORT_NUMBER, QUEUE, SWITCH]),
    (12, &[PORT_NUMBER]),
    (13, &[SWITCH]),
];

pub fn fill(stream: &mut Stream, random: &mut Random) {
    for (kind, fields) in KINDS {
        every_value_singly(stream, random, kind, fields);
    }
    for (kind, fields) in KINDS {
        every_pair_out_of_range(stream, random, kind, fields);
    }
    bad_values_for_a_full_table(stream, random);
    for _ in 0..200 {
        if random.chance(30) {
            open_all(stream, random);
        }
        let (kind, fields) = random.pick(&KINDS);
        let values: Vec<u16> = fields.iter().map(|field| any_value(random, field, 30)).collect();
        record_of(stream, kind, fields, &values);
        probe(stream, random);
    }
    stream.all_counters();
}

/// Each value of each field, good and bad, while the other fields are good.
fn every_value_singly(stream: &mut Stream, random: &mut Random, kind: u16, fields: &[Field]) {
    for (place, field) in fields.iter().enumerate() {
        open_all(stream, random);
        for value in field.bad.iter().chain(field.good) {
            let mut values: Vec<u16> = fields.iter().map(|field| any_value(random, field, 0)).collect();
            values[place] = *value;
            record_of(stream, kind, fields, &values);
            if random.chance(30) {
                probe(stream, random);
            }
        }
    }
}

/// Each two fields out of range at once, and all of them: the lowest refusal wins.
fn every_pair_out_of_range(stream: &mut Stream, random: &mut Random, kind: u16, fields: &[Field]) {
    for first in 0..fields.len() {
        for second in first + 1..fields.len() {
            let percent_bad = |place| if place == first || place == second { 100 } else { 0 };
            let values: Vec<u16> =
                fields.iter().enumerate().map(|(place, field)| any_value(random, field, percent_bad(place))).collect();
            record_of(stream, kind, fields, &values);
        }
    }
    let values: Vec<u16> = fields.iter().map(|field| any_value(random, field, 100)).collect();
    record_of(stream, kind, fields, &values);
}

/// New VLANs while 16 are in use: a value out of range is 3 before it is 6.
fn bad_values_for_a_full_table(stream: &mut Stream, random: &mut Random) {
    let (kind, fields) = KINDS[3];
    for vid in 2_000..2_016 {
        stream.vlan(vid, ALL_PORTS, 1, &operation(random));
    }
    for place in 1..fields.len() {
        for percent_bad in [0, 100] {
            let mut values: Vec<u16> = fields.iter().map(|field| any_value(random, field, 0)).collect();
            values[0] = 2_500;
            values[place] = any_value(random, &fields[place], percent_bad);
            record_of(stream, kind, fields, &values);
        }
    }
    (2_000..2_016).for_each(|vid| stream.clear_vlan(vid));
}

/// Lets every frame pass again, so that the next probes show more than a drop.
fn open_all(stream: &mut Stream, random: &mut Random) {
    for port in 0..5 {
        stream.port(port, &Port { assignment: 0, ..forwarding_port(random) });
    }
    for vid in VIDS {
        stream.vlan(vid, ALL_PORTS, 1, &operation(random));
    }
}

fn any_value(random: &mut Random, field: &Field, percent_bad: u64) -> u16 {
    let is_bad = random.chance(percent_bad) && !field.bad.is_empty();
    random.pick(if is_bad { field.bad } else { field.good })
}

fn record_of(stream: &mut Stream, kind: u16, fields: &[Field], values: &[u16]) {
    let bytes = fields.iter().zip(values).flat_map(|(field, value)| value.to_le_bytes()[..field.width].to_vec());
    stream.record(kind, &bytes.collect::<Vec<u8>>());
}

/// A frame to all and what departs of it: shows settings that a refused call would have left half changed.
fn probe(stream: &mut Stream, random: &mut Random) {
    let source = 0x0200_0000_0000 + random.below(4);
    let tags = tags(random);
    let frame = Frame::untagged(BROADCAST, source).tagged(&tags).bytes(random);
    stream.frame_in(random.byte_below(5), &frame);
    stream.take_at_all_ports();
}
