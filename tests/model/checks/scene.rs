//! A fresh switch of 200 cells, frames and shorthand for the checks.

use model::frame::{Header, Tag, LARGEST_RESULT};
use model::operation::Operation;
use model::refusals::Answer;
use model::settings::Port;
use model::switch::Switch;

pub const A: u64 = 0x0200_0000_0001;
pub const B: u64 = 0x0200_0000_0002;
pub const C: u64 = 0x0200_0000_0003;
pub const BROADCAST: u64 = 0xFFFF_FFFF_FFFF;
pub const BPDU: u64 = 0x0180_C200_0000;

pub fn fresh() -> Switch {
    Switch::fresh(200).expect("200 cells are allowed")
}

/// A frame of `length` bytes from `source` to `destination` with the given four-byte tags; its payload has no zeros.
pub fn frame(source: u64, destination: u64, tags: &[[u8; 4]], length: usize) -> Vec<u8> {
    let mut bytes = [&destination.to_be_bytes()[2..], &source.to_be_bytes()[2..], &tags.concat(), &[8, 0]].concat();
    assert!(length >= bytes.len(), "addresses, tags and type fit");
    while bytes.len() < length {
        bytes.push(1 + (bytes.len() % 255) as u8);
    }
    bytes
}

/// A tag with type 0x8100, DEI 0.
pub fn tag(pcp: u8, vid: u16) -> [u8; 4] {
    let [high, low] = (u16::from(pcp) << 13 | vid).to_be_bytes();
    [0x81, 0x00, high, low]
}

pub fn untagged(source: u64, destination: u64) -> Vec<u8> {
    frame(source, destination, &[], 60)
}

/// A take into a buffer that is long enough: the answer and the written bytes.
pub fn take(switch: &mut Switch, port: u32) -> (Answer, Vec<u8>) {
    let mut buffer = vec![0xEE; LARGEST_RESULT];
    let answer = switch.take(port, &mut buffer);
    let written = answer.map_or(0, |(length, _)| length as usize);
    buffer.truncate(written);
    (answer, buffer)
}

/// Changes some of a port's settings by call.
pub fn change_port(switch: &mut Switch, port: u32, change: impl Fn(&mut Port)) {
    let mut settings = *switch.settings.port(port);
    change(&mut settings);
    let Port { state, assignment, default, flags, operation } = settings;
    assert_eq!(switch.set_port(port, state, assignment, default, flags, operation), Ok((0, 0)));
}

/// A push of a new tag with everything given.
pub fn push(header: Header) -> Operation {
    Operation { kind: 2, tag_type: 0, vid_source: 2, pcp_source: 2, given: header }
}

pub fn header(vid: u32, pcp: u32, dei: u32) -> Header {
    Header { vid, pcp, dei }
}

pub fn tag_8100(header: Header) -> Tag {
    Tag { tag_type: 0x8100, header }
}
