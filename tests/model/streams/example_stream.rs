//! The worked example of docs/RULES.md.

use crate::choice::Frame;
use crate::random::Random;
use crate::stream::Stream;

const A: u64 = 0x0200_0000_0001;
const B: u64 = 0x0200_0000_0002;

pub fn fill(stream: &mut Stream, random: &mut Random) {
    stream.frame_in(0, &Frame::untagged(B, A).bytes(random));
    stream.frame_in(1, &Frame::untagged(A, B).bytes(random));
    stream.take(0);
    stream.take(0);
    stream.frame_in(2, &Frame::untagged(A, B).of_length(59).bytes(random));
    stream.take(5);
    stream.age();
    stream.age();
}
