//! Bad records among good ones: unknown kinds, bodies of the wrong size, overlong records.

use crate::choice::Frame;
use crate::random::Random;
use crate::stream::{Stream, BROADCAST};

/// Kinds and the sizes of their bodies; frame-in's is the least.
const SIZES: [(u16, usize); 13] =
    [(1, 1), (2, 1), (3, 0), (4, 2), (5, 16), (6, 12), (7, 2), (8, 8), (9, 7), (10, 2), (11, 3), (12, 1), (13, 1)];

pub fn fill(stream: &mut Stream, random: &mut Random) {
    for (kind, size) in SIZES {
        wrong_sizes(stream, random, kind, size);
    }
    for kind in [0, 14, 15, 16, 64, 255, 256, 257, 258, 259, 0x0D00, 65_535] {
        stream.record(kind, &[]);
        stream.record(kind, &[0]);
        stream.record(kind, &[1, 2]);
    }
    for _ in 0..60 {
        any_bad_record(stream, random);
        if random.chance(40) {
            stream.frame_in(random.byte_below(5), &Frame::untagged(BROADCAST, 2).bytes(random));
        }
        stream.take(random.byte_below(5));
        stream.age();
    }
    long_records(stream, random);
    stream.all_counters();
}

/// Also with a port above 4 and other values out of range: 11 comes before any other.
fn wrong_sizes(stream: &mut Stream, random: &mut Random, kind: u16, size: usize) {
    for wrong in [0, size.saturating_sub(1), size + 1, size + 2] {
        for fill in [0, 1, 255] {
            stream.record(kind, &vec![fill; wrong]);
        }
        stream.take(random.byte_below(5));
    }
    stream.record(kind, &vec![1; size]);
    stream.age();
}

fn any_bad_record(stream: &mut Stream, random: &mut Random) {
    let (kind, size) = random.pick(&SIZES);
    let body: Vec<u8> = (0..random.below(size as u64 + 4)).map(|_| random.byte_below(6)).collect();
    stream.record(kind, &body);
}

/// A record of length 5,000 is good; from 5,001 on it is skipped whole, whatever its kind.
fn long_records(stream: &mut Stream, random: &mut Random) {
    for length in [4_998, 4_999, 5_000, 5_001, 5_002, 10_000, 65_535] {
        for kind in [1, 3, 77] {
            stream.record(kind, &vec![2; length - 2]);
        }
        stream.age();
        stream.counter(2, 0);
        stream.counter(2, 2);
        stream.take(random.byte_below(5));
    }
}
