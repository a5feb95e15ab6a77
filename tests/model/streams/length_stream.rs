//! Lengths at the cells' boundaries, in a memory that they fill to the last cell and overfill by one.

use crate::choice::{Frame, LENGTHS};
use crate::random::Random;
use crate::stream::{Stream, BROADCAST};

const SOURCE: u64 = 0x0200_0000_0300;

/// Lengths that take the named cells exactly, and one byte more.
const CELL_EDGES: [usize; 10] = [60, 72, 73, 152, 153, 232, 233, 1_592, 1_593, 1_600];

pub fn fill(stream: &mut Stream, random: &mut Random) {
    every_length(stream, random);
    edges_of_the_last_cells(stream, random);
    for _ in 0..6 {
        any_filling(stream, random);
    }
    stream.all_counters();
}

fn arrive(stream: &mut Stream, random: &mut Random, length: usize) {
    let port = random.byte_below(5);
    stream.frame_in(port, &Frame::untagged(BROADCAST, SOURCE).of_length(length).bytes(random));
}

fn every_length(stream: &mut Stream, random: &mut Random) {
    for length in LENGTHS.into_iter().chain([0, 1, 11, 12, 13, 14, 17, 58, 4_082, 4_085]) {
        arrive(stream, random, length);
        stream.take_at_all_ports();
    }
}

/// Fills the 200 cells but for `edge`'s cells less 0 or 1, then offers a frame of that length.
fn edges_of_the_last_cells(stream: &mut Stream, random: &mut Random) {
    for edge in CELL_EDGES {
        for lacking in 0..2 {
            let mut to_fill = 200 - (edge + 8).div_ceil(80) + lacking;
            while to_fill > 0 {
                let cells = to_fill.min(51);
                arrive(stream, random, cells * 80 - 8);
                to_fill -= cells;
            }
            arrive(stream, random, edge);
            arrive(stream, random, 60);
            stream.drain_all_ports();
        }
    }
}

/// Frames of all lengths until none fits, then takes that let single ones in again.
fn any_filling(stream: &mut Stream, random: &mut Random) {
    for _ in 0..25 {
        let length = random.pick(&LENGTHS);
        arrive(stream, random, length);
        let edge = random.pick(&CELL_EDGES);
        arrive(stream, random, edge);
        if random.chance(30) {
            stream.take_at_all_ports();
        }
    }
    stream.drain_all_ports();
}
