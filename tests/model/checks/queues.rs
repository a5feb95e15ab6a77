//! Queues: the map, the switches, the order of leaving, drains.

use crate::scene::*;
use model::settings::BLOCKING;

#[test]
fn the_fresh_map_halves_the_pcp() {
    for pcp in 0..8 {
        let mut switch = fresh();
        switch.frame_in(0, &frame(A, B, &[tag(pcp, 1)], 60)).unwrap();
        assert_eq!(take(&mut switch, 1).0, Ok((60, u32::from(pcp) / 2)));
        change_port(&mut switch, 0, |port| port.default.pcp = u32::from(pcp));
        switch.frame_in(0, &untagged(A, B)).unwrap();
        assert_eq!(take(&mut switch, 2).0, Ok((60, u32::from(pcp) / 2)));
    }
}

#[test]
fn the_oldest_frame_of_the_highest_waiting_queue_leaves() {
    let mut switch = fresh();
    let arriving: Vec<Vec<u8>> =
        [0, 6, 2, 7, 2].into_iter().zip(60..).map(|(pcp, length)| frame(A, B, &[tag(pcp, 1)], length)).collect();
    for bytes in &arriving {
        switch.frame_in(0, bytes).unwrap();
    }
    for (place, queue) in [(1, 3), (3, 3), (2, 1), (4, 1), (0, 0)] {
        assert_eq!(take(&mut switch, 3), (Ok((60 + place as u32, queue)), arriving[place].clone()));
    }
    assert_eq!(take(&mut switch, 3).0, Ok((0, 0)));
}

#[test]
fn the_map_and_the_switch_are_used_on_arrival_only() {
    let mut switch = fresh();
    switch.frame_in(0, &untagged(A, B)).unwrap();
    switch.set_map(0, 2).unwrap();
    switch.set_queue_switch(1, 0, 0).unwrap();
    change_port(&mut switch, 1, |port| port.state = BLOCKING);
    assert_eq!(take(&mut switch, 1).0, Ok((60, 0)));
}

#[test]
fn a_drain_empties_all_four_queues_of_one_port() {
    let mut switch = fresh();
    for pcp in [0, 2, 4, 6] {
        switch.frame_in(0, &frame(A, B, &[tag(pcp, 1)], 60)).unwrap();
    }
    switch.set_queue_switch(1, 2, 0).unwrap();
    assert_eq!(switch.drain(1), Ok((4, 0)));
    assert_eq!(switch.drain(1), Ok((0, 0)));
    assert_eq!(switch.counter(1, 20), Ok((4, 0)));
    assert_eq!(switch.free_cells(), 196);
    assert_eq!(take(&mut switch, 2).0, Ok((60, 3)));
}
